//! One call made of the library and of the peer, on equal bytes; all that comes back is compared.

use std::fmt::Debug;

use desk::raw;

use crate::oracle;
use crate::tally::Tally;

/// A call that judges one record.
pub type Check = fn(&[u8]) -> (u8, u8);

/// A call that reads from one slice and writes into another.
pub type Rewrite = fn(&[u8], &mut [u8]) -> (u8, u8);

/// A call that sets one value of a record.
pub type Setter = fn(&mut [u8], u8, i64) -> (u8, u8);

/// The same call of the library and of the peer.
pub struct Pair<Call> {
    name: &'static str,
    library: Call,
    peer: Call,
}

/// `desk_station_code`.
pub const STATION_CODE: Pair<Check> =
    Pair { name: "station_code", library: raw::station_code, peer: oracle::station_code };

/// `desk_header_code`.
pub const HEADER_CODE: Pair<Check> =
    Pair { name: "header_code", library: raw::header_code, peer: oracle::header_code };

/// `desk_respell_station`.
pub const RESPELL_STATION: Pair<Rewrite> =
    Pair { name: "respell_station", library: raw::respell_station, peer: oracle::respell_station };

/// `desk_respell_header`.
pub const RESPELL_HEADER: Pair<Rewrite> =
    Pair { name: "respell_header", library: raw::respell_header, peer: oracle::respell_header };

/// `desk_list_in`.
pub const LIST_IN: Pair<Rewrite> =
    Pair { name: "list_in", library: raw::list_in, peer: oracle::list_in };

/// The five setters; 9Y is never blank and has no `filled`.
pub const SETTERS: [Pair<Setter>; 5] = [
    Pair { name: "set_power", library: raw::set_power, peer: oracle::set_power },
    Pair { name: "set_azimuth", library: raw::set_azimuth, peer: oracle::set_azimuth },
    Pair { name: "set_elevation", library: raw::set_elevation, peer: oracle::set_elevation },
    Pair { name: "set_height", library: raw::set_height, peer: oracle::set_height },
    Pair {
        name: "set_ground",
        library: |record, _, metres| raw::set_ground(record, metres),
        peer: |record, _, metres| oracle::set_ground(record, metres),
    },
];

/// Makes calls in pairs and counts what they answer.
#[derive(Default)]
pub struct Comparison {
    /// What was met so far.
    pub tally: Tally,
}

impl Comparison {
    /// Compares a call that judges one record.
    pub fn check(&mut self, call: &Pair<Check>, record: &[u8]) {
        let lent = Lent::new(record);
        let answer = (call.library)(lent.part());
        agree(call.name, answer, (call.peer)(record), &[record]);
        untouched(call.name, &lent, record);
        self.tally.answer(call.name, answer);
    }

    /// Compares the kind that comes with a record's code; its code is that of `desk_station_code`, and the second judge gives both.
    pub fn kind(&mut self, record: &[u8]) {
        let lent = Lent::new(record);
        let answer = raw::station_kind(lent.part());
        agree("station_kind", answer, oracle::station_kind(record), &[record]);
        agree("kind and code", (answer.0, answer.1), raw::station_code(lent.part()), &[record]);
        untouched("station_kind", &lent, record);
        self.tally.kind(answer);
        let second = raw::station_second(lent.part());
        agree("station_second", second, answer, &[record]);
        untouched("station_second", &lent, record);
        self.tally.refusal("station_second", second.0);
    }

    /// Compares a call that reads `from` and writes into a buffer that holds `to`; answers what the
    /// library left there.
    pub fn rewrite(&mut self, call: &Pair<Rewrite>, from: &[u8], to: &[u8]) -> Vec<u8> {
        let lent = Lent::new(from);
        let (mut ours, mut theirs) = (Lent::new(to), Lent::new(to));
        let answer = (call.library)(lent.part(), ours.part_mut());
        agree(call.name, answer, (call.peer)(from, theirs.part_mut()), &[from, to]);
        agree_bytes(call.name, &ours, &theirs, &[from, to]);
        untouched(call.name, &lent, from);
        if answer.0 != 0 {
            untouched(call.name, &ours, to);
        }
        self.tally.answer(call.name, answer);
        if call.name == LIST_IN.name && answer.0 != 7 {
            self.reasons(from, answer.0);
        }
        ours.part().to_vec()
    }

    /// Compares the calls that say why a line is refused, and asks that they say what the refusal
    /// does.
    fn reasons(&mut self, line: &[u8], refusal: u8) {
        let lent = Lent::new(line);
        let marks = raw::line_marks(lent.part());
        agree("line_marks", marks, oracle::line_marks(line), &[line]);
        let field = raw::long_field(lent.part());
        agree("long_field", field, oracle::long_field(line), &[line]);
        let kind = raw::line_kind(lent.part());
        agree("line_kind", kind, oracle::line_kind(line), &[line]);
        untouched("line_kind", &lent, line);
        agree("list_in and line_marks", refusal == 10, marks.0 == 10, &[line]);
        agree("list_in and long_field", refusal == 11, marks.0 == 0 && field.0 == 11, &[line]);
        self.tally.refusal("line_marks", marks.0);
        agree("list_in and line_kind", refusal, kind.0, &[line]);
        self.tally.refusal("long_field", field.0);
        self.tally.line_kind(kind);
    }

    /// Compares filing a carriage into a buffer that holds `to`; answers what the library left.
    pub fn carriage(&mut self, line: &[u8], defaults: &[u8], to: &[u8]) -> Vec<u8> {
        let (lent, usual) = (Lent::new(line), Lent::new(defaults));
        let (mut ours, mut theirs) = (Lent::new(to), Lent::new(to));
        let answer = raw::carriage(lent.part(), usual.part(), ours.part_mut());
        let expected = oracle::carriage(line, defaults, theirs.part_mut());
        let inputs = [line, defaults, to];
        agree("carriage", answer, expected, &inputs);
        agree_bytes("carriage", &ours, &theirs, &inputs);
        untouched("carriage", &lent, line);
        untouched("carriage", &usual, defaults);
        if answer.0 != 0 {
            untouched("carriage", &ours, to);
        }
        self.tally.refusal("carriage", answer.0);
        ours.part().to_vec()
    }

    /// Compares the number in a name; answers how many digits it has.
    pub fn carriage_number(&mut self, name: &[u8]) -> usize {
        let lent = Lent::new(name);
        let (digits, offset) = raw::carriage_number(lent.part());
        agree("carriage_number", (digits, offset), oracle::carriage_number(name), &[name]);
        untouched("carriage_number", &lent, name);
        self.tally.refusal("carriage_number", digits as u8);
        digits
    }

    /// Compares a setter.
    pub fn set(&mut self, call: &Pair<Setter>, record: &[u8], filled: u8, number: i64) {
        let (mut ours, mut theirs) = (Lent::new(record), Lent::new(record));
        let answer = (call.library)(ours.part_mut(), filled, number);
        let expected = (call.peer)(theirs.part_mut(), filled, number);
        agree(call.name, (filled, number, answer), (filled, number, expected), &[record]);
        agree_bytes(call.name, &ours, &theirs, &[record]);
        if answer.0 != 0 {
            untouched(call.name, &ours, record);
        }
        self.tally.refusal(call.name, answer.0);
    }

    /// Compares judging; the sheet is lent as it stands and comes back as it was left.
    pub fn judge(&mut self, file: &[u8], mut sheet: Vec<u8>) -> Vec<u8> {
        let lent = Lent::new(file);
        let (mut ours, mut theirs) = (Lent::new(&sheet), Lent::new(&sheet));
        let refusal = raw::judge(lent.part(), ours.part_mut());
        agree("judge", refusal, oracle::judge(file, theirs.part_mut()), &[file, &sheet]);
        agree_bytes("judge", &ours, &theirs, &[file, &sheet]);
        untouched("judge", &lent, file);
        self.tally.refusal("judge", refusal);
        if refusal == 0 {
            self.tally.sheet(ours.part());
        } else {
            untouched("judge", &ours, &sheet);
        }
        sheet.copy_from_slice(ours.part());
        sheet
    }

    /// Compares a replacement; file and sheet are left as the library left them.
    pub fn replace(&mut self, file: &mut [u8], sheet: &mut [u8], number: usize, record: &[u8]) {
        let lent = Lent::new(record);
        let (mut our_file, mut their_file) = (Lent::new(file), Lent::new(file));
        let (mut our_sheet, mut their_sheet) = (Lent::new(sheet), Lent::new(sheet));
        let answer = raw::replace(our_file.part_mut(), our_sheet.part_mut(), number, lent.part());
        let expected =
            oracle::replace(their_file.part_mut(), their_sheet.part_mut(), number, record);
        let inputs: [&[u8]; 3] = [record, sheet, file];
        agree("replace", (number, answer), (number, expected), &inputs);
        agree_bytes("replace (sheet)", &our_sheet, &their_sheet, &inputs);
        agree_bytes("replace (file)", &our_file, &their_file, &inputs);
        untouched("replace", &lent, record);
        self.tally.refusal("replace", answer.0);
        if answer.0 == 0 {
            self.tally.rows_written(answer.1);
        } else {
            untouched("replace", &our_file, file);
            untouched("replace", &our_sheet, sheet);
        }
        file.copy_from_slice(our_file.part());
        sheet.copy_from_slice(our_sheet.part());
    }

    /// Compares verifying; answers what was found, and the offset.
    pub fn verify(&mut self, file: &[u8], sheet: &[u8]) -> (u8, usize) {
        let (our_file, our_sheet) = (Lent::new(file), Lent::new(sheet));
        let answer = raw::verify(our_file.part(), our_sheet.part());
        agree("verify", answer, oracle::verify(file, sheet), &[sheet, file]);
        untouched("verify", &our_file, file);
        untouched("verify", &our_sheet, sheet);
        self.tally.refusal("verify", answer.0);
        (answer.1, answer.2)
    }

    /// Compares the page of operators, into bytes that hold `lent`; answers the refusal, how many
    /// rows there are, and what the bytes hold then.
    pub fn operators(&mut self, file: &[u8], lent: &[u8]) -> (u8, usize, Vec<u8>) {
        let our_file = Lent::new(file);
        let (mut ours, mut theirs) = (Lent::new(lent), Lent::new(lent));
        let answer = raw::operators(our_file.part(), ours.part_mut());
        let expected = oracle::operators(file, theirs.part_mut());
        agree("operators", answer, expected, &[lent, file]);
        agree_bytes("operators", &ours, &theirs, &[lent, file]);
        untouched("operators", &our_file, file);
        if answer.0 != 0 {
            untouched("operators", &ours, lent);
        }
        self.tally.refusal("operators", answer.0);
        (answer.0, answer.1, ours.part().to_vec())
    }

    /// Compares running a trace of saves; answers the saves accepted and refused and the one that
    /// stopped the run.
    pub fn replay(&mut self, file: &mut [u8], sheet: &mut [u8], trace: &[u8]) -> [usize; 3] {
        let lent = Lent::new(trace);
        let (mut our_file, mut their_file) = (Lent::new(file), Lent::new(file));
        let (mut our_sheet, mut their_sheet) = (Lent::new(sheet), Lent::new(sheet));
        let answer = raw::replay(our_file.part_mut(), our_sheet.part_mut(), lent.part());
        let expected = oracle::replay(their_file.part_mut(), their_sheet.part_mut(), trace);
        let inputs: [&[u8]; 3] = [trace, sheet, file];
        agree("replay", answer, expected, &inputs);
        agree_bytes("replay (sheet)", &our_sheet, &their_sheet, &inputs);
        agree_bytes("replay (file)", &our_file, &their_file, &inputs);
        untouched("replay", &lent, trace);
        self.tally.refusal("replay", answer.0);
        let (refusal, accepted, refused, stopped) = answer;
        if refusal == 0 {
            self.tally.day(accepted, refused, stopped);
        } else {
            untouched("replay", &our_file, file);
            untouched("replay", &our_sheet, sheet);
        }
        file.copy_from_slice(our_file.part());
        sheet.copy_from_slice(our_sheet.part());
        [accepted, refused, stopped]
    }

    /// Compares showing.
    pub fn show(&mut self, file: &[u8], number: usize, field: usize) {
        let answer = raw::show(file, number, field);
        let expected = oracle::show(file, number, field);
        agree("show", (number, field, answer), (number, field, expected), &[file]);
        self.tally.refusal("show", answer.0);
    }

    /// Compares writing a line into a buffer that holds `buffer`; answers the line, of no bytes
    /// where the call is refused.
    pub fn list_out(&mut self, record: &[u8], buffer: &[u8]) -> Vec<u8> {
        let lent = Lent::new(record);
        let (mut ours, mut theirs) = (Lent::new(buffer), Lent::new(buffer));
        let (refusal, length, code) = raw::list_out(lent.part(), ours.part_mut());
        let expected = oracle::list_out(record, theirs.part_mut());
        agree("list_out", (refusal, length, code), expected, &[record, buffer]);
        agree_bytes("list_out", &ours, &theirs, &[record, buffer]);
        untouched("list_out", &lent, record);
        if refusal != 0 {
            untouched("list_out", &ours, buffer);
        }
        self.tally.answer("list_out", (refusal, code));
        let (line, rest) = ours.part().split_at(length);
        assert_eq!(rest, &buffer[length..], "list_out: bytes after the line have changed");
        line.to_vec()
    }
}

/// Bytes between two margins that no call may touch.
struct Lent(Vec<u8>);

impl Lent {
    const MARGIN: [u8; 16] = [0xa5; 16];

    fn new(content: &[u8]) -> Lent {
        Lent([&Self::MARGIN, content, &Self::MARGIN].concat())
    }

    fn part(&self) -> &[u8] {
        &self.0[Self::MARGIN.len()..self.0.len() - Self::MARGIN.len()]
    }

    fn part_mut(&mut self) -> &mut [u8] {
        let end = self.0.len() - Self::MARGIN.len();
        &mut self.0[Self::MARGIN.len()..end]
    }
}

fn agree<Answer: PartialEq + Debug>(call: &str, ours: Answer, theirs: Answer, inputs: &[&[u8]]) {
    if ours != theirs {
        panic!("{call}: the library gives {ours:?}, the peer {theirs:?}{}", listing(inputs));
    }
}

/// Lent bytes, margins included, must be left equal.
fn agree_bytes(call: &str, ours: &Lent, theirs: &Lent, inputs: &[&[u8]]) {
    if ours.0 != theirs.0 {
        let place = ours.0.iter().zip(&theirs.0).position(|(a, b)| a != b).unwrap_or(0);
        panic!(
            "{call}: the library leaves {} at offset {}, the peer {}{}",
            ours.0[place],
            place as isize - Lent::MARGIN.len() as isize,
            theirs.0[place],
            listing(inputs)
        );
    }
}

fn untouched(call: &str, lent: &Lent, content: &[u8]) {
    if lent.0 != Lent::new(content).0 {
        panic!("{call}: bytes that were to stay have changed{}", listing(&[content]));
    }
}

/// The bytes that a call was given, as far as they can be read.
fn listing(inputs: &[&[u8]]) -> String {
    let line = |input: &&[u8]| {
        let shown = &input[..input.len().min(700)];
        format!("\n  {} bytes: \"{}\"", input.len(), shown.escape_ascii())
    };
    inputs.iter().map(line).collect()
}
