//! Runs of replacements in one file, with its own sheet or that of another.

use peer::{sheet_length, Record, MAX_FILE_LENGTH, STATION_FIELDS};

use desk::SAVE_LENGTH;

use crate::calls::Comparison;
use crate::fields;
use crate::random::Random;
use crate::records::{self, OTHER_LENGTHS};

/// How many stations the files have; the largest is the slowest.
const SIZES: [usize; 14] = [0, 1, 1, 2, 2, 2, 3, 10, 10, 10, 10, 250, 257, 298];

/// How many calls a run makes.
const STEPS: usize = 16;

/// Stations that break each rule, and as many that break none.
pub struct Pool {
    stations: Vec<Record>,
}

impl Pool {
    /// A pool made anew.
    pub fn new(random: &mut Random) -> Pool {
        let targets = (0..40).cycle().take(400);
        let broken: Vec<_> = targets.map(|target| records::station(random, target)).collect();
        let good = (0..400).map(|_| records::station(random, 0));
        Pool { stations: broken.into_iter().chain(good).collect() }
    }

    /// A station, mostly with one of the 13X given.
    pub fn referenced(&self, random: &mut Random, references: &[Vec<u8>]) -> Record {
        let mut record = random.pick(&self.stations);
        if !random.one_in(16) {
            let reference = &references[random.below(references.len())];
            records::put(&mut record, &STATION_FIELDS, 30, reference);
        }
        record
    }

    /// Such a station, often with one of the places and heights.
    fn station(&self, random: &mut Random, drawn: &Drawn) -> Record {
        let mut record = self.referenced(random, &drawn.references);
        if !random.one_in(4) {
            let (place, height) = &drawn.stands[random.below(drawn.stands.len())];
            records::put(
                &mut record,
                &STATION_FIELDS,
                11,
                &fields::loosened(random, place, &PLACE_NUMBERS),
            );
            records::put(
                &mut record,
                &STATION_FIELDS,
                21,
                &fields::loosened(random, height, &[[0, 4]]),
            );
        }
        record
    }
}

/// What the stations of a run are drawn from.
struct Drawn {
    /// The 13X.
    references: Vec<Vec<u8>>,
    /// 4C and 9Y: few, so that stations of one site stand together as often as apart.
    stands: Vec<(Vec<u8>, Vec<u8>)>,
}

/// A record's number, and the record that is to stand there.
type Call = (usize, Vec<u8>);

/// One file, its sheet and the calls made on them.
struct Run<'a> {
    comparison: &'a mut Comparison,
    random: &'a mut Random,
    pool: &'a Pool,
    drawn: Drawn,
    stations: usize,
    file: Vec<u8>,
    sheet: Vec<u8>,
}

/// Makes one run and compares after every call; what is wrong with the headers takes turns.
pub fn run(comparison: &mut Comparison, random: &mut Random, pool: &Pool, index: usize) {
    let stations = random.pick(&SIZES);
    let drawn = Drawn { references: references(random), stands: stands(random) };
    let mut run = Run {
        comparison,
        random,
        pool,
        drawn,
        stations,
        file: Vec::new(),
        sheet: vec![0; sheet_length(stations)],
    };
    let header = run.header(index % 16);
    run.file = run.file_with(header);
    run.go();
}

impl Run<'_> {
    fn go(&mut self) {
        let own_sheet = !self.random.one_in(4);
        self.sheet.fill(self.random.byte());
        if own_sheet {
            self.sheet = self.comparison.judge(&self.file, self.sheet.clone());
        } else {
            self.sheet = self.foreign_sheet();
        }
        for _ in 0..STEPS {
            self.step();
            if own_sheet {
                self.judge_afresh();
            }
        }
        if own_sheet {
            self.either_order();
        }
        self.verify(own_sheet);
        self.replay();
        self.show();
    }

    /// A day's saves run again from the file: whole, cut off at every byte of one save or at any
    /// byte, with a byte changed; in two parts they end the same; then with lengths that are wrong.
    fn replay(&mut self) {
        let saves = self.random.pick(&[0, 1, 2, 5, 12]);
        let trace: Vec<u8> = (0..saves).flat_map(|_| self.save()).collect();
        let (left, told) = self.day(&self.file.clone(), &trace);
        let cut = SAVE_LENGTH * self.random.below(saves + 1);
        let (middle, first) = self.day(&self.file.clone(), &trace[..cut]);
        let (end, second) = self.day(&middle, &trace[cut..]);
        if first[2] == 0 {
            assert_eq!(end, left, "a day stopped and gone on with ends in another list");
            let stopped = if second[2] == 0 { 0 } else { cut / SAVE_LENGTH + second[2] };
            assert_eq!(
                [first[0] + second[0], first[1] + second[1], stopped],
                told,
                "counts add up"
            );
        }
        if self.stations <= 2 && saves > 0 {
            let whole = SAVE_LENGTH * self.random.below(saves);
            for end in whole..=whole + SAVE_LENGTH {
                self.day(&self.file.clone(), &trace[..end]);
            }
        }
        if saves > 0 {
            let mut damaged = trace.clone();
            let place =
                SAVE_LENGTH * self.random.below(saves) + self.random.pick(&[0, 1, 2, 3, 221]);
            damaged[place] = self.random.pick(b" /:0A\0\xff");
            let end = trace.len() - self.random.below(SAVE_LENGTH);
            self.day(&self.file.clone(), &damaged);
            self.day(&self.file.clone(), &damaged[..end]);
        }
        let (mut file, mut sheet) = (self.file.clone(), self.sheet.clone());
        match self.random.below(3) {
            0 => file.resize(MAX_FILE_LENGTH + 1, b' '),
            1 => file.truncate(self.file.len() - 1),
            _ => sheet.push(0),
        }
        let told = self.comparison.replay(&mut file, &mut sheet, &trace);
        assert_eq!(told, [0; 3], "a refused day has counts");
    }

    /// A save: mostly of a number that there is, or one above the last.
    fn save(&mut self) -> Vec<u8> {
        let number = match self.random.below(8) {
            0 => 0,
            1 => self.stations + 1 + self.random.below(3),
            2 => 999,
            _ => self.random.below(self.stations + 1),
        };
        let record = match number {
            0 => self.any_header(),
            _ => self.pool.station(self.random, &self.drawn),
        };
        [format!("{number:03}").as_bytes(), &record].concat()
    }

    /// The list that a trace leaves, and what it tells; the sheet left is the one judged from it.
    fn day(&mut self, morning: &[u8], trace: &[u8]) -> (Vec<u8>, [usize; 3]) {
        let mut file = morning.to_vec();
        let mut sheet = vec![self.random.byte(); self.sheet.len()];
        let told = self.comparison.replay(&mut file, &mut sheet, trace);
        let fresh = self.comparison.judge(&file, vec![0; sheet.len()]);
        assert_eq!(sheet, fresh, "the sheet left is not the one judged from the list left");
        (file, told)
    }

    /// A sheet that was judged and mended is right, and every other byte in the judged sheet is
    /// found where it stands, even with more behind it; then with something of another length.
    fn verify(&mut self, own_sheet: bool) {
        let found = self.comparison.verify(&self.file, &self.sheet);
        if own_sheet {
            assert_eq!(found, (1, 0), "a mended sheet is not found right");
        }
        let judged = self.judged();
        let places: Vec<usize> = if self.stations <= 10 {
            (0..judged.len()).collect()
        } else {
            let behind = 1 + self.random.below(10);
            vec![0, self.random.below(judged.len()), judged.len() - behind]
        };
        for place in places {
            let mut sheet = judged.clone();
            sheet[place] ^= 1 + self.random.byte() % 255;
            assert_eq!(self.comparison.verify(&self.file, &sheet), (2, place), "one byte is wrong");
            let behind = place + self.random.below(sheet.len() - place);
            sheet[behind + 1..].fill_with(|| self.random.byte());
            assert_eq!(
                self.comparison.verify(&self.file, &sheet),
                (2, place),
                "the first is wrong"
            );
        }
        let (mut long, mut file) = (judged.clone(), self.file.clone());
        long.push(0);
        self.comparison.verify(&file, &long);
        self.comparison.verify(&file, &judged[1..]);
        file.resize(self.random.pick(&[0, file.len() - 1, MAX_FILE_LENGTH + 1]), b' ');
        self.comparison.verify(&file, &judged);
        self.comparison.verify(&file, &long);
    }

    /// The sheet judged from the file, by the peer.
    fn judged(&self) -> Vec<u8> {
        let mut sheet = vec![0; self.sheet.len()];
        peer::judge(&self.file, &mut sheet).expect("the file and its sheet have their lengths");
        sheet
    }

    /// A sheet judged from another file, with any bytes in its rows now and then.
    fn foreign_sheet(&mut self) -> Vec<u8> {
        let header = self.any_header();
        let other = self.file_with(header);
        let mut sheet = self.comparison.judge(&other, self.sheet.clone());
        if self.random.one_in(2) {
            sheet[..5 * self.stations].fill_with(|| self.random.byte());
        }
        sheet
    }

    fn file_with(&mut self, header: Record) -> Vec<u8> {
        let mut file = header.to_vec();
        for _ in 0..self.stations {
            file.extend(self.pool.station(self.random, &self.drawn));
        }
        if self.stations > 257 && self.random.one_in(2) {
            self.put_far_clash(&mut file);
        }
        file
    }

    /// Station 257 and the last one at a site that no other has, and at two heights.
    fn put_far_clash(&mut self, file: &mut [u8]) {
        let place = fields::place(self.random);
        for (number, reference, height) in
            [(257, b"AUT2399ZZ99Z001", b"0030"), (self.stations, b"AUT2399ZZ99Z002", b"0031")]
        {
            let mut record = records::station(self.random, 0);
            records::put(&mut record, &STATION_FIELDS, 11, &place);
            records::put(&mut record, &STATION_FIELDS, 21, height);
            records::put(&mut record, &STATION_FIELDS, 30, reference);
            file[219 * number..][..219].copy_from_slice(&record);
        }
    }

    /// A header that mostly has this code in its file.
    fn header(&mut self, code: usize) -> Record {
        let count = self.stations as i64;
        if code == 15 {
            let other = count + self.random.pick(&[-1, 1, 256, 65_536]);
            records::header(self.random, 0, if other < 0 { 1 } else { other })
        } else {
            records::header(self.random, code, count)
        }
    }

    fn any_header(&mut self) -> Record {
        let code = self.random.below(16);
        match self.random.below(4) {
            0 => self.header(15),
            1 => self.header(code),
            2 => records::any_header(self.random, 0, self.stations as i64),
            _ => self.header(0),
        }
    }

    fn step(&mut self) {
        if self.random.one_in(4) {
            return self.refused_calls();
        }
        let number = self.random.below(self.stations + 1);
        let mut record = if number == 0 {
            self.any_header()
        } else {
            self.pool.station(self.random, &self.drawn)
        };
        if self.random.one_in(6) {
            let old = &self.file[219 * number..][..219];
            match self.random.below(3) {
                0 => record.copy_from_slice(old),
                1 => record[204..].copy_from_slice(&old[204..]),
                _ => record[..204].copy_from_slice(&old[..204]),
            }
        }
        self.comparison.replace(&mut self.file, &mut self.sheet, number, &record);
    }

    /// A sheet judged from its file stays what judging gives.
    fn judge_afresh(&mut self) {
        let blank = vec![self.random.byte(); self.sheet.len()];
        let fresh = self.comparison.judge(&self.file, blank);
        assert_eq!(self.sheet, fresh, "a mended sheet is not the sheet judged afresh");
    }

    /// Several clerks: the same calls in another order, in which those at each number keep theirs, leave the same list and sheet.
    fn either_order(&mut self) {
        let size = self.random.pick(&[2, 2, 3, 8]);
        let calls: Vec<Call> = (0..size).map(|_| self.call()).collect();
        let others = reordered(self.random, &calls);
        let left = self.after(&calls);
        assert_eq!(
            left,
            self.after(&others),
            "calls at different numbers do not come in either order"
        );
    }

    /// A replacement of any number, one above the last among them, by a record that may have another length.
    fn call(&mut self) -> Call {
        let number = self.random.below(self.stations + 2);
        let mut record = if number == 0 {
            self.any_header().to_vec()
        } else {
            self.pool.station(self.random, &self.drawn).to_vec()
        };
        if self.random.one_in(8) {
            let length = self.random.pick(&OTHER_LENGTHS);
            record.resize(length, b' ');
        }
        (number, record)
    }

    /// What calls leave of the list and its sheet.
    fn after(&mut self, calls: &[Call]) -> (Vec<u8>, Vec<u8>) {
        let (mut file, mut sheet) = (self.file.clone(), self.sheet.clone());
        for (number, record) in calls {
            self.comparison.replace(&mut file, &mut sheet, *number, record);
        }
        (file, sheet)
    }

    /// Calls in which one or more of the things that refusals 1 to 6 ask about are wrong.
    fn refused_calls(&mut self) {
        let faults = 1 + self.random.below(63);
        let wrong = |refusal: usize| faults >> (refusal - 1) & 1 == 1;
        let (mut file, mut sheet) = (self.file.clone(), self.sheet.clone());
        let mut number = self.random.below(self.stations + 1);
        let mut record = self.pool.station(self.random, &self.drawn).to_vec();
        if wrong(1) && self.random.one_in(4) {
            let long = [1, 219, 220, 5_000];
            file.resize(MAX_FILE_LENGTH + self.random.pick(&long), b' ');
        }
        if wrong(2) && self.random.one_in(2) {
            let length = file.len();
            let lengths = [0, 1, 218, 220, length - 1, length + 1, length + 218];
            file.resize(self.random.pick(&lengths), b' ');
        }
        if wrong(3) && self.random.one_in(2) {
            let length = sheet.len();
            let lengths = [0, 1, 9, length - 1, length + 1, length - 2, length + 2, length + 256];
            sheet.resize(self.random.pick(&lengths), 0);
        }
        if wrong(4) && !sheet.is_empty() {
            let from_end = self.random.pick(&[1, 2, 8, 9, 10]).min(sheet.len());
            let place = sheet.len() - from_end;
            sheet[place] = sheet[place].wrapping_add(self.random.pick(&[1, 2, 255]));
        }
        if wrong(5) {
            let above = self.stations + 1;
            number = self.random.pick(&[above, above + 1, 299, 512, 1 << 32, usize::MAX]);
        }
        if wrong(6) {
            let length = self.random.pick(&OTHER_LENGTHS);
            record.resize(length, b' ');
        }
        let field = self.random.below(33);
        self.comparison.show(&file, number, field);
        self.comparison.judge(&file, sheet.clone());
        let before = (file.clone(), sheet.clone());
        self.comparison.replace(&mut file, &mut sheet, number, &record);
        if (&before.0, &before.1) == (&self.file, &self.sheet) {
            // Nothing was wrong with what was lent, so the call may have been done.
            (self.file, self.sheet) = (file, sheet);
        }
    }

    /// Shows every field of a few records, and some that are not there.
    fn show(&mut self) {
        let last = self.stations;
        let any = self.random.below(last + 1);
        for number in [0, any, last, last + 1, usize::MAX] {
            for field in (0..=32).chain([256, 257, usize::MAX]) {
                self.comparison.show(&self.file, number, field);
            }
        }
    }
}

/// The calls in another order, in which those at each number keep theirs.
fn reordered(random: &mut Random, calls: &[Call]) -> Vec<Call> {
    let mut left = calls.to_vec();
    let mut others = Vec::new();
    while !left.is_empty() {
        let number = left[random.below(left.len())].0;
        let first = left.iter().position(|call| call.0 == number).expect("it was picked from them");
        others.push(left.remove(first));
    }
    others
}

/// The 13X of a run: one or many, some of them unlike in one byte, some broken.
fn references(random: &mut Random) -> Vec<Vec<u8>> {
    let first = fields::reference(random);
    let size = random.pick(&[1, 2, 3, 5, 40, 400]);
    let mut references = vec![first.clone()];
    while references.len() < size {
        let reference = match random.below(4) {
            0 => fields::reference(random),
            1 => fields::bad_station(random, 30),
            _ => {
                let mut near = first.clone();
                let place = random.pick(&[0, 5, 7, 10, 11, 12, 13, 14]);
                near[place] = random.pick(b"0123456789");
                near
            }
        };
        references.push(reference);
    }
    references
}

/// The places and heights of a run: one or some, zero and 180 degrees with either letter among them.
fn stands(random: &mut Random) -> Vec<(Vec<u8>, Vec<u8>)> {
    let first = (fields::place(random), b"0030".to_vec());
    let size = random.pick(&[1, 2, 2, 3, 6]);
    let mut stands = vec![first.clone()];
    while stands.len() < size {
        let stand = match random.below(4) {
            0 => (first.0.clone(), random.pick(&[b"0031", b"0000", b"1030"]).to_vec()),
            1 => (random.pick(&TELLING_PLACES).to_vec(), b"0030".to_vec()),
            2 => (fields::place(random), b"0030".to_vec()),
            _ => {
                let mut near = first.0.clone();
                let place = random.pick(&[5, 7, 14]);
                near[place] = random.pick(b"0123456789");
                (near, first.1.clone())
            }
        };
        stands.push(stand);
    }
    stands
}

/// Where the six numbers of 4C stand: first place, from 0, and length.
const PLACE_NUMBERS: [[usize; 2]; 6] = [[0, 3], [4, 2], [6, 2], [8, 2], [11, 2], [13, 2]];

/// Places that are one although they are spelled in two ways, and two although they are one on the ground.
const TELLING_PLACES: [&[u8; 15]; 5] = [
    b"000E000000N0000",
    b"000W000000N0000",
    b"000E000000S0000",
    b"180E000000N0000",
    b"180W000000N0000",
];
