//! A refused line in words: what the library says of it, and what a spreadsheet may have done.
//!
//! The first words are the library's answers: the field that is too long, the marks that are
//! missing, the rule that is broken. What follows is only what the line's own bytes show.

use desk::{Kind, Refusal};

use crate::cleaning::{is_empty, is_separated_by, is_separator_line, is_titles, BYTE_ORDER_MARK};
use crate::filings::quoted;
use crate::rules::{self, Rule};

/// The fields that hold a date: 2C, 2W and 2Z.
const DATES: [usize; 3] = [8, 28, 29];

/// What is wrong with a line that was refused, a sentence each; `number` counts lines from 1.
pub fn explain(number: usize, line: &[u8], refusal: Refusal) -> Vec<String> {
    let mut words = Vec::new();
    match refusal {
        Refusal::NotALine => shape(line, &mut words),
        Refusal::FieldTooLong => too_long(line, &mut words),
        Refusal::RuleBroken { code } => broken(line, code.into(), &mut words),
        Refusal::FileTooLong => {
            words.push("a filing has at most 298 stations; this line is one more".to_string())
        }
        other => words.push(other.to_string()),
    }
    seen(number, line, refusal, &mut words);
    words
}

/// What is wrong with the field of a broken rule, in the words of `explain` and `list_in`.
pub fn kind_words(kind: Kind) -> &'static str {
    match kind {
        Kind::Byte => "byte not admitted",
        Kind::Range => "out of range",
        Kind::Shape => "cannot be read",
        Kind::Between => "between fields",
    }
}

/// The field that a refusal is about: the one that is too long, or the one whose rule is broken.
pub fn field_of(line: &[u8], refusal: Refusal) -> Option<usize> {
    match refusal {
        Refusal::FieldTooLong => desk::long_field(line).map(|field| field.number),
        Refusal::RuleBroken { code } => {
            Some(code.into()).filter(|&code| code <= rules::STATION_FIELDS)
        }
        _ => None,
    }
}

/// Refusal 10: how many semicolons there are, and whether the line ends.
fn shape(line: &[u8], words: &mut Vec<String>) {
    let marks = desk::line_marks(line);
    if marks.semicolons != 29 {
        words.push(format!(
            "the line has {} semicolons; a station's line has 29, between thirty fields",
            marks.semicolons
        ));
    }
    if !marks.ended {
        words.push("the line does not end in a line feed; the list may be cut off".to_string());
    }
}

/// Refusal 11: the first field that is too long.
fn too_long(line: &[u8], words: &mut Vec<String>) {
    if let Some(field) = desk::long_field(line) {
        words.push(format!(
            "field {}, {}, has {} bytes and may have {}: {}",
            field.number,
            rules::station_title(field.number),
            field.length,
            field.most,
            shown(cell(line, field.number))
        ));
    }
}

/// Refusal 9: the field and its rule, or the rule between fields.
fn broken(line: &[u8], code: usize, words: &mut Vec<String>) {
    match rules::station_rule(code).or_else(|| rules::between_rule(code)) {
        Some(Rule::Field { title, rule, good }) => {
            words.push(format!("field {code}, {title}, is {}", shown(cell(line, code))));
            words.push(format!("its rule: {rule}; good is {good}"));
        }
        Some(Rule::Between { broken, mend }) => {
            words.push(format!("rule {code} is broken: {broken}"));
            words.push(format!("mend it by {mend}"));
        }
        None => words.push(format!("rule {code} is broken")),
    }
}

/// What the bytes of the line show, and what to do about it.
fn seen(number: usize, line: &[u8], refusal: Refusal, words: &mut Vec<String>) {
    let mut say = |text: &str| words.push(text.to_string());
    let row = line.strip_suffix(b"\n").unwrap_or(line);
    let row = row.strip_suffix(b"\r").unwrap_or(row);
    let bare = row.strip_prefix(BYTE_ORDER_MARK).unwrap_or(row);
    if refusal == Refusal::FileTooLong {
        return;
    }
    if bare.len() < row.len() {
        say("it begins with a byte order mark; tools/clean_list takes it off");
    }
    if line.ends_with(b"\r\n") || line.ends_with(b"\r") {
        say("it ends in CR, as lists from Windows do; tools/clean_list takes it off");
    }
    if bare.split(|&byte| byte == b';' || byte == b',').any(is_quoted) {
        say("cells stand in quotation marks; tools/clean_list takes them off");
    }
    if refusal == Refusal::NotALine {
        if is_separated_by(b',', row) {
            say("it has commas where semicolons have to stand; save the list with semicolons between the fields");
        }
        if is_separated_by(b'\t', row) {
            say("it has tabs where semicolons have to stand; save the list with semicolons between the fields");
        }
        if line.starts_with(b"\xff\xfe") || line.starts_with(b"\xfe\xff") {
            say("it is UTF-16 text; save the list as CSV in UTF-8");
        }
        if bare.starts_with(b"station ") {
            say("here tools/list_out says that this station of the filing breaks a rule; put its line here, mended");
        }
        if bare.starts_with(b"refused ") {
            say("here tools/list_out says that its file is no filing");
        }
        if desk::line_marks(line).semicolons == 30 {
            say("there is a column too many, as from a note behind 13X, or a semicolon inside a field");
        }
    }
    if is_separator_line(&unquoted(bare)) {
        say("it is the line that tells a spreadsheet its separator; tools/clean_list takes it out");
    } else if is_titles(&unquoted(bare)) {
        say("it is the row of titles; tools/clean_list takes it out");
    } else if is_empty(bare) {
        say("the row is empty; delete it, or have tools/clean_list take empty rows off the end");
    } else if number == 1 && looks_like_titles(bare) {
        say("it looks like a row of titles; take it out");
    }
    if let Some(field) = field_of(line, refusal) {
        in_field(field, cell(line, field), &mut say);
    }
}

/// What the bytes of the field show that a refusal is about.
fn in_field(field: usize, bytes: &[u8], say: &mut dyn FnMut(&str)) {
    let text = bytes.strip_suffix(b"\r").unwrap_or(bytes);
    let text = text.strip_prefix(BYTE_ORDER_MARK).unwrap_or(text);
    let digits = text.iter().filter(|byte| byte.is_ascii_digit()).count();
    if DATES.contains(&field) && digits >= 6 && text.iter().any(|byte| b".-/".contains(byte)) {
        say("a date is eight digits, day, month and year with nothing between them: 01032021");
    }
    if DATES.contains(&field) && digits == 7 && text.len() == 7 {
        say("the first zero of a date is lost; open the list with every column as text");
    }
    if text.contains(&b',') && digits > 0 && matches!(field, 1 | 15 | 17 | 18 | 20 | 24) {
        say("a decimal has a point, not a comma; open the list with every column as text");
    }
    if !text.is_empty() && digits == text.len() && matches!(field, 1 | 15 | 17 | 18 | 20 | 24) {
        say("a decimal has a point and a digit behind it: 30.0; open the list with every column as text");
    }
    if !text.is_ascii() {
        say("it holds a letter that is not A to Z or a to z, such as an umlaut; write ae for it, say");
    }
}

/// Whether a cell is in quotation marks.
fn is_quoted(cell: &[u8]) -> bool {
    cell.len() >= 2 && cell.starts_with(b"\"") && cell.ends_with(b"\"")
}

/// A row without its quotation marks, to be compared with rows that are known.
fn unquoted(row: &[u8]) -> Vec<u8> {
    row.iter().copied().filter(|&byte| byte != b'"').collect()
}

/// Many cells, all of them words: none is a number, and none a reference.
fn looks_like_titles(row: &[u8]) -> bool {
    let row = unquoted(row);
    let cells = row.split(|byte| b";,\t".contains(byte)).filter(|cell| !cell.is_empty());
    let is_number = |cell: &[u8]| cell.iter().all(|byte| b" +-.0123456789".contains(byte));
    let is_reference = |cell: &[u8]| cell.len() == 15 && cell.starts_with(b"AUT");
    let (mut many, mut words) = (0, true);
    for cell in cells {
        many += 1;
        words &= !is_number(cell) && !is_reference(cell);
    }
    many >= 10 && words
}

/// A field of a line, counted from 1.
fn cell(line: &[u8], number: usize) -> &[u8] {
    let row = line.strip_suffix(b"\n").unwrap_or(line);
    row.split(|&byte| byte == b';').nth(number - 1).unwrap_or(b"")
}

/// A field between quotation marks, a long one cut.
fn shown(bytes: &[u8]) -> String {
    const MOST: usize = 60;
    match bytes.get(..MOST) {
        Some(front) if bytes.len() > MOST => format!("{} and so on", quoted(front)),
        _ => quoted(bytes),
    }
}
