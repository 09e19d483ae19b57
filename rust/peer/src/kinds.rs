//! What is wrong with the field that a station's code names (wish 7 of document 02): the first
//! that applies of a byte that the field admits at no place, a value outside its range, and a
//! shape that cannot be read.

use crate::columns::{Record, STATION_FIELDS};
use crate::{reading, station_code};

/// The kind of a broken rule.
#[derive(Clone, Copy, Debug, PartialEq, Eq)]
pub enum Kind {
    /// A byte that the field admits at no place.
    Byte,
    /// A number, place or date outside its range, or a unit at odds with its frequency.
    Range,
    /// What cannot be read.
    Shape,
    /// A rule between fields, codes 31 to 39.
    Between,
}

/// The code of the first rule that a record breaks as a station, and its kind; none for code 0.
pub fn station_kind(record: &Record) -> (u8, Option<Kind>) {
    let code = station_code(record);
    let kind = match code {
        0 => None,
        1..=30 => Some(field_kind(code, field(record, code))),
        _ => Some(Kind::Between),
    };
    (code, kind)
}

fn field(record: &Record, code: u8) -> &[u8] {
    let [first, length] = STATION_FIELDS[usize::from(code) - 1];
    &record[first - 1..][..length]
}

/// The kind of a field that breaks its rule.
fn field_kind(code: u8, text: &[u8]) -> Kind {
    if text.iter().any(|&byte| !admits(code, byte)) {
        Kind::Byte
    } else if reads(code, text) {
        Kind::Range
    } else {
        Kind::Shape
    }
}

/// Whether some place of the field may hold the byte; a space only where the rule has one.
fn admits(code: u8, byte: u8) -> bool {
    let digit = byte.is_ascii_digit();
    let space = byte == b' ';
    match code {
        1 | 17 | 20 | 24 => digit || space || byte == b'.',
        2 | 25 => b"kMG ".contains(&byte),
        3 => (b'1'..=b'8').contains(&byte),
        4 => b"FBLM".contains(&byte),
        5 => b"COPRVT".contains(&byte),
        6 => space || byte.is_ascii_uppercase() && byte != b'J',
        7 => b"01".contains(&byte),
        8 | 12 | 21 | 28 | 29 => digit || space,
        9 => text_set(byte) || byte == b'_',
        10 => space || byte.is_ascii_uppercase(),
        11 => digit || space || b"EWNS".contains(&byte),
        13 => digit || space || b"+-".contains(&byte),
        // no symbol of 7A is I, O, S, U, Y or Z
        14 => digit || space || byte.is_ascii_uppercase() && !b"IOSUYZ".contains(&byte),
        15 | 18 => digit || space || b".+-".contains(&byte),
        16 => b"EI".contains(&byte),
        19 => b"HVSRLCDM ".contains(&byte),
        22 | 23 => digit || byte.is_ascii_uppercase(),
        26 => text_set(byte),
        27 => b"FB".contains(&byte),
        30 => digit || byte.is_ascii_uppercase() || byte == b'-',
        _ => unreachable!("a station has thirty fields"),
    }
}

fn text_set(byte: u8) -> bool {
    byte.is_ascii_alphanumeric() || b"+-/*.(),= ".contains(&byte)
}

/// Whether a field of admitted bytes says a number, place, date or unit, in range or not.
fn reads(code: u8, text: &[u8]) -> bool {
    match code {
        1 | 24 => reading::decimal(text, 5, 5).is_some(),
        2 | 25 => true,
        8 | 28 | 29 => text.iter().all(u8::is_ascii_digit),
        11 => arc(&text[..8], b"EW") && arc(&text[8..], b"NS"),
        13 => reading::signed_whole(text).is_some(),
        15 => reading::signed_decimal(text, 3, 1).is_some(),
        17 => reading::decimal(text, 3, 1).is_some(),
        18 => reading::signed_decimal(text, 2, 1).is_some(),
        20 => reading::decimal(text, 2, 1).is_some(),
        _ => false,
    }
}

/// Degrees, a letter, minutes and seconds, each number a whole number of any size.
fn arc(text: &[u8], letters: &[u8]) -> bool {
    let (degrees, rest) = text.split_at(text.len() - 5);
    letters.contains(&rest[0])
        && [degrees, &rest[1..3], &rest[3..]].iter().all(|part| reading::whole(part).is_some())
}
