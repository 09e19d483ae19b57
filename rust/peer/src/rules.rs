//! What a field by itself must be: the shapes of texts and the ranges of typed values.

use crate::reading::blank;
use crate::values::{Date, Frequency, Kilometres, Metres, Place, Tenths};

/// The code of a rule that does not hold.
#[inline(always)]
pub(crate) fn holds(code: u8, rule: bool) -> Result<(), u8> {
    if rule {
        Ok(())
    } else {
        Err(code)
    }
}

/// The text set; the comma is one of its members.
const TEXT: [bool; 256] = {
    let mut set = [false; 256];
    let mut byte = 0;
    while byte < 256 {
        set[byte] = (byte as u8).is_ascii_alphanumeric()
            || matches!(
                byte as u8,
                b'+' | b'-' | b'/' | b'*' | b'.' | b'(' | b')' | b',' | b'=' | b' '
            );
        byte += 1;
    }
    set
};

#[inline(always)]
fn in_text_set(byte: u8) -> bool {
    TEXT[usize::from(byte)]
}

/// Looks at every byte, which for short texts is faster than stopping early.
#[inline(always)]
fn all(bytes: &[u8], holds: impl Fn(u8) -> bool) -> bool {
    bytes.iter().fold(true, |all, &byte| all & holds(byte))
}

fn all_digits(bytes: &[u8]) -> bool {
    all(bytes, |byte| byte.is_ascii_digit())
}

fn left_justified<const N: usize>(text: &[u8; N]) -> bool {
    text[0] != b' ' || blank(text)
}

/// Text: bytes of the text set, left-justified or blank.
pub(crate) fn text<const N: usize>(text: &[u8; N]) -> bool {
    left_justified(text) && all(text, in_text_set)
}

/// The header's e-mail: text in which @ and underscore are allowed as well.
pub(crate) fn email(text: &[u8; 40]) -> bool {
    left_justified(text) && all(text, |byte| in_text_set(byte) || matches!(byte, b'@' | b'_'))
}

/// 1Z: 1 to 8.
pub(crate) fn category(byte: &u8) -> bool {
    matches!(byte, b'1'..=b'8')
}

/// 6A: FB, FL, ML.
pub(crate) fn class(text: &[u8; 2]) -> bool {
    matches!(text, b"FB" | b"FL" | b"ML")
}

/// 6B: CO, CP, CR, CV, OT.
pub(crate) fn service(text: &[u8; 2]) -> bool {
    matches!(text, b"CO" | b"CP" | b"CR" | b"CV" | b"OT")
}

/// 6Z: two letters, J never; the second may be a space.
pub(crate) fn user(text: &[u8; 2]) -> bool {
    let letter = |byte| matches!(byte, b'A'..=b'I' | b'K'..=b'Z');
    letter(text[0]) && (letter(text[1]) || text[1] == b' ')
}

/// 10Z: 0 or 1.
pub(crate) fn occupancy(byte: &u8) -> bool {
    matches!(byte, b'0' | b'1')
}

/// 4A: four digits, underscore, then 15 bytes of the text set or underscores.
pub(crate) fn name(text: &[u8; 20]) -> bool {
    all_digits(&text[..4])
        && text[4] == b'_'
        && all(&text[5..], |byte| in_text_set(byte) || byte == b'_')
}

/// 4B: one to three letters, then spaces.
pub(crate) fn country(text: &[u8; 3]) -> bool {
    match text {
        [a, b' ', b' '] => a.is_ascii_uppercase(),
        [a, b, b' '] => all(&[*a, *b], |byte| byte.is_ascii_uppercase()),
        _ => all(text, |byte| byte.is_ascii_uppercase()),
    }
}

/// 7A: the bandwidth, three symbols and at most two more (Radio Regulations, Appendix 1).
pub(crate) fn emission(text: &[u8; 9]) -> bool {
    let [w0, w1, w2, w3, modulation, signal, information, details, multiplex] = *text;
    bandwidth([w0, w1, w2, w3])
        && matches!(modulation, b'A'..=b'D' | b'F'..=b'H' | b'J'..=b'N' | b'P'..=b'R' | b'V'..=b'X')
        && matches!(signal, b'0'..=b'3' | b'7'..=b'9' | b'X')
        && matches!(information, b'N' | b'A'..=b'F' | b'W' | b'X')
        && match details {
            b' ' => multiplex == b' ',
            b'A'..=b'H' | b'J'..=b'N' | b'W' | b'X' => {
                matches!(multiplex, b' ' | b'N' | b'C' | b'F' | b'T' | b'W' | b'X')
            }
            _ => false,
        }
}

/// Three digits and one of H, K, M, G; the first place neither 0, K, M nor G.
fn bandwidth(places: [u8; 4]) -> bool {
    let letter = |byte| matches!(byte, b'H' | b'K' | b'M' | b'G');
    matches!(places[0], b'1'..=b'9' | b'H')
        && all(&places, |byte| letter(byte) || byte.is_ascii_digit())
        && places.iter().filter(|&&byte| letter(byte)).count() == 1
}

/// 8B2: E or I.
pub(crate) fn antenna(byte: &u8) -> bool {
    matches!(byte, b'E' | b'I')
}

/// 9D: H, V, SR, SL, CR, CL, D, M.
pub(crate) fn polarization(text: &[u8; 2]) -> bool {
    matches!(text, b"H " | b"V " | b"SR" | b"SL" | b"CR" | b"CL" | b"D " | b"M ")
}

/// 9XH and 9XV: three digits, two letters, two digits.
pub(crate) fn antenna_type(text: &[u8; 7]) -> bool {
    all_digits(&text[..3])
        && all(&text[3..5], |byte| byte.is_ascii_uppercase())
        && all_digits(&text[5..])
}

/// 13Z: blank, or generation, cell, installation class with its letter, and free text.
pub(crate) fn remarks(text: &[u8; 50]) -> bool {
    if text[0] == b' ' {
        return blank(text);
    }
    matches!(text[0], b'2'..=b'5')
        && cell(&text[1..10])
        && matches!(&text[10..13], b"   " | b" 0I" | b" 0O" | b" 2I" | b" 2O" | b"10I" | b"10O")
        && all(&text[13..], in_text_set)
}

/// Places 2 to 10 of 13Z: blank, or spaces and then upper-case hex digits to the end.
fn cell(text: &[u8]) -> bool {
    let start = text.iter().position(|&byte| byte != b' ').unwrap_or(text.len());
    all(&text[start..], |byte| matches!(byte, b'0'..=b'9' | b'A'..=b'F'))
}

/// 13Y: F or B.
pub(crate) fn status(byte: &u8) -> bool {
    matches!(byte, b'F' | b'B')
}

/// 13X: AUT, four digits, five of the narrow set, three digits.
pub(crate) fn reference(text: &[u8; 15]) -> bool {
    text.starts_with(b"AUT")
        && all_digits(&text[3..7])
        && all(&text[7..12], |byte| matches!(byte, b'A'..=b'Z' | b'0'..=b'9' | b'-'))
        && all_digits(&text[12..])
}

/// 1A and 1Y: above zero, at most 5 digits on each side of the point.
pub(crate) fn frequency(value: Frequency) -> bool {
    (1..=9_999_999_999).contains(&value.count)
}

/// Dates: real days of the Gregorian calendar, year 1901 to 9999.
pub(crate) fn date(value: Date) -> bool {
    (1901..=9999).contains(&value.year)
        && (1..=12).contains(&value.month)
        && (1..=last_day(value.month, value.year)).contains(&value.day)
}

/// The last day of a month; February has 29 days in leap years.
fn last_day(month: u8, year: u16) -> u8 {
    let century = year % 100 == 0;
    let leap = year % if century { 400 } else { 4 } == 0;
    match month {
        2 => 28 + u8::from(leap),
        4 | 6 | 9 | 11 => 30,
        _ => 31,
    }
}

/// 4C: at most 180 degrees in all to east and west, 90 to north and south.
pub(crate) fn place(value: Place) -> bool {
    value.east.unsigned_abs() <= 648_000 && value.north.unsigned_abs() <= 324_000
}

/// 4D: what five digits spell.
pub(crate) fn radius(value: Kilometres) -> bool {
    (0..=99_999).contains(&value.0)
}

/// 4Z: -999 to 9999.
pub(crate) fn height(value: Metres) -> bool {
    (-999..=9_999).contains(&value.0)
}

/// 8B1: what a sign, three digits and a tenth spell.
pub(crate) fn power(value: Tenths) -> bool {
    (-9_999..=9_999).contains(&value.0)
}

/// 9A: 0.0 to 359.9.
pub(crate) fn azimuth(value: Tenths) -> bool {
    (0..=3_599).contains(&value.0)
}

/// 9B: -90.0 to 90.0.
pub(crate) fn elevation(value: Tenths) -> bool {
    (-900..=900).contains(&value.0)
}

/// 9G: what two digits and a tenth spell.
pub(crate) fn gain(value: Tenths) -> bool {
    (0..=999).contains(&value.0)
}

/// 9Y: what four digits spell.
pub(crate) fn ground(value: Metres) -> bool {
    (0..=9_999).contains(&value.0)
}
