//! How columns are read: whole numbers, decimals, dates and places.

use crate::rules;
use crate::values::{Date, Place};

/// Whether all bytes are spaces.
#[inline(always)]
pub(crate) fn blank<const N: usize>(text: &[u8; N]) -> bool {
    *text == [b' '; N]
}

/// What `read` makes of `text`, or no value where it is blank.
#[inline(always)]
pub(crate) fn optional<T, const N: usize>(
    text: &[u8; N],
    read: impl FnOnce(&[u8]) -> Option<T>,
) -> Option<Option<T>> {
    if blank(text) {
        Some(None)
    } else {
        read(text).map(Some)
    }
}

#[inline(always)]
fn skip_spaces(text: &[u8]) -> &[u8] {
    let start = text.iter().position(|&byte| byte != b' ').unwrap_or(text.len());
    &text[start..]
}

#[inline(always)]
fn drop_spaces(text: &[u8]) -> &[u8] {
    let end = text.iter().rposition(|&byte| byte != b' ').map_or(0, |last| last + 1);
    &text[..end]
}

/// Splits off one sign; true means below zero.
#[inline(always)]
fn split_sign(text: &[u8]) -> (bool, &[u8]) {
    match text {
        [b'-', rest @ ..] => (true, rest),
        [b'+', rest @ ..] => (false, rest),
        _ => (false, text),
    }
}

#[inline(always)]
fn signed(negative: bool, value: i64) -> i64 {
    if negative {
        -value
    } else {
        value
    }
}

/// The value of a row of digits, 0 for none.
#[inline(always)]
fn digits(text: &[u8]) -> Option<i64> {
    text.iter().try_fold(0, |value, &byte| match byte {
        b'0'..=b'9' => Some(10 * value + i64::from(byte - b'0')),
        _ => None,
    })
}

#[inline(always)]
fn some_digits(text: &[u8]) -> Option<i64> {
    if text.is_empty() {
        None
    } else {
        digits(text)
    }
}

/// Whole number: spaces, then digits to the last column, at least one digit.
#[inline(always)]
pub(crate) fn whole(text: &[u8]) -> Option<i64> {
    some_digits(skip_spaces(text))
}

/// Whole number with at most one sign directly before its first digit.
#[inline(always)]
pub(crate) fn signed_whole(text: &[u8]) -> Option<i64> {
    let (negative, number) = split_sign(skip_spaces(text));
    Some(signed(negative, some_digits(number)?))
}

/// Decimal with at most `before` digits before the point and `after` behind it, as a count of
/// its last place.
#[inline(always)]
pub(crate) fn decimal(text: &[u8], before: usize, after: usize) -> Option<i64> {
    unsigned_decimal(drop_spaces(skip_spaces(text)), before, after)
}

/// Decimal with at most one sign directly before its first digit or point.
#[inline(always)]
pub(crate) fn signed_decimal(text: &[u8], before: usize, after: usize) -> Option<i64> {
    let (negative, number) = split_sign(drop_spaces(skip_spaces(text)));
    Some(signed(negative, unsigned_decimal(number, before, after)?))
}

/// Digits with one point among them, in one pass.
#[inline(always)]
fn unsigned_decimal(number: &[u8], before: usize, after: usize) -> Option<i64> {
    let mut value = 0;
    let mut point = None;
    for (place, &byte) in number.iter().enumerate() {
        match byte {
            b'0'..=b'9' => value = 10 * value + i64::from(byte - b'0'),
            b'.' if point.is_none() => point = Some(place),
            _ => return None,
        }
    }
    let whole = point?;
    let fraction = number.len() - whole - 1;
    if whole > before || fraction == 0 || fraction > after {
        return None;
    }
    Some(value * 10_i64.pow((after - fraction) as u32))
}

/// Date: eight digits that say a real day of the years 1901 to 9999.
#[inline(always)]
pub(crate) fn date(text: &[u8]) -> Option<Date> {
    let date = Date {
        day: digits(&text[..2])? as u8,
        month: digits(&text[2..4])? as u8,
        year: digits(&text[4..])? as u16,
    };
    rules::date(date).then_some(date)
}

/// 4C: a longitude with three places of degrees and a latitude with two.
#[inline(always)]
pub(crate) fn place(text: &[u8; 15]) -> Option<Place> {
    let (longitude, latitude) = text.split_at(8);
    let place = Place { east: arc(longitude, b'E', b'W')?, north: arc(latitude, b'N', b'S')? };
    rules::place(place).then_some(place)
}

/// Degrees, a letter, minutes and seconds, as a signed count of seconds.
#[inline(always)]
fn arc(text: &[u8], positive: u8, negative: u8) -> Option<i64> {
    let (degrees, rest) = text.split_at(text.len() - 5);
    let below = match rest[0] {
        letter if letter == positive => false,
        letter if letter == negative => true,
        _ => return None,
    };
    let (minutes, seconds) = (whole(&rest[1..3])?, whole(&rest[3..])?);
    if minutes > 59 || seconds > 59 {
        return None;
    }
    Some(signed(below, 3600 * whole(degrees)? + 60 * minutes + seconds))
}
