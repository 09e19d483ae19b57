//! The one spelling: all digit places filled, a minus or a space in the sign column.

use crate::values::{Date, Place};

/// Fills `out` with the last digits of `value`.
pub(crate) fn digits(out: &mut [u8], value: u64) {
    let mut rest = value;
    for byte in out.iter_mut().rev() {
        *byte = b'0' + (rest % 10) as u8;
        rest /= 10;
    }
}

/// Fills `out` with a value, or with spaces where there is none.
pub(crate) fn optional<T>(out: &mut [u8], value: Option<T>, spell: impl FnOnce(&mut [u8], T)) {
    match value {
        Some(value) => spell(out, value),
        None => out.fill(b' '),
    }
}

/// A count of its last place as a decimal with `after` digits behind the point.
pub(crate) fn decimal(out: &mut [u8], after: usize, value: u64) {
    let scale = 10_u64.pow(after as u32);
    let point = out.len() - 1 - after;
    digits(&mut out[..point], value / scale);
    out[point] = b'.';
    digits(&mut out[point + 1..], value % scale);
}

/// As [`decimal`], with a sign column before it.
pub(crate) fn signed_decimal(out: &mut [u8], after: usize, value: i64) {
    out[0] = if value < 0 { b'-' } else { b' ' };
    decimal(&mut out[1..], after, value.unsigned_abs());
}

/// 4Z: digits alone from zero up, minus and one digit less below.
pub(crate) fn height(out: &mut [u8], value: i64) {
    digits(out, value.unsigned_abs());
    if value < 0 {
        out[0] = b'-';
    }
}

/// Day, month and year in eight digits.
pub(crate) fn date(out: &mut [u8], value: Date) {
    digits(&mut out[..2], value.day.into());
    digits(&mut out[2..4], value.month.into());
    digits(&mut out[4..], value.year.into());
}

/// 4C: zero seconds are E and N.
pub(crate) fn place(out: &mut [u8; 15], value: Place) {
    let (longitude, latitude) = out.split_at_mut(8);
    arc(longitude, value.east, b'E', b'W');
    arc(latitude, value.north, b'N', b'S');
}

fn arc(out: &mut [u8], value: i64, positive: u8, negative: u8) {
    let seconds = value.unsigned_abs();
    let (degrees, rest) = out.split_at_mut(out.len() - 5);
    digits(degrees, seconds / 3600);
    rest[0] = if value < 0 { negative } else { positive };
    digits(&mut rest[1..3], seconds / 60 % 60);
    digits(&mut rest[3..], seconds % 60);
}
