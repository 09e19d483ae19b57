//! Carriage repeaters (wish 6 of 02): mobile stations named by the UIC numbers of their vehicles.

use std::ops::Range;

use crate::columns::Record;
use crate::lists::{fields_in, put_field};
use crate::refusal::Refusal;
use crate::station::Station;

/// What a carriage's line gives behind its number: 1A, its unit, 8B1 and 13X, by their codes.
const OWN: [usize; 4] = [1, 2, 15, 30];

/// The code of 4A, the name.
const NAME: usize = 9;

/// What stands before the number in a name, and behind it.
const BEFORE: &[u8] = b"9999_";
const BEHIND: &[u8] = b"_R";

/// Twelve digits, of which the last is right: 14 or 15 if not. Every second digit, the first
/// included, is doubled, and a doubled digit of two places counts as the sum of both.
pub fn check_number(number: &[u8]) -> Result<(), Refusal> {
    if number.len() != 12 || !number.iter().all(u8::is_ascii_digit) {
        return Err(Refusal::NotTwelveDigits);
    }
    let (first, last) = number.split_at(11);
    let sum: u32 = first
        .iter()
        .map(|byte| u32::from(byte - b'0'))
        .enumerate()
        .map(|(index, digit)| match (index % 2, digit) {
            (0, 5..) => 2 * digit - 9,
            (0, _) => 2 * digit,
            _ => digit,
        })
        .sum();
    if sum.next_multiple_of(10) - sum == u32::from(last[0] - b'0') {
        Ok(())
    } else {
        Err(Refusal::LastDigitWrong)
    }
}

/// The station of a carriage: the defaults with the carriage's name, and the line's own fields.
pub fn station(line: &[u8], defaults: &[u8]) -> Result<Station, Refusal> {
    let usual: &Record = defaults.try_into().map_err(|_| Refusal::RecordLength)?;
    let [number, own @ ..] = fields_in::<5>(line)?;
    let mut record = *usual;
    for (code, field) in OWN.into_iter().zip(own) {
        put_field(&mut record, code, field)?;
    }
    check_number(number)?;
    match Station::read(usual) {
        Ok(station) if station.class == *b"ML" => {}
        _ => return Err(Refusal::NotMobileDefaults),
    }
    put_field(&mut record, NAME, &[BEFORE, number, BEHIND].concat())?;
    Station::read(&record)
}

/// Where the vehicle number stands in the name of a carriage.
pub fn number_in(name: &[u8; 20]) -> Option<Range<usize>> {
    let rest = name.strip_prefix(BEFORE)?.strip_suffix(b" ")?;
    let number = rest.strip_suffix(BEHIND)?;
    check_number(number).ok()?;
    Some(BEFORE.len()..BEFORE.len() + number.len())
}

#[cfg(test)]
mod tests {
    use super::*;

    #[test]
    fn the_papers_number_passes() {
        assert_eq!(check_number(b"318166502860"), Ok(()));
        assert_eq!(check_number(b"318166502861"), Err(Refusal::LastDigitWrong));
        assert_eq!(check_number(b"31816650286"), Err(Refusal::NotTwelveDigits));
        assert_eq!(number_in(b"9999_318166502860_R "), Some(5..17));
    }
}
