//! A page per operator (02, wish 9).

use std::collections::BTreeMap;

use crate::columns::Record;
use crate::file::{check_length, records};
use crate::refusal::Refusal;
use crate::station::Station;
use crate::values::{Frequency, Unit};

/// A line of the page: an operator that has a station with code 0.
#[derive(Clone, Copy, Debug, Default, PartialEq, Eq)]
pub struct Operator {
    /// Places 6 and 7 of 13X.
    pub code: [u8; 2],
    /// How many such stations it has.
    pub stations: u16,
    /// How many of them have a transmit frequency.
    pub transmitting: u16,
    /// The lowest transmit frequency in hundredths of a hertz.
    pub lowest: Option<u64>,
    /// The highest.
    pub highest: Option<u64>,
}

/// Puts the page's lines into the rows, ascending by code, and answers how many there are; rows
/// past the last line keep what they held.
pub fn operators(file: &[u8], rows: &mut [Operator]) -> Result<usize, Refusal> {
    check_length(file)?;
    let mut found: BTreeMap<[u8; 2], Vec<Station>> = BTreeMap::new();
    for record in records(file).1 {
        if let Ok(station) = Station::read(record) {
            found.entry(operator(record)).or_default().push(station);
        }
    }
    let rows = rows.get_mut(..found.len()).ok_or(Refusal::TooFewRows)?;
    for (row, (code, stations)) in rows.iter_mut().zip(found) {
        *row = line(code, &stations);
    }
    Ok(rows.len())
}

/// Places 6 and 7 of a record's 13X, which stands in its last fifteen columns.
fn operator(record: &Record) -> [u8; 2] {
    [record[204 + 5], record[204 + 6]]
}

fn line(code: [u8; 2], stations: &[Station]) -> Operator {
    let mut sent: Vec<u64> =
        stations.iter().filter_map(|station| station.transmit).map(hundredths).collect();
    sent.sort_unstable();
    Operator {
        code,
        stations: stations.len() as u16,
        transmitting: sent.len() as u16,
        lowest: sent.first().copied(),
        highest: sent.last().copied(),
    }
}

/// One kHz step of the field is 1, a MHz step 1,000, a GHz step 1,000,000.
fn hundredths(frequency: Frequency) -> u64 {
    let step = match frequency.unit {
        Unit::Kilo => 1,
        Unit::Mega => 1_000,
        Unit::Giga => 1_000_000,
    };
    frequency.count as u64 * step
}
