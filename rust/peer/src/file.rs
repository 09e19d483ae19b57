//! Files and their sheets, with wishes 4 and 8 of 02: judging, replacing and showing.

use std::ops::Range;

use crate::columns::{part, Record, HEADER_FIELDS, RECORD_LENGTH, STATION_FIELDS};
use crate::header::header_code_in_file;
use crate::refusal::Refusal;
use crate::station::Station;
use crate::values::{Metres, Place};

/// The most stations that a file holds.
pub const MAX_STATIONS: usize = 298;

/// The most bytes that a file has: a header and 298 stations.
pub const MAX_FILE_LENGTH: usize = (MAX_STATIONS + 1) * RECORD_LENGTH;

const ROW_WIDTH: usize = 5;
const TRAILER_LENGTH: usize = 10;
const MARK: [u8; 2] = *b"2C";

type Row = [u8; ROW_WIDTH];

/// The length of the sheet for a file of this many stations.
pub const fn sheet_length(stations: usize) -> usize {
    ROW_WIDTH * stations + TRAILER_LENGTH
}

/// Judges a file: one row for each station and the trailer.
pub fn judge(file: &[u8], sheet: &mut [u8]) -> Result<(), Refusal> {
    check_length(file)?;
    let (header, stations) = records(file);
    let (rows, trailer) = split_sheet(sheet, stations.len())?;
    let judged: Vec<Judged> = stations.iter().map(Judged::of).collect();
    for (k, row) in rows.iter_mut().enumerate() {
        *row = row_of(stations, &judged, k);
    }
    let [high, low] = distance(stations.len());
    let header_code = header_code_in_file(header, stations.len());
    *trailer = [high, low, ROW_WIDTH as u8, header_code, 0, 0, 0, 0, MARK[0], MARK[1]];
    count_rows(rows, trailer);
    Ok(())
}

/// Puts in record `number`, 0 being the header, and mends the sheet; answers the rows written.
pub fn replace(
    file: &mut [u8],
    sheet: &mut [u8],
    number: usize,
    record: &[u8],
) -> Result<usize, Refusal> {
    check_length(file)?;
    let (header, stations) = records_mut(file);
    let (rows, trailer) = split_sheet(sheet, stations.len())?;
    check_trailer(trailer, stations.len())?;
    if number > stations.len() {
        return Err(Refusal::NoSuchRecord);
    }
    let record: &Record = record.try_into().map_err(|_| Refusal::RecordLength)?;
    let written = match number.checked_sub(1) {
        None => {
            *header = *record;
            trailer[3] = header_code_in_file(header, stations.len());
            0
        }
        Some(k) => {
            let old = *site(&stations[k]);
            stations[k] = *record;
            mend(stations, rows, k, &old)
        }
    };
    count_rows(rows, trailer);
    Ok(written)
}

/// The piece of the file that holds a field of record `number`, 0 being the header.
pub fn show(file: &[u8], number: usize, field: usize) -> Result<&[u8], Refusal> {
    locate(file, number, field).map(|range| &file[range])
}

/// Where in the file the field stands that [`show`] answers.
pub fn locate(file: &[u8], number: usize, field: usize) -> Result<Range<usize>, Refusal> {
    check_length(file)?;
    let (_, stations) = records(file);
    if number > stations.len() {
        return Err(Refusal::NoSuchRecord);
    }
    let fields: &[[usize; 2]] = if number == 0 { &HEADER_FIELDS } else { &STATION_FIELDS };
    let index = field.checked_sub(1).ok_or(Refusal::NoSuchField)?;
    let [first, length] = *fields.get(index).ok_or(Refusal::NoSuchField)?;
    let start = number * RECORD_LENGTH + first - 1;
    Ok(start..start + length)
}

pub(crate) fn check_length(file: &[u8]) -> Result<(), Refusal> {
    if file.len() > MAX_FILE_LENGTH {
        Err(Refusal::FileTooLong)
    } else if file.is_empty() || !file.len().is_multiple_of(RECORD_LENGTH) {
        Err(Refusal::FileNotRecords)
    } else {
        Ok(())
    }
}

/// Header and stations of a file whose length was found right.
pub(crate) fn records(file: &[u8]) -> (&Record, &[Record]) {
    file.as_chunks().0.split_first().expect("a file has a header")
}

fn records_mut(file: &mut [u8]) -> (&mut Record, &mut [Record]) {
    file.as_chunks_mut().0.split_first_mut().expect("a file has a header")
}

fn split_sheet(
    sheet: &mut [u8],
    stations: usize,
) -> Result<(&mut [Row], &mut [u8; TRAILER_LENGTH]), Refusal> {
    if sheet.len() != sheet_length(stations) {
        return Err(Refusal::SheetLength);
    }
    let (rows, trailer) = sheet.split_last_chunk_mut().ok_or(Refusal::SheetLength)?;
    Ok((rows.as_chunks_mut().0, trailer))
}

/// The distance from the sheet's end to its first row, high byte first.
fn distance(stations: usize) -> [u8; 2] {
    (sheet_length(stations) as u16).to_be_bytes()
}

fn check_trailer(trailer: &[u8; TRAILER_LENGTH], stations: usize) -> Result<(), Refusal> {
    let [high, low, width, .., two, c] = *trailer;
    if [high, low] == distance(stations) && usize::from(width) == ROW_WIDTH && [two, c] == MARK {
        Ok(())
    } else {
        Err(Refusal::SheetTrailer)
    }
}

fn reference(station: &Record) -> &[u8; 15] {
    part(station, &STATION_FIELDS, 30)
}

/// The operator and site in a 13X: its places 6 to 11.
fn site(station: &Record) -> &[u8; 6] {
    reference(station)[5..11].try_into().expect("places 6 to 11 are six")
}

/// A station's code, and where it stands and how high if that is 0.
#[derive(Clone, Copy)]
struct Judged {
    code: u8,
    stands: Option<(Place, Metres)>,
}

impl Judged {
    fn of(station: &Record) -> Judged {
        match Station::read(station) {
            Ok(station) => Judged { code: 0, stands: Some((station.place, station.ground)) },
            Err(refusal) => Judged { code: refusal.code(), stands: None },
        }
    }
}

/// The number of the first station that is asked for, or 0.
fn number(index: Option<usize>) -> [u8; 2] {
    index.map_or(0, |index| index as u16 + 1).to_be_bytes()
}

/// The row of the station at `k`: its code, its twin and its clash.
fn row_of(stations: &[Record], judged: &[Judged], k: usize) -> Row {
    let (own, before) = (&stations[k], &stations[..k]);
    let twin = before.iter().position(|other| reference(other) == reference(own));
    let clash = judged[k].stands.and_then(|here| {
        let elsewhere = |other: &Judged| other.stands.is_some_and(|there| there != here);
        let mut others = before.iter().zip(judged);
        others.position(|(other, judged)| site(other) == site(own) && elsewhere(judged))
    });
    let ([twin_high, twin_low], [clash_high, clash_low]) = (number(twin), number(clash));
    [judged[k].code, twin_high, twin_low, clash_high, clash_low]
}

/// Writes row `k` and every later row whose operator and site are the old or the new ones of `k`.
fn mend(stations: &[Record], rows: &mut [Row], k: usize, old: &[u8; 6]) -> usize {
    let new = site(&stations[k]);
    let meant = |station: &Record| site(station) == old || site(station) == new;
    // No row of these sites asks for a station of another.
    let unasked = Judged { code: 0, stands: None };
    let judged: Vec<Judged> = stations
        .iter()
        .map(|station| if meant(station) { Judged::of(station) } else { unasked })
        .collect();
    let mut written = 0;
    for (j, row) in rows.iter_mut().enumerate().skip(k) {
        if meant(&stations[j]) {
            *row = row_of(stations, &judged, j);
            written += 1;
        }
    }
    written
}

/// Writes the lowest bad row or 0, and the number of bad rows.
fn count_rows(rows: &[Row], trailer: &mut [u8; TRAILER_LENGTH]) {
    let bad = |row: &Row| *row != [0; ROW_WIDTH];
    let lowest = rows.iter().position(bad).map_or(0, |index| index + 1);
    let count = rows.iter().filter(|row| bad(row)).count();
    trailer[4..6].copy_from_slice(&(lowest as u16).to_be_bytes());
    trailer[6..8].copy_from_slice(&(count as u16).to_be_bytes());
}
