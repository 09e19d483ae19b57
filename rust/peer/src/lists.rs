//! Semicolon lists (wish 1 of 02): a station as one line, and back.
//!
//! A line is the thirty fields in column order, joined by semicolons and ended by a line feed.
//! Spaces around a field are taken off, except in 13Z, whose inner places count.

use crate::columns::{Record, RECORD_LENGTH, STATION_FIELDS};
use crate::refusal::Refusal;
use crate::station::Station;

const SEPARATOR: u8 = b';';
const END: u8 = b'\n';

/// The code of 13Z, which goes out untrimmed.
const REMARKS: usize = 26;

/// The longest line that is written or read: all columns, 29 semicolons and the line feed.
pub const MAX_LINE_LENGTH: usize = RECORD_LENGTH + STATION_FIELDS.len();

/// Writes a station that breaks no rule as a line; answers its length, bytes after it stay.
pub fn write_line(station: &Station, line: &mut [u8]) -> Result<usize, Refusal> {
    let mut record = [b' '; RECORD_LENGTH];
    station.write(&mut record)?;
    let length = fields_out(&record).map(|field| field.len() + 1).sum();
    let line = line.get_mut(..length).ok_or(Refusal::BufferTooShort)?;
    let mut rest = &mut *line;
    for field in fields_out(&record) {
        let (place, after) = rest.split_at_mut(field.len() + 1);
        place[..field.len()].copy_from_slice(field);
        place[field.len()] = SEPARATOR;
        rest = after;
    }
    line[length - 1] = END;
    Ok(length)
}

/// Reads a station that breaks no rule from a line, its fields in any accepted spelling.
pub fn read_line(line: &[u8]) -> Result<Station, Refusal> {
    Station::read(&record_in(line)?)
}

/// The record that the fields of a line make, each padded to its columns.
pub fn record_in(line: &[u8]) -> Result<Record, Refusal> {
    let fields: [&[u8]; STATION_FIELDS.len()] = fields_in(line)?;
    let mut record = [b' '; RECORD_LENGTH];
    for (index, field) in fields.iter().enumerate() {
        put_field(&mut record, index + 1, field)?;
    }
    Ok(record)
}

/// The fields of a line that has so many, and one line feed as its last byte.
pub(crate) fn fields_in<const COUNT: usize>(line: &[u8]) -> Result<[&[u8]; COUNT], Refusal> {
    let fields = line.strip_suffix(&[END]).ok_or(Refusal::NotALine)?;
    let semicolons = fields.iter().filter(|&&byte| byte == SEPARATOR).count();
    if fields.contains(&END) || semicolons != COUNT - 1 {
        return Err(Refusal::NotALine);
    }
    let mut parts = fields.split(|&byte| byte == SEPARATOR);
    Ok(std::array::from_fn(|_| parts.next().unwrap_or_default()))
}

/// Puts a field of a line into its columns, padded on its side.
pub(crate) fn put_field(record: &mut Record, code: usize, field: &[u8]) -> Result<(), Refusal> {
    let [first, length] = STATION_FIELDS[code - 1];
    let padding = length.checked_sub(field.len()).ok_or(Refusal::FieldTooLong)?;
    let columns = &mut record[first - 1..][..length];
    columns.fill(b' ');
    let start = if padded_left(code) { padding } else { 0 };
    columns[start..][..field.len()].copy_from_slice(field);
    Ok(())
}

/// How many semicolons and line feeds some bytes have, and whether they end in a line feed.
pub fn marks(line: &[u8]) -> (usize, usize, bool) {
    let count = |mark: u8| line.iter().filter(|&&byte| byte == mark).count();
    (count(SEPARATOR), count(END), line.last() == Some(&END))
}

/// The first of the thirty fields that is longer than its columns: its number, its length and its
/// columns. A field ends before a semicolon or a line feed.
pub fn long_field(line: &[u8]) -> Option<(usize, usize, usize)> {
    let fields = line.split(|&byte| byte == SEPARATOR || byte == END);
    let mut numbered = fields.zip(STATION_FIELDS).enumerate();
    numbered.find_map(|(index, (field, [_, columns]))| {
        (field.len() > columns).then_some((index + 1, field.len(), columns))
    })
}

/// Whether the field is a whole number or decimal: 1A, 4D, 4Z, 8B1, 9A, 9B, 9G, 9Y, 1Y.
fn padded_left(code: usize) -> bool {
    matches!(code, 1 | 12 | 13 | 15 | 17 | 18 | 20 | 21 | 24)
}

/// The thirty fields of a record as they go into a line.
fn fields_out(record: &Record) -> impl Iterator<Item = &[u8]> {
    STATION_FIELDS.iter().enumerate().map(|(index, &[first, length])| {
        let field = &record[first - 1..first - 1 + length];
        if index + 1 == REMARKS {
            field
        } else {
            trim(field)
        }
    })
}

fn trim(field: &[u8]) -> &[u8] {
    let start = field.iter().position(|&byte| byte != b' ').unwrap_or(field.len());
    let end = field.iter().rposition(|&byte| byte != b' ').map_or(start, |last| last + 1);
    &field[start..end]
}
