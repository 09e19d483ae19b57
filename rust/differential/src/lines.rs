//! Lines of a semicolon list: those that stations make, those put together from fields in any
//! accepted spelling, and damaged ones.

use peer::lists::MAX_LINE_LENGTH;
use peer::{Record, Station, STATION_FIELDS};

use crate::calls::{Comparison, LIST_IN, RESPELL_STATION};
use crate::fields::BORDER_BYTES;
use crate::random::Random;
use crate::records;

/// Compares both calls on one record and on a line of its fields; the rules to break take turns.
pub fn case(comparison: &mut Comparison, random: &mut Random, index: usize) {
    let target = if random.one_in(2) { 0 } else { index % 40 };
    let record = records::any_station(random, target);
    let length = records::some_length(random);
    let bytes = records::resized(random, &record, length);
    let length = room(random, &record);
    let buffer = noise(random, length);
    let written = comparison.list_out(&bytes, &buffer);
    if !written.is_empty() {
        back(comparison, random, &record, &written);
    }
    let mut line = spelled(random, &record);
    if random.one_in(2) {
        damage(random, &mut line);
    }
    let length = records::some_length(random);
    let buffer = noise(random, length);
    comparison.rewrite(&LIST_IN, &line, &buffer);
}

/// A line that was written is read back as the station that it was written from.
fn back(comparison: &mut Comparison, random: &mut Random, record: &Record, line: &[u8]) {
    let buffer = noise(random, record.len());
    let filed = comparison.rewrite(&LIST_IN, line, &buffer);
    let respelled = comparison.rewrite(&RESPELL_STATION, record, &buffer);
    assert_eq!(filed, respelled, "a line that was read back is another station");
}

/// Any bytes, so that one that has moved is seen.
pub fn noise(random: &mut Random, length: usize) -> Vec<u8> {
    (0..length).map(|_| random.byte()).collect()
}

/// The length of a buffer for the line of a record: mostly the line's, or a few bytes off.
fn room(random: &mut Random, record: &Record) -> usize {
    let exact = line(record).map_or(MAX_LINE_LENGTH, |line| line.len());
    let any = random.below(MAX_LINE_LENGTH + 10);
    random.pick(&[exact - 2, exact - 1, exact, exact, exact + 1, MAX_LINE_LENGTH, 0, any, 4_000])
}

/// The line of a record that breaks no rule.
pub fn line(record: &Record) -> Option<Vec<u8>> {
    let mut line = vec![0; MAX_LINE_LENGTH];
    let length = peer::lists::write_line(&Station::read(record).ok()?, &mut line).ok()?;
    line.truncate(length);
    Some(line)
}

/// The fields of a record as they stand there.
pub fn fields(record: &Record) -> [&[u8]; 30] {
    STATION_FIELDS.map(|[first, length]| &record[first - 1..][..length])
}

/// Fields joined by semicolons and ended by a line feed.
pub fn joined(fields: &[&[u8]]) -> Vec<u8> {
    let mut line = fields.join(&b';');
    line.push(b'\n');
    line
}

/// The fields of a record as a line, each with or without its spaces on either side.
fn spelled(random: &mut Random, record: &Record) -> Vec<u8> {
    let mut fields = fields(record);
    for field in &mut fields {
        match random.below(6) {
            0 => {}
            1 => *field = trimmed_start(field),
            2 => *field = trimmed_end(field),
            _ => *field = trimmed_start(trimmed_end(field)),
        }
    }
    joined(&fields)
}

pub fn trimmed_start(field: &[u8]) -> &[u8] {
    let first = field.iter().position(|&byte| byte != b' ').unwrap_or(field.len());
    &field[first..]
}

pub fn trimmed_end(field: &[u8]) -> &[u8] {
    let end = field.iter().rposition(|&byte| byte != b' ').map_or(0, |last| last + 1);
    &field[..end]
}

/// Damages a line in one way, now and then in several.
pub fn damage(random: &mut Random, line: &mut Vec<u8>) {
    let place = random.below(line.len());
    match random.below(14) {
        0 => line[place] = random.pick(BORDER_BYTES),
        1 => line[place] = random.byte(),
        2 => line.insert(place, random.pick(b" ;\n\r0A")),
        3 => _ = line.remove(place),
        4 => line.truncate(place),
        5 => line.push(random.pick(b"\n\r; \0")),
        6 => _ = line.pop(),
        7 => line.insert(line.len() - 1, b'\r'),
        8 => move_mark(random, line, b';'),
        9 => move_mark(random, line, b'\n'),
        10 => {
            let count = random.pick(&[2, 3, 29, 30, 227, 256, 65_536]);
            repeat(line, place, b';', count);
        }
        11 => {
            let (byte, count) = (random.pick(b" 0A\r"), random.pick(&[2, 3, 8, 50, 256, 65_536]));
            repeat(line, place, byte, count);
        }
        12 => line.extend_from_within(..),
        _ => line.clear(),
    }
    if !line.is_empty() && random.one_in(4) {
        damage(random, line);
    }
}

/// Moves the first of a mark to another place, so that the number of marks stays.
fn move_mark(random: &mut Random, line: &mut Vec<u8>, mark: u8) {
    if let Some(first) = line.iter().position(|&byte| byte == mark) {
        line.remove(first);
        let place = random.below(line.len() + 1);
        line.insert(place, mark);
    }
}

/// Puts in a byte many times.
fn repeat(line: &mut Vec<u8>, place: usize, byte: u8, count: usize) {
    line.splice(place..place, vec![byte; count]);
}
