//! Whole records: stations and headers that hold, that break a rule of choice, or are damaged.

use peer::{Record, HEADER_FIELDS, STATION_FIELDS};

use crate::fields;
use crate::random::Random;

/// The lengths at which records and buffers are lent, 219 apart.
pub const OTHER_LENGTHS: [usize; 9] = [0, 1, 2, 218, 220, 221, 437, 438, 439];

/// Puts `text` into the columns of a field.
pub fn put(record: &mut Record, places: &[[usize; 2]], code: usize, text: &[u8]) {
    let [first, length] = places[code - 1];
    record[first - 1..][..length].copy_from_slice(text);
}

/// A station of any kind: mostly one that breaks rule `target`, 0 for none.
pub fn any_station(random: &mut Random, target: usize) -> Record {
    match random.below(8) {
        0..=3 => station(random, target),
        4 => {
            let record = station(random, 0);
            damage(random, record)
        }
        5 => loose_station(random),
        6 => {
            let record = station(random, target);
            damage(random, record)
        }
        _ => noise(random),
    }
}

/// A header of any kind: mostly one that breaks rule `target`, 0 for none.
pub fn any_header(random: &mut Random, target: usize, count: i64) -> Record {
    match random.below(6) {
        0..=2 => header(random, target, count),
        3 => {
            let record = header(random, 0, count);
            damage(random, record)
        }
        4 => {
            let record = header(random, target, count);
            damage(random, record)
        }
        _ => noise(random),
    }
}

/// A station that mostly has `target` as its first broken rule, 0 for none.
pub fn station(random: &mut Random, target: usize) -> Record {
    let mut record = harmonious_station(random);
    match target {
        0 => {}
        2 | 25 => {
            let filled = !field(&record, target - 1).trim_ascii().is_empty();
            let unit = random.pick(if filled { b" Kmg0" } else { b"kMG0x" });
            put_station(&mut record, target, &[unit]);
        }
        1..=30 => {
            let text = fields::bad_station(random, target);
            put_station(&mut record, target, &text);
        }
        _ => break_across(random, &mut record, target),
    }
    record
}

/// A header that mostly has `target` as its first broken rule, 0 for none.
pub fn header(random: &mut Random, target: usize, count: i64) -> Record {
    let mut record = [b' '; 219];
    for code in 1..=14 {
        let text = if code == target {
            fields::bad_header(random, code)
        } else {
            fields::good_header(random, code, count)
        };
        put(&mut record, &HEADER_FIELDS, code, &text);
    }
    record
}

/// A few bytes changed.
pub fn damage(random: &mut Random, mut record: Record) -> Record {
    for _ in 0..=random.below(4) {
        let place = random.below(record.len());
        record[place] =
            if random.one_in(2) { random.byte() } else { random.pick(fields::BORDER_BYTES) };
    }
    record
}

/// The bytes of a record lent at some length: cut off, or followed by more.
pub fn resized(random: &mut Random, record: &Record, length: usize) -> Vec<u8> {
    let mut bytes = record.to_vec();
    bytes.resize_with(length, || random.byte());
    bytes
}

/// 219, and now and then another length.
pub fn some_length(random: &mut Random) -> usize {
    if random.one_in(16) {
        random.pick(&OTHER_LENGTHS)
    } else {
        219
    }
}

fn field(record: &Record, code: usize) -> &[u8] {
    let [first, length] = STATION_FIELDS[code - 1];
    &record[first - 1..][..length]
}

fn put_station(record: &mut Record, code: usize, text: &[u8]) {
    put(record, &STATION_FIELDS, code, text);
}

fn put_good(random: &mut Random, record: &mut Record, code: usize) {
    let text = fields::good_station(random, code);
    put_station(record, code, &text);
}

fn put_blank(record: &mut Record, code: usize) {
    let [_, length] = STATION_FIELDS[code - 1];
    put_station(record, code, &vec![b' '; length]);
}

/// Each field good by itself, some blank, whatever the others are.
fn loose_station(random: &mut Random) -> Record {
    let mut record = [b' '; 219];
    for code in 1..=30 {
        put_good(random, &mut record, code);
    }
    for (frequency, unit) in [(1, 2), (24, 25)] {
        if random.one_in(4) {
            put_blank(&mut record, frequency);
            put_blank(&mut record, unit);
        }
    }
    for code in [8, 13, 15, 17, 18, 20, 28, 29] {
        if random.one_in(3) {
            put_blank(&mut record, code);
        }
    }
    for code in [22, 23] {
        if random.one_in(2) {
            put_station(&mut record, code, b"000ND00");
        }
    }
    record
}

/// A station that breaks no rule.
fn harmonious_station(random: &mut Random) -> Record {
    let mut record = loose_station(random);
    let class = [record[13], record[14]];
    if field(&record, 1) == [b' '; 11] {
        put_blank(&mut record, 15);
        put_good(random, &mut record, 24);
        put_good(random, &mut record, 25);
    }
    if class == *b"ML" {
        put_blank(&mut record, 13);
        put_blank(&mut record, 17);
    } else {
        put_station(&mut record, 12, b"    0");
    }
    for (angle, kind) in [(17, 22), (18, 23)] {
        if field(&record, angle) == [b' '; 5] {
            put_station(&mut record, kind, b"000ND00");
        }
    }
    if field(&record, 24) != [b' '; 11] {
        put_good(random, &mut record, 20);
    }
    if class == *b"FL" {
        let name = fields::name(random, true);
        put_station(&mut record, 9, &name);
    }
    record
}

/// Makes a station break one of the rules 31 to 39.
fn break_across(random: &mut Random, record: &mut Record, target: usize) {
    let blank: &[usize] = match target {
        31 => &[1, 2, 15, 24, 25],
        32 => &[1, 2],
        34 => &[13],
        35 => &[17],
        36 => &[18],
        37 => &[17],
        38 => &[20],
        _ => &[],
    };
    let filled: &[usize] = match target {
        32 => &[15, 24, 25, 20],
        34 => &[17],
        35 => &[22],
        36 => &[23],
        37 => &[13],
        38 => &[24, 25],
        39 => &[9],
        _ => &[],
    };
    for &code in blank {
        put_blank(record, code);
    }
    for &code in filled {
        put_good(random, record, code);
    }
    match target {
        33 => {
            let name = fields::name(random, true);
            put_station(record, 4, random.pick(&[b"FB", b"FL"]));
            put_station(record, 9, &name);
            put_station(record, 12, random.pick(&[b"    1", b"99999", b"00010"]));
        }
        34 => put_station(record, 4, b"ML"),
        37 => {
            put_station(record, 4, b"ML");
            put_station(record, 22, b"000ND00");
        }
        39 => {
            put_station(record, 4, b"FL");
            put_station(record, 12, b"00000");
        }
        _ => {}
    }
}

/// No record at all: spaces, random bytes, or random words of bytes that rules speak of.
fn noise(random: &mut Random) -> Record {
    let mut record = [b' '; 219];
    match random.below(3) {
        0 => record.fill(random.pick(b" 0A")),
        1 => record.fill_with(|| random.byte()),
        _ => record.fill_with(|| random.pick(fields::BORDER_BYTES)),
    }
    record
}

#[cfg(test)]
mod tests {
    use super::*;

    #[test]
    fn records_that_are_to_hold_do() {
        let mut random = Random::new(1);
        for _ in 0..5_000 {
            assert_eq!(peer::station_code(&station(&mut random, 0)), 0);
            assert_eq!(peer::header_code(&header(&mut random, 0, 7)), 0);
        }
    }

    #[test]
    fn records_mostly_break_the_rule_asked_for() {
        let mut random = Random::new(1);
        for target in 1..40 {
            let codes = (0..400).map(|_| peer::station_code(&station(&mut random, target)));
            let hits = codes.filter(|&code| usize::from(code) == target).count();
            assert!(hits >= 150, "station rule {target}: {hits} of 400");
        }
        for target in 1..15 {
            let codes = (0..400).map(|_| peer::header_code(&header(&mut random, target, 7)));
            let hits = codes.filter(|&code| usize::from(code) == target).count();
            assert!(hits >= 100, "header rule {target}: {hits} of 400");
        }
    }
}
