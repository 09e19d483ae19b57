//! Input that can be gone through whole: every byte at every column, every word of a few bytes.

use peer::{Record, HEADER_FIELDS, STATION_FIELDS};

use crate::calls::{
    Comparison, HEADER_CODE, LIST_IN, RESPELL_HEADER, RESPELL_STATION, STATION_CODE,
};
use crate::lines;
use crate::random::Random;
use crate::records;

/// Fields whose every spelling over a few bytes is tried: code, bytes, class of the station.
const WORDS: &[(usize, &[u8], &[u8; 2])] = &[
    (10, b" AJZ[a", b"FB"),
    (12, b" 09-", b"ML"),
    (13, b" +-0159.", b"FB"),
    (15, b" +-.09", b"FB"),
    (17, b" .-0369", b"FB"),
    (18, b" +-.09", b"FB"),
    (20, b" +.059", b"FB"),
    (21, b" 09+", b"FB"),
];

/// Goes through all of them.
pub fn all(comparison: &mut Comparison, random: &mut Random) {
    for class in [b"FB", b"FL", b"ML"] {
        every_byte(comparison, &sample(random, class));
    }
    let header = records::header(random, 0, 2);
    every_header_byte(comparison, &header);
    let station = sample(random, b"FB");
    for code in [4, 5, 6, 19] {
        every_pair(comparison, &station, code);
    }
    for &(code, alphabet, class) in WORDS {
        every_word(comparison, &sample(random, class), code, alphabet);
    }
    every_date(comparison, &station, &header);
    for class in [b"FB", b"FL", b"ML"] {
        let station = sample(random, class);
        let line = lines::line(&station).expect("the station holds");
        every_room(comparison, random, &station, &line);
        every_line_byte(comparison, &line);
        every_cut(comparison, &line);
        every_field_length(comparison, &station);
        every_number_of_marks(comparison, &line);
    }
}

/// A station of this class that breaks no rule and has 1A and 9B filled.
fn sample(random: &mut Random, class: &[u8; 2]) -> Record {
    loop {
        let record = records::station(random, 0);
        if peer::Station::read(&record).is_ok_and(|station| {
            station.class == *class && station.transmit.is_some() && station.elevation.is_some()
        }) {
            return record;
        }
    }
}

/// Every byte at every column of a station.
fn every_byte(comparison: &mut Comparison, station: &Record) {
    for place in 0..station.len() {
        for byte in 0..=u8::MAX {
            let mut record = *station;
            record[place] = byte;
            comparison.check(&STATION_CODE, &record);
        }
    }
}

/// Every byte at every column of a header.
fn every_header_byte(comparison: &mut Comparison, header: &Record) {
    for place in 0..header.len() {
        for byte in 0..=u8::MAX {
            let mut record = *header;
            record[place] = byte;
            comparison.check(&HEADER_CODE, &record);
        }
    }
}

/// Every spelling of a field of two bytes.
fn every_pair(comparison: &mut Comparison, station: &Record, code: usize) {
    for word in 0..=u16::MAX {
        let mut record = *station;
        records::put(&mut record, &STATION_FIELDS, code, &word.to_be_bytes());
        comparison.check(&STATION_CODE, &record);
    }
}

/// Every spelling of a field out of `alphabet`, read and written in the one spelling.
fn every_word(comparison: &mut Comparison, station: &Record, code: usize, alphabet: &[u8]) {
    let [_, length] = STATION_FIELDS[code - 1];
    for index in 0..alphabet.len().pow(length as u32) {
        let mut rest = index;
        let mut word = vec![0; length];
        for byte in &mut word {
            *byte = alphabet[rest % alphabet.len()];
            rest /= alphabet.len();
        }
        let mut record = *station;
        records::put(&mut record, &STATION_FIELDS, code, &word);
        comparison.rewrite(&RESPELL_STATION, &record, &[0; 219]);
    }
}

/// Every pair of digits as day and as month, every year with its last day and with 29 February, and the ends of all months of
/// four years, in a station and a header.
fn every_date(comparison: &mut Comparison, station: &Record, header: &Record) {
    let days = (0..100).map(|day| format!("{day:02}012024"));
    let months = (0..100).map(|month| format!("01{month:02}2024"));
    let years = (0..10_000).map(|year| format!("3112{year:04}"));
    let leap_days = (0..10_000).map(|year| format!("2902{year:04}"));
    let ends = [2000, 2023, 2024, 2100].into_iter().flat_map(|year| {
        (1..=12).flat_map(move |month| (27..=32).map(move |day| format!("{day}{month:02}{year}")))
    });
    for date in days.chain(months).chain(years).chain(leap_days).chain(ends) {
        let mut record = *station;
        records::put(&mut record, &STATION_FIELDS, 8, date.as_bytes());
        comparison.rewrite(&RESPELL_STATION, &record, &[0; 219]);
        let mut record = *header;
        records::put(&mut record, &HEADER_FIELDS, 10, date.as_bytes());
        comparison.rewrite(&RESPELL_HEADER, &record, &[0; 219]);
    }
}

/// A station's line written into buffers of every length up to well above the longest line's.
fn every_room(comparison: &mut Comparison, random: &mut Random, station: &Record, line: &[u8]) {
    for length in 0..300 {
        let buffer = lines::noise(random, length);
        let written = comparison.list_out(station, &buffer);
        assert_eq!(written, if length < line.len() { &[] } else { line });
    }
}

/// Every byte at every place of a line: in place of what stands there, and before it.
fn every_line_byte(comparison: &mut Comparison, line: &[u8]) {
    for place in 0..line.len() {
        for byte in 0..=u8::MAX {
            let mut changed = line.to_vec();
            changed[place] = byte;
            comparison.rewrite(&LIST_IN, &changed, &[0; 219]);
            let mut longer = line.to_vec();
            longer.insert(place, byte);
            comparison.rewrite(&LIST_IN, &longer, &[0; 219]);
        }
    }
}

/// A line without its first bytes, without its last ones, and without one of them.
fn every_cut(comparison: &mut Comparison, line: &[u8]) {
    for place in 0..line.len() {
        comparison.rewrite(&LIST_IN, &line[place..], &[0; 219]);
        comparison.rewrite(&LIST_IN, &line[..place], &[0; 219]);
        let mut shorter = line.to_vec();
        shorter.remove(place);
        comparison.rewrite(&LIST_IN, &shorter, &[0; 219]);
    }
}

/// Each field at every length up to a few bytes more than its columns, of spaces, digits or letters.
fn every_field_length(comparison: &mut Comparison, station: &Record) {
    for field in 0..STATION_FIELDS.len() {
        for length in 0..STATION_FIELDS[field][1] + 4 {
            for byte in *b" 0A" {
                let text = vec![byte; length];
                let mut fields = lines::fields(station);
                fields[field] = &text;
                comparison.rewrite(&LIST_IN, &lines::joined(&fields), &[0; 219]);
            }
        }
    }
}

/// A line with every number of semicolons and of line feeds, up to more than a byte can count.
fn every_number_of_marks(comparison: &mut Comparison, line: &[u8]) {
    for mark in *b";\n" {
        let rest: Vec<u8> = line.iter().copied().filter(|&byte| byte != mark).collect();
        for count in 0..600 {
            let marks = vec![mark; count];
            comparison.rewrite(&LIST_IN, &[&marks, &rest[..]].concat(), &[0; 219]);
            comparison.rewrite(&LIST_IN, &[&rest[..], &marks].concat(), &[0; 219]);
        }
    }
}
