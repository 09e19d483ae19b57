//! Stations and files to measure on; they vary so that no answer can be known beforehand.

use peer::lists::{self, MAX_LINE_LENGTH};
use peer::{Date, Frequency, Header, Kilometres, Metres, Place, Record, Station, Tenths, Unit};

/// How many different stations there are.
pub const STATIONS: usize = 64;

/// Different stations that break no rule, in the one spelling.
pub fn stations() -> Vec<Record> {
    (0..STATIONS).map(|index| written(&station(index as i64))).collect()
}

/// The same stations in other spellings, each accepted: zeros in front left out or spaces, short decimals, and signs.
pub fn loose_stations() -> Vec<Record> {
    stations().into_iter().enumerate().map(loosened).collect()
}

/// The lines of these stations.
pub fn lines() -> Vec<Vec<u8>> {
    (0..STATIONS).map(|index| listed(&station(index as i64))).collect()
}

/// Different stations, each broken in one of its fields.
pub fn broken_stations() -> Vec<Record> {
    let break_one = |(index, mut record): (usize, Record)| {
        let [first, _] = peer::STATION_FIELDS[index % 30];
        record[first - 1] = b'#';
        record
    };
    stations().into_iter().enumerate().map(break_one).collect()
}

/// A 13X that is like all others in its first nine bytes and like none of them after.
pub fn near_reference(index: usize) -> [u8; 15] {
    let letters = b"ABCDEFGHIJKLMNOPQRSTUVWXYZ";
    let mut reference = *b"AUT2311AB00A000";
    reference[9] = letters[index / 26 % 26];
    reference[10] = letters[index % 26];
    reference[12..].copy_from_slice(format!("{:03}", index % 1000).as_bytes());
    reference
}

/// A 13X that is like all others in its last six bytes and like none of them before.
pub fn far_reference(index: usize) -> [u8; 15] {
    let letters = b"ABCDEFGHIJKLMNOPQRSTUVWXYZ";
    let mut reference = *b"AUT0000AB01A001";
    reference[3..7].copy_from_slice(format!("{:04}", index % 10_000).as_bytes());
    reference[7] = letters[index / 26 % 26];
    reference[8] = letters[index % 26];
    reference
}

/// A 13X of one site, which differs from others in its last three digits alone.
pub fn crowded_reference(index: usize) -> [u8; 15] {
    let mut reference = *b"AUT2311AB01A000";
    reference[12..].copy_from_slice(format!("{:03}", index % 1000).as_bytes());
    reference
}

/// A file of stations at one site and one place, with numbers from `first` on.
pub fn one_place(count: usize, first: usize) -> Vec<u8> {
    let mut file = file(count, |index| crowded_reference(first + index));
    let [place, ground] =
        [219 + 51..219 + 66, 219 + 107..219 + 111].map(|columns| file[columns].to_vec());
    for record in file.chunks_mut(219).skip(1) {
        record[51..66].copy_from_slice(&place);
        record[107..111].copy_from_slice(&ground);
    }
    file
}

/// A file of stations whose 13X are those that `reference` gives for their indices.
pub fn file(count: usize, reference: impl Fn(usize) -> [u8; 15]) -> Vec<u8> {
    let samples = stations();
    let mut file = header(count as i64).to_vec();
    for index in 0..count {
        file.extend(referenced(&samples[index % STATIONS], reference(index)));
    }
    file
}

/// A station with another 13X.
pub fn referenced(station: &Record, reference: [u8; 15]) -> Record {
    let mut record = *station;
    record[204..].copy_from_slice(&reference);
    record
}

/// First column and length of the whole numbers of 4C, of 4D and of 9Y.
const WHOLE_NUMBERS: [[usize; 2]; 8] =
    [[52, 3], [56, 2], [58, 2], [60, 2], [63, 2], [65, 2], [67, 5], [108, 4]];

/// The codes of the fields that are decimals, and which of them may have a sign.
const DECIMALS: [(usize, bool); 6] =
    [(1, false), (15, true), (17, false), (18, true), (20, false), (24, false)];

fn loosened((index, mut record): (usize, Record)) -> Record {
    for [first, length] in WHOLE_NUMBERS {
        let (_, before_last) = record[first - 1..][..length].split_last_mut().expect("columns");
        before_last.iter_mut().take_while(|digit| **digit == b'0').for_each(|zero| *zero = b' ');
    }
    let [height, _] = peer::STATION_FIELDS[12];
    record[height - 1] = if index % 2 == 0 { b'+' } else { b' ' };
    for (code, signed) in DECIMALS {
        let [first, length] = peer::STATION_FIELDS[code - 1];
        let field = &mut record[first - 1..][..length];
        let text = std::str::from_utf8(field).expect("a decimal").trim();
        let short = short_decimal(text, signed);
        let front = index % (length - short.len() + 1);
        field.fill(b' ');
        field[front..][..short.len()].copy_from_slice(short.as_bytes());
    }
    record
}

/// A decimal with no zero in front, at least one digit behind its point, and a sign where one may stand.
fn short_decimal(text: &str, signed: bool) -> String {
    let (sign, magnitude) = match text.strip_prefix('-') {
        Some(magnitude) => ("-", magnitude),
        None if signed => ("+", text),
        None => ("", text),
    };
    let digits = magnitude.trim_matches('0');
    let last = if digits.ends_with('.') { "0" } else { "" };
    [sign, digits, last].concat()
}

/// Different headers that break no rule, with all their texts.
pub fn headers() -> Vec<Record> {
    let filled = |index: usize| {
        let mut header = Header { unique: Some(index as i64), ..empty_header(index as i64) };
        put(
            &mut header.content,
            &format!("Base stations and repeaters, list {index} of the owner"),
        );
        put(&mut header.email, &format!("frequency_{index}@railway.example"));
        put(&mut header.telephone, &format!("+43 (1) 5550-{index:04}"));
        put(&mut header.person, &format!("M. Muster-{index}"));
        let mut record = written_header(&header);
        put(&mut record[146..166], &format!("+43 (1) 5551-{index:04}"));
        record
    };
    (0..STATIONS).map(filled).collect()
}

/// A text in the first of its columns.
fn put(columns: &mut [u8], text: &str) {
    columns[..text.len()].copy_from_slice(text.as_bytes());
}

fn header(count: i64) -> Record {
    written_header(&empty_header(count))
}

/// A header that breaks no rule and has no text.
fn empty_header(count: i64) -> Header {
    Header {
        number: 1,
        kind: b'O',
        origin: *b"AUT",
        count,
        date: Some(Date { day: 2, month: 1, year: 2024 }),
        destination: *b"AUT",
        version: *b"1.0",
        ..Header::EMPTY
    }
}

fn written_header(header: &Header) -> Record {
    let mut record = [0; 219];
    header.write(&mut record).expect("the header holds");
    record
}

fn written(station: &Station) -> Record {
    let mut record = [0; 219];
    station.write(&mut record).expect("the station holds");
    record
}

fn listed(station: &Station) -> Vec<u8> {
    let mut line = vec![0; MAX_LINE_LENGTH];
    let length = lists::write_line(station, &mut line).expect("the station holds");
    line.truncate(length);
    line
}

/// A base station like S of 01, with numbers that go with `index`.
fn station(index: i64) -> Station {
    let frequency = |count| Some(Frequency { count, unit: Unit::Mega });
    let mut name = *b"1010_MUSTER         ";
    name[12..14].copy_from_slice(format!("{index:02}").as_bytes());
    let mut remarks = [b' '; 50];
    if index % 2 == 0 {
        remarks[..23].copy_from_slice(b"4  1E1850B 2OStadtplatz");
    }
    Station {
        transmit: frequency(93_820_000 + 20_000 * index),
        category: b'1' + (index % 8) as u8,
        class: *b"FB",
        service: *b"CP",
        user: *b"L ",
        occupancy: b'1',
        in_use: Some(Date { day: 1 + (index % 28) as u8, month: 3, year: 2021 }),
        name,
        country: *b"AUT",
        place: Place { east: 58_925 + 61 * index, north: 173_520 - 59 * index },
        radius: Kilometres(0),
        height: Some(Metres(180 + index)),
        emission: *b"5M00G7W  ",
        power: Some(Tenths(300 - 7 * index)),
        antenna: b'E',
        azimuth: Some(Tenths(50 * index)),
        elevation: Some(Tenths(20 - index)),
        polarization: *b"V ",
        gain: Some(Tenths(170 + index)),
        ground: Metres(30 + index),
        horizontal: *b"065CA00",
        vertical: *b"007CB10",
        receive: frequency(89_320_000 + 20_000 * index),
        remarks,
        status: b'B',
        requested: None,
        completed: Some(Date { day: 1, month: 2, year: 2021 }),
        reference: near_reference(index as usize),
    }
}
