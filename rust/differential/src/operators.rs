//! Files whose operators are drawn from few or from many, and frequencies at the ends of what
//! their columns can spell.

use peer::{Record, MAX_FILE_LENGTH, MAX_STATIONS, RECORD_LENGTH, STATION_FIELDS};

use crate::calls::Comparison;
use crate::oracle::OPERATOR_WIDTH as WIDTH;
use crate::random::Random;
use crate::records;
use crate::runs::Pool;

/// The lowest and the highest transmit frequency of each unit, and one between them.
const ENDS: [(&[u8; 11], u8); 7] = [
    (b"     .00001", b'k'),
    (b"99999.99999", b'k'),
    (b"     .00001", b'M'),
    (b"00938.20000", b'M'),
    (b"99999.99999", b'M'),
    (b"     .00001", b'G'),
    (b"99999.99999", b'G'),
];

/// Compares the pages of one file, with room for more rows, as many, fewer and none, and of the
/// file with another length.
pub fn case(comparison: &mut Comparison, random: &mut Random, pool: &Pool, index: usize) {
    let any = random.below(MAX_STATIONS + 1);
    let count = [0, 1, 2, 3, 10, 50, any, MAX_STATIONS][index % 8];
    let many = index % 2 == 1;
    let codes: Vec<usize> = (0..1 + random.below(3)).map(|_| random.below(100)).collect();
    let mut file = records::header(random, 0, count as i64).to_vec();
    for _ in 0..count {
        let code = if many { random.below(100) } else { random.pick(&codes) };
        let reference = reference(random, code);
        let mut record = pool.referenced(random, &[reference]);
        if random.one_in(2) {
            to_the_end(random, &mut record);
        }
        file.extend(if random.one_in(8) { records::damage(random, record) } else { record });
    }
    pages(comparison, random, &file);
    let length = random.pick(&[0, file.len() - 1, file.len() + 1, MAX_FILE_LENGTH + 1]);
    file.resize(length, b' ');
    let lent = lent(random, 100);
    comparison.operators(&file, &lent);
}

/// A file that has every operator, the first of them at the upper end of gigahertz and the last at
/// the lower end of kilohertz, told by hand.
pub fn ends(comparison: &mut Comparison, random: &mut Random) {
    let mut file = records::header(random, 0, 200).to_vec();
    for code in (0..100).rev().chain(0..100) {
        let mut record = good(random);
        let reference = reference(random, code);
        records::put(&mut record, &STATION_FIELDS, 30, &reference);
        let (amount, unit) = if code == 99 { ENDS[0] } else { ENDS[6] };
        records::put(&mut record, &STATION_FIELDS, 1, amount);
        records::put(&mut record, &STATION_FIELDS, 2, &[unit]);
        file.extend(record);
    }
    let rows = pages(comparison, random, &file);
    assert_eq!(rows.len(), 100 * WIDTH, "every operator has its row");
    // 9,999,999,999,000,000 is 0x2386f26fb1bdc0
    let most = b"\x00\x23\x86\xf2\x6f\xb1\xbd\xc0";
    let least = b"\0\0\0\0\0\0\0\x01";
    assert_eq!(rows[..WIDTH], [b"00\0\x02\0\x02", &most[..], most].concat());
    assert_eq!(rows[99 * WIDTH..], [b"99\0\x02\0\x02", &least[..], least].concat());
}

/// Compares the pages of a file with rooms of several sizes; answers the rows.
fn pages(comparison: &mut Comparison, random: &mut Random, file: &[u8]) -> Vec<u8> {
    let whole = lent(random, 100);
    let (refusal, found, after) = comparison.operators(file, &whole);
    assert_eq!(refusal, 0, "a hundred rows are enough for any file");
    comparison.tally.page(found);
    for room in [found, found.saturating_sub(1), random.below(101), 0] {
        let lent = lent(random, room);
        let (refusal, given, _) = comparison.operators(file, &lent);
        let enough = room >= found;
        assert_eq!((refusal, given), if enough { (0, found) } else { (17, 0) }, "room for {room}");
    }
    after[..found * WIDTH].to_vec()
}

/// Bytes for so many rows and some more, which make no row.
fn lent(random: &mut Random, rows: usize) -> Vec<u8> {
    let length = rows * WIDTH + random.below(WIDTH);
    (0..length).map(|_| random.byte()).collect()
}

/// A 13X of an operator.
fn reference(random: &mut Random, code: usize) -> Vec<u8> {
    format!("AUT{:02}{code:02}AB01A{:03}", random.below(100), random.below(1000)).into_bytes()
}

/// Gives a station that transmits another frequency, at an end of what its columns can spell.
fn to_the_end(random: &mut Random, record: &mut Record) {
    if record[..11] != [b' '; 11] {
        let (amount, unit) = random.pick(&ENDS);
        records::put(record, &STATION_FIELDS, 1, amount);
        records::put(record, &STATION_FIELDS, 2, &[unit]);
    }
}

/// A station that breaks no rule and transmits.
fn good(random: &mut Random) -> Record {
    loop {
        let record: [u8; RECORD_LENGTH] = records::station(random, 0);
        if record[..11] != [b' '; 11] {
            return record;
        }
    }
}
