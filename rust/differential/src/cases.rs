//! Single records: one made record a case, given to the calls that take one.

use peer::{Record, HEADER_FIELDS};

use crate::calls::{
    Comparison, HEADER_CODE, RESPELL_HEADER, RESPELL_STATION, SETTERS, STATION_CODE,
};
use crate::fields;
use crate::random::Random;
use crate::records;

/// The number of the header's fax.
const FAX: usize = 7;

/// Numbers at the borders of what the set fields can spell.
const BORDER_VALUES: [i64; 24] = [
    0,
    1,
    -1,
    900,
    901,
    -900,
    -901,
    999,
    1_000,
    -999,
    -1_000,
    3_599,
    3_600,
    9_999,
    10_000,
    -9_999,
    -10_000,
    99_999,
    u32::MAX as i64,
    1 << 32,
    i64::MAX,
    i64::MIN,
    i64::MIN + 1,
    300,
];

/// Compares the calls on one record; the rules to break take turns.
pub fn case(comparison: &mut Comparison, random: &mut Random, index: usize) {
    if index % 4 == 3 {
        header(comparison, random, index / 4 % 15);
    } else {
        station(comparison, random, index % 40);
    }
    setting(comparison, random);
}

fn station(comparison: &mut Comparison, random: &mut Random, target: usize) {
    let record = records::any_station(random, target);
    let length = records::some_length(random);
    let bytes = records::resized(random, &record, length);
    comparison.check(&STATION_CODE, &bytes);
    comparison.kind(&bytes);
    let out = buffer(random);
    comparison.rewrite(&RESPELL_STATION, &bytes, &out);
    if random.one_in(16) {
        comparison.check(&HEADER_CODE, &bytes);
    }
}

fn header(comparison: &mut Comparison, random: &mut Random, target: usize) {
    let count = random.within(0, 999_999);
    let record = records::any_header(random, target, count);
    let length = records::some_length(random);
    let bytes = records::resized(random, &record, length);
    comparison.check(&HEADER_CODE, &bytes);
    let out = buffer(random);
    comparison.rewrite(&RESPELL_HEADER, &bytes, &out);
    other_fax(comparison, random, &record);
    if random.one_in(16) {
        comparison.check(&STATION_CODE, &bytes);
    }
}

/// A header and one that differs from it in the fax alone: where both are accepted they are
/// rewritten to one record, and its fax is blank.
fn other_fax(comparison: &mut Comparison, random: &mut Random, header: &Record) {
    let fax = fields::good_header(random, FAX, 0);
    let mut other = *header;
    records::put(&mut other, &HEADER_FIELDS, FAX, &fax);
    let lent = [random.byte(); 219];
    let first = comparison.rewrite(&RESPELL_HEADER, header, &lent);
    let second = comparison.rewrite(&RESPELL_HEADER, &other, &lent);
    if peer::header_code(header) == 0 {
        assert_eq!(first, second, "two headers that differ in their fax alone");
        let [column, length] = HEADER_FIELDS[FAX - 1];
        assert_eq!(first[column - 1..][..length], [b' '; 20], "the fax of a rewritten header");
    }
}

fn setting(comparison: &mut Comparison, random: &mut Random) {
    let target = if random.one_in(4) { random.below(40) } else { 0 };
    let record = records::station(random, target);
    let length = records::some_length(random);
    let bytes = records::resized(random, &record, length);
    let call = &SETTERS[random.below(SETTERS.len())];
    let filled = match random.below(8) {
        0 => 0,
        1..=3 => random.pick(&[2, 0x7f, 0x80, u8::MAX]),
        _ => 1,
    };
    let number = match random.below(7) {
        0..=2 => random.pick(&BORDER_VALUES),
        3 => random.next() as i64,
        _ => random.within(-12_000, 12_000),
    };
    comparison.set(call, &bytes, filled, number);
}

/// A buffer to write into, filled with some byte.
fn buffer(random: &mut Random) -> Vec<u8> {
    vec![random.byte(); records::some_length(random)]
}
