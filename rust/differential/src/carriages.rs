//! Carriages: good and damaged vehicle numbers, lines and defaults.

use peer::{Record, Station};

use crate::calls::Comparison;
use crate::lines;
use crate::random::Random;
use crate::records;

/// How many accepted stations of class ML are kept as defaults.
const DEFAULTS: usize = 200;

/// The rules that take turns: each field of a line's, and those between fields.
const TARGETS: [usize; 14] = [0, 0, 1, 2, 15, 30, 31, 32, 33, 35, 36, 37, 38, 39];

/// The vehicle number of the paper.
const NUMBER: &[u8; 12] = b"318166502860";

/// The defaults that an owner may have.
pub struct Depot {
    defaults: Vec<Record>,
}

impl Depot {
    /// Stations of class ML that break no rule.
    pub fn new(random: &mut Random) -> Depot {
        let mut defaults = Vec::new();
        while defaults.len() < DEFAULTS {
            let record = records::station(random, 0);
            if Station::read(&record).is_ok_and(|station| station.class == *b"ML") {
                defaults.push(record);
            }
        }
        Depot { defaults }
    }

    /// Every digit of the paper's number changed to every other byte, and every two neighbours
    /// swapped: no changed digit passes, and no swap but of equal digits, or of 0 and 9.
    pub fn sweep(&self, comparison: &mut Comparison) {
        for place in 0..NUMBER.len() {
            for byte in 0..=u8::MAX {
                let mut number = *NUMBER;
                number[place] = byte;
                let digits = comparison.carriage_number(&name(&number));
                assert_eq!(digits == 12, number == *NUMBER, "a changed digit");
                self.file(comparison, &number);
            }
        }
        for place in 1..NUMBER.len() {
            let mut number = *NUMBER;
            number.swap(place - 1, place);
            let pair = [NUMBER[place - 1], NUMBER[place]];
            let hidden = pair[0] == pair[1] || pair == *b"09" || pair == *b"90";
            assert_eq!(comparison.carriage_number(&name(&number)) == 12, hidden, "a swap");
            self.file(comparison, &number);
        }
    }

    /// Files the first defaults under a number.
    fn file(&self, comparison: &mut Comparison, number: &[u8]) {
        let usual = &self.defaults[0];
        let fields = lines::fields(usual);
        let line = lines::joined(&[number, fields[0], fields[1], fields[14], fields[29]]);
        comparison.carriage(&line, usual, &[0xee; 219]);
    }

    /// One carriage; the rules to break take turns.
    pub fn case(&self, comparison: &mut Comparison, random: &mut Random, index: usize) {
        let usual = if random.one_in(8) {
            records::any_station(random, index % 40)
        } else {
            random.pick(&self.defaults)
        };
        let own = if random.one_in(2) {
            random.pick(&self.defaults)
        } else {
            records::station(random, TARGETS[index % TARGETS.len()])
        };
        let mut number = vehicle(random);
        if random.one_in(4) {
            wrong(random, &mut number);
        }
        let fields = lines::fields(&own);
        let mut parts = [&number[..], fields[0], fields[1], fields[14], fields[29]];
        for part in &mut parts[1..] {
            if random.one_in(2) {
                *part = lines::trimmed_start(lines::trimmed_end(part));
            }
        }
        let mut line = lines::joined(&parts);
        if random.one_in(4) {
            lines::damage(random, &mut line);
        }
        let length = records::some_length(random);
        let defaults = records::resized(random, &usual, length);
        let length = records::some_length(random);
        let buffer = lines::noise(random, length);
        let filed = comparison.carriage(&line, &defaults, &buffer);
        comparison.carriage_number(filed.get(28..48).unwrap_or(&filed));
        comparison.carriage_number(&name(&number));
    }
}

/// The name of a carriage, whatever its number is.
fn name(number: &[u8]) -> Vec<u8> {
    [b"9999_", number, b"_R "].concat()
}

/// A vehicle number whose last digit is right.
fn vehicle(random: &mut Random) -> Vec<u8> {
    let mut number = random.word(b"0123456789", 12);
    while peer::carriages::check_number(&number).is_err() {
        number[11] = b'0' + (number[11] - b'0' + 1) % 10;
    }
    number
}

/// Makes a number wrong in one way, or leaves it by chance.
fn wrong(random: &mut Random, number: &mut Vec<u8>) {
    let place = random.below(number.len() - 1);
    match random.below(6) {
        0 => number[place] = random.pick(b"0123456789"),
        1 => number.swap(place, place + 1),
        2 => number[place] = random.byte(),
        3 => _ = number.remove(place),
        4 => number.insert(place, random.pick(b"0123456789 ")),
        _ => number[11] = random.pick(b"0123456789"),
    }
}
