//! The desk library compared with the peer, call by call, on made input.
//!
//! Input is made by a generator with a fixed seed: fields in good spellings and near misses,
//! records that break each rule in turn, damaged bytes, wrong lengths, lines of semicolon lists
//! and of carriages, a field for each kind of each code, runs of replacements in files of up to 298
//! stations at few sites, so that twins and clashes are common, and files whose operators are few or
//! many. Each call is made of both on equal
//! bytes; refusals, codes, counts and every lent byte must be equal after it, and refused calls
//! must leave all bytes.

#![forbid(unsafe_code)]

mod calls;
mod carriages;
mod cases;
mod fields;
mod kinds;
mod lines;
mod operators;
mod oracle;
mod random;
mod records;
mod runs;
mod sweeps;
mod tally;

pub use tally::Tally;

/// How many single records are made if nothing else is asked for.
pub const DEFAULT_COUNT: usize = 200_000;

/// The seed of every run.
const SEED: u64 = 0x2a_219_250;

/// How many single records there are to one run of replacements.
const CASES_PER_RUN: usize = 200;

/// How many single records there are to one carriage.
const CASES_PER_CARRIAGE: usize = 4;

/// How many runs of replacements share their stations.
const RUNS_PER_POOL: usize = 100;

/// Compares `count` single records and the runs that go with them; answers what was met. With
/// fewer than some 10,000 records not everything is.
///
/// # Panics
///
/// Where the library and the peer part, with the call and its input.
pub fn run(count: usize) -> Tally {
    assert_eq!(desk::rules(), peer::RULES, "the number of the rules");
    let mut comparison = calls::Comparison::default();
    let mut random = random::Random::new(SEED);
    sweeps::all(&mut comparison, &mut random);
    kinds::sweep(&mut comparison);
    for index in 0..count {
        cases::case(&mut comparison, &mut random, index);
        lines::case(&mut comparison, &mut random, index);
    }
    let depot = carriages::Depot::new(&mut random);
    depot.sweep(&mut comparison);
    for index in 0..count.div_ceil(CASES_PER_CARRIAGE) {
        depot.case(&mut comparison, &mut random, index);
    }
    let mut pool = runs::Pool::new(&mut random);
    for index in 0..count.div_ceil(CASES_PER_RUN) {
        if index % RUNS_PER_POOL == RUNS_PER_POOL - 1 {
            pool = runs::Pool::new(&mut random);
        }
        runs::run(&mut comparison, &mut random, &pool, index);
        operators::case(&mut comparison, &mut random, &pool, index);
    }
    operators::ends(&mut comparison, &mut random);
    comparison.tally
}
