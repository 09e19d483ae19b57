//! Medians of many repetitions, the two sides by turns.

use std::time::{Duration, Instant};

/// How often each side is timed.
pub const REPETITIONS: usize = 201;

/// How long one repetition lasts at the least.
pub const AT_LEAST: Duration = Duration::from_micros(200);

/// Nanoseconds that one call takes, in the median.
#[derive(Clone, Copy)]
pub struct Times {
    /// Of the verified library.
    pub verified: f64,
    /// Of the peer.
    pub peer: f64,
}

/// Times two sides that do the same work.
pub fn compare(mut verified: impl FnMut(), mut peer: impl FnMut()) -> Times {
    let (verified_batch, peer_batch) = (batch(&mut verified), batch(&mut peer));
    let mut samples = [Vec::new(), Vec::new()];
    for _ in 0..REPETITIONS {
        samples[0].push(per_call(&mut verified, verified_batch));
        samples[1].push(per_call(&mut peer, peer_batch));
    }
    let [verified, peer] = samples.map(median);
    Times { verified, peer }
}

/// How many calls make a repetition that is long enough.
fn batch(call: &mut impl FnMut()) -> u32 {
    let mut calls = 1;
    while time(call, calls) < AT_LEAST {
        calls *= 2;
    }
    calls
}

fn time(call: &mut impl FnMut(), calls: u32) -> Duration {
    let start = Instant::now();
    for _ in 0..calls {
        call();
    }
    start.elapsed()
}

fn per_call(call: &mut impl FnMut(), calls: u32) -> f64 {
    time(call, calls).as_nanos() as f64 / f64::from(calls)
}

fn median(mut samples: Vec<f64>) -> f64 {
    samples.sort_by(f64::total_cmp);
    samples[samples.len() / 2]
}
