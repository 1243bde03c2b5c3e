//! The clock of all timings.

use std::time::Instant;

/// Nanoseconds for one call, after a first one that is not counted.
pub fn clock(calls: u32, mut call: impl FnMut()) -> f64 {
    call();
    let start = Instant::now();
    for _ in 0..calls {
        call();
    }
    start.elapsed().as_nanos() as f64 / f64::from(calls)
}

pub fn median(mut samples: Vec<f64>) -> f64 {
    samples.sort_by(f64::total_cmp);
    samples[samples.len() / 2]
}
