//! Times of repeated work: of one round, and over many.

#![forbid(unsafe_code)]

use std::time::Instant;

/// Nanoseconds of one round: the work is done often enough to be far above the clock's grain.
pub fn timed(repeats: u32, mut work: impl FnMut()) -> f64 {
    let start = Instant::now();
    for _ in 0..repeats {
        work();
    }
    start.elapsed().as_nanos() as f64 / f64::from(repeats)
}

/// The least, the middle and the greatest of some numbers.
#[derive(Clone, Copy, Debug, PartialEq)]
pub struct Spread {
    pub low: f64,
    pub median: f64,
    pub high: f64,
}

impl Spread {
    /// The spread of these numbers, of which there is at least one.
    #[must_use]
    pub fn of(mut numbers: Vec<f64>) -> Self {
        numbers.sort_by(f64::total_cmp);
        Self {
            low: numbers[0],
            median: numbers[numbers.len() / 2],
            high: numbers[numbers.len() - 1],
        }
    }
}
