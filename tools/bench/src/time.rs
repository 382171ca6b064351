//! Times of short runs.

use std::time::{Duration, Instant};

/// Rounds of each measurement, unless `KHS_ROUNDS` says otherwise.
const ROUNDS: usize = 1_001;

/// One of those that are timed against each other.
pub trait Side {
    /// Sets back what the work changes; not timed.
    fn restore(&mut self);
    /// The work.
    fn work(&mut self);
}

impl<S: Side> Side for Vec<S> {
    fn restore(&mut self) {
        self.iter_mut().for_each(S::restore);
    }

    fn work(&mut self) {
        self.iter_mut().for_each(S::work);
    }
}

/// The median times of some sides in nanoseconds, taken turn by turn.
pub fn medians<const N: usize>(mut sides: [&mut dyn Side; N]) -> [f64; N] {
    let mut times = [const { Vec::new() }; N];
    for _ in 0..rounds() {
        for (times, side) in times.iter_mut().zip(&mut sides) {
            times.push(timed(*side));
        }
    }
    times.map(median)
}

/// How many rounds a median is of.
fn rounds() -> usize {
    let asked = std::env::var("KHS_ROUNDS").ok();
    asked.map_or(ROUNDS, |rounds| {
        rounds.parse().expect("KHS_ROUNDS is a number")
    })
}

/// How long a side's work takes once.
fn timed(side: &mut dyn Side) -> Duration {
    side.restore();
    let start = Instant::now();
    side.work();
    start.elapsed()
}

/// The middle one, in nanoseconds.
fn median(mut times: Vec<Duration>) -> f64 {
    times.sort();
    times[times.len() / 2].as_nanos() as f64
}
