//! Times of the two sides, taken by turns.

use std::time::{Duration, Instant};

/// What is timed.
#[derive(Clone, Copy, Debug, PartialEq, Eq)]
pub enum Side {
    /// What was proved.
    Proved,
    /// The second implementation.
    Reference,
}

/// The times of one side, in ascending order.
pub struct Times(pub Vec<Duration>);

impl Times {
    /// The median in seconds.
    pub fn median(&self) -> f64 {
        self.0[self.0.len() / 2].as_secs_f64()
    }
}

/// Times each side so many times, proved first, after one turn of each that warms up.
pub fn by_turns(repetitions: usize, mut work: impl FnMut(Side)) -> [Times; 2] {
    let mut times = [Vec::new(), Vec::new()];
    for repetition in 0..=repetitions {
        for (side, times) in [Side::Proved, Side::Reference].into_iter().zip(&mut times) {
            let start = Instant::now();
            work(side);
            if repetition > 0 {
                times.push(start.elapsed());
            }
        }
    }
    times.map(|mut times| {
        times.sort();
        Times(times)
    })
}
