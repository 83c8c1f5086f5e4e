//! Times two sides of the same work. Short batches of either side alternate, so that whatever else
//! the machine does hits both alike, and the best batch of each counts.

use std::time::{Duration, Instant};

/// A batch is a multiple of this, so that each holds the same mix of places.
pub const MIX: usize = 8;

const BATCH_NS: f64 = 40_000.0;

/// Nanoseconds per call.
#[derive(Clone, Copy)]
pub struct Times {
    pub rust: f64,
    pub rattle: f64,
}

impl Times {
    pub const NONE: Times = Times { rust: f64::INFINITY, rattle: f64::INFINITY };

    pub fn best(self, other: Times) -> Times {
        Times { rust: self.rust.min(other.rust), rattle: self.rattle.min(other.rattle) }
    }

    pub fn mean(all: &[Times]) -> Times {
        let mean = |of: fn(&Times) -> f64| all.iter().map(of).sum::<f64>() / all.len() as f64;
        Times { rust: mean(|times| times.rust), rattle: mean(|times| times.rattle) }
    }

    /// How many times as fast as the Rust.
    pub fn ratio(&self) -> f64 {
        self.rust / self.rattle
    }
}

/// Each side is handed the number of the call, to vary the place by.
pub fn measure(
    mut rust: impl FnMut(usize),
    mut rattle: impl FnMut(usize),
    budget: Duration,
) -> Times {
    let begun = Instant::now();
    let (rust_calls, rattle_calls) = (calls_per_batch(&mut rust), calls_per_batch(&mut rattle));
    let mut best = Times::NONE;
    while begun.elapsed() < budget {
        let (rust, rattle) = (batch(&mut rust, rust_calls), batch(&mut rattle, rattle_calls));
        best = best.best(Times { rust, rattle });
    }
    best
}

/// For calls that are slow: each is timed by itself, those of one side after the other's, and kept
/// in `best` where it is the best of that call. So a slow spell of the machine spoils few calls.
pub fn measure_each(
    mut rust: impl FnMut(usize),
    mut rattle: impl FnMut(usize),
    best: &mut [Times],
) {
    for (call, times) in best.iter_mut().enumerate() {
        times.rust = times.rust.min(single(&mut rust, call));
    }
    for (call, times) in best.iter_mut().enumerate() {
        times.rattle = times.rattle.min(single(&mut rattle, call));
    }
}

fn single(side: &mut impl FnMut(usize), call: usize) -> f64 {
    let begun = Instant::now();
    side(call);
    begun.elapsed().as_nanos() as f64
}

/// Nanoseconds per call over one batch.
fn batch(side: &mut impl FnMut(usize), calls: usize) -> f64 {
    let begun = Instant::now();
    for call in 0..calls {
        side(call);
    }
    begun.elapsed().as_nanos() as f64 / calls as f64
}

fn calls_per_batch(side: &mut impl FnMut(usize)) -> usize {
    batch(side, MIX);
    let per_call = batch(side, MIX).max(1.0);
    ((BATCH_NS / per_call) as usize).next_multiple_of(MIX).max(MIX)
}
