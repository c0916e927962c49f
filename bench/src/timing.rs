//! Times of interleaved runs: the lowest, which a busy machine disturbs least, and the median.

use std::time::{Duration, Instant};

use crate::clock;

/// The times of one side, in the clock's unit.
pub struct Times(Vec<f64>);

impl Times {
    pub fn lowest(&self) -> f64 {
        self.0.iter().copied().fold(f64::INFINITY, f64::min)
    }

    pub fn median(&self) -> f64 {
        let mut sorted = self.0.clone();
        sorted.sort_by(f64::total_cmp);
        sorted[sorted.len() / 2]
    }
}

/// One run of one side: makes what it needs, then gives the time of the work alone.
pub type Run<'a> = Box<dyn FnMut() -> f64 + 'a>;

/// The time of a piece of work; what it gives back is kept from being optimised away.
pub fn timed<T>(work: impl FnOnce() -> T) -> f64 {
    let start = clock::now();
    let done = work();
    let time = clock::now() - start;
    std::hint::black_box(done);
    time
}

/// Runs all sides in turn, again and again, until `budget` is spent (at least five times, at most `most`). Where instructions are counted,
/// which no other program disturbs, twice is enough.
pub fn interleaved(sides: &mut [Run], budget: Duration, most: usize) -> Vec<Times> {
    let mut times: Vec<Times> = sides.iter().map(|_| Times(Vec::new())).collect();
    let start = Instant::now();
    let (least, budget) = if clock::counts() { (2, Duration::ZERO) } else { (5, budget) };
    for round in 0..most {
        if least <= round && budget < start.elapsed() {
            break;
        }
        for (side, times) in sides.iter_mut().zip(&mut times) {
            times.0.push(side());
        }
    }
    times
}
