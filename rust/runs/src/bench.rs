//! What the program `bench` measures, and how it is told.

pub mod calls;
pub mod inputs;
pub mod plot;
pub mod table;

use std::time::Instant;

/// The best time of `run`, in seconds.
pub fn best(mut run: impl FnMut()) -> f64 {
    let (mut best, mut total, mut runs) = (f64::MAX, 0.0, 0);
    while total < 0.2 && runs < 30 {
        let start = Instant::now();
        run();
        let time = start.elapsed().as_secs_f64();
        best = best.min(time);
        total += time;
        runs += 1;
    }
    best
}
