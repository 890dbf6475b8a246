//! Medians of many short times.

use std::sync::OnceLock;
use std::time::Instant;

/// How many times a median is taken of.
const SAMPLES: usize = 801;
/// Work that takes longer than this, in nanoseconds, is sampled less often.
const LONG: f64 = 1_000_000.0;

/// The median time of `work` in nanoseconds, where `before` makes ready for it and is not in the figure.
pub fn once<T>(state: &mut T, before: impl Fn(&mut T), work: impl Fn(&mut T)) -> f64 {
    let sample = |state: &mut T| {
        before(state);
        let start = Instant::now();
        work(state);
        start.elapsed().as_nanos() as f64
    };
    for _ in 0..3 {
        sample(state);
    }
    let samples = if sample(state) > LONG { 21 } else { SAMPLES };
    let times = (0..samples).map(|_| sample(state)).collect();
    (median(times) - of_clock()).max(0.0)
}

/// The median time of `work` in nanoseconds, where it may be done again and again: of many times in a row, divided.
pub fn many<T>(state: &T, work: impl Fn(&T)) -> f64 {
    let start = Instant::now();
    for _ in 0..8 {
        work(state);
    }
    let one = start.elapsed().as_nanos() as f64 / 8.0;
    let times_each = (5_000.0 / one.max(1.0)).ceil().clamp(1.0, 2_000.0) as usize;
    let sample = || {
        let start = Instant::now();
        for _ in 0..times_each {
            work(state);
        }
        (start.elapsed().as_nanos() as f64 - of_clock()).max(0.0) / times_each as f64
    };
    let samples = if one > LONG / 10.0 { 101 } else { SAMPLES };
    median((0..samples).map(|_| sample()).collect())
}

/// What reading the clock takes.
pub fn of_clock() -> f64 {
    static TIME: OnceLock<f64> = OnceLock::new();
    *TIME.get_or_init(|| {
        let sample = || {
            let start = Instant::now();
            start.elapsed().as_nanos() as f64
        };
        median((0..20_001).map(|_| sample()).collect())
    })
}

fn median(mut times: Vec<f64>) -> f64 {
    times.sort_by(f64::total_cmp);
    times[times.len() / 2]
}
