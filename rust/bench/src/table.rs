//! The table, as the documents have it.

use crate::clock;
use crate::line::{Line, Work};

/// Each call beside the reference doing the same: the public one checks the book first, the inner one does not.
const RATIOS: &str = "public ÷ checked reference | inner ÷ reference | public ÷ reading";

pub fn print(lines: &[Line], rounds: usize) {
    let read = lines.iter().find(|line| matches!(line.work, Work::ReadWords));
    let read = read.map_or(f64::NAN, |line| least(&line.times.public));
    println!("Microseconds; each figure the least and the greatest of {rounds} medians. The ratios are of the least.");
    println!("The clock's own {:.0} ns are taken off.\n", clock::of_clock());
    println!("| call | book | public | checked reference | inner | reference | {RATIOS} |");
    println!("|---|---|---|---|---|---|---|---|---|");
    for line in lines {
        let times = &line.times;
        println!(
            "| {} | {} | {} | {} | {} | {} | {} | {} | {} |",
            line.what,
            line.book,
            figure(&times.public),
            figure(&times.checked),
            figure(&times.inner),
            figure(&times.reference),
            ratio(least(&times.public), least(&times.checked)),
            ratio(least(&times.inner), least(&times.reference)),
            ratio(least(&times.public), read),
        );
    }
}

fn figure(medians: &[f64]) -> String {
    if medians.is_empty() {
        return String::from("–");
    }
    let greatest = medians.iter().copied().fold(f64::NAN, f64::max);
    format!("{} to {}", micros(least(medians)), micros(greatest))
}

fn least(medians: &[f64]) -> f64 {
    medians.iter().copied().fold(f64::NAN, f64::min)
}

fn micros(nanos: f64) -> String {
    let micros = nanos / 1_000.0;
    match micros {
        100.0.. => format!("{micros:.0}"),
        10.0.. => format!("{micros:.1}"),
        1.0.. => format!("{micros:.2}"),
        _ => format!("{micros:.3}"),
    }
}

fn ratio(ours: f64, other: f64) -> String {
    let ratio = ours / other;
    if !ratio.is_finite() {
        return String::from("–");
    }
    match ratio {
        10.0.. => format!("{ratio:.0}"),
        1.0.. => format!("{ratio:.1}"),
        _ => format!("{ratio:.2}"),
    }
}
