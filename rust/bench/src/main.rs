//! Measures each call on the proved book, by the public and by the inner call, and on the reference implementation, after a check of its
//! state as the public call makes one and without it as by the inner, on the same input in the same run, and prints a table.
//!
//!     cargo run --release              all lines
//!     cargo run --release -- WORD      the lines whose call has this word
//!     ./counted                        instructions in place of times

#![forbid(unsafe_code)]

mod clock;
mod line;
mod measure;
mod once;
mod replay;
mod state;
mod table;
mod work;

use std::env;
use std::process::{Command, ExitCode};

/// Each figure is the least and the greatest of so many medians.
const ROUNDS: usize = 15;

fn main() -> ExitCode {
    if replay::is_replay() {
        return ExitCode::SUCCESS;
    }
    if let Some(status) = pinned() {
        return status;
    }
    let mut lines = work::lines();
    if let Some(word) = env::args().nth(1) {
        lines.retain(|line| line.what.contains(&word));
    }
    for line in &lines {
        line.check();
    }
    if env::var_os("BENCH_ONCE").is_some() {
        once::run(&lines);
        return ExitCode::SUCCESS;
    }
    for round in 1..=ROUNDS {
        eprintln!("round {round} of {ROUNDS}");
        for line in &mut lines {
            line.measure();
        }
    }
    table::print(&lines, ROUNDS);
    ExitCode::SUCCESS
}

/// Starts this program again, bound to one core, where `taskset` can do that.
fn pinned() -> Option<ExitCode> {
    const PINNED: &str = "BENCH_PINNED";
    if env::var_os(PINNED).is_some() {
        return None;
    }
    let cores = std::thread::available_parallelism().map_or(1, |cores| cores.get());
    let core = (cores - 1).to_string();
    let mut again = Command::new("taskset");
    again.args(["-c", &core]).arg(env::current_exe().ok()?).args(env::args().skip(1));
    let run = again.env(PINNED, "1").status();
    match run {
        Ok(status) if status.success() => Some(ExitCode::SUCCESS),
        Ok(_) => Some(ExitCode::FAILURE),
        Err(_) => {
            println!("No `taskset`: not bound to a core.\n");
            None
        }
    }
}
