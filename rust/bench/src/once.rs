//! The work of each line done once, with a mark before it, for a count of instructions (`counted`).

use crate::line::{Line, Work};
use crate::state::State;
use energy_book::{raw, FIGURE_SIZE};
use std::hint::black_box;

/// Goes through the lines, and names each.
pub fn run(lines: &[Line]) {
    for line in lines {
        let mut state = line.state.clone();
        mark();
        println!("{}, {}", line.what, line.book);
        work(&mut state, &line.work);
    }
    mark();
}

/// A function of its own, so that what counts can tell one line from the next.
#[inline(never)]
fn mark() {
    black_box(());
}

/// By the inner call, then by the public one. What is no call of the library is left out.
fn work(state: &mut State, work: &Work) {
    let mut figure = [0; FIGURE_SIZE];
    match work {
        Work::Call(call, _) => {
            let mut other = state.clone();
            let _ = black_box(other.call_inner(call));
            let _ = black_box(state.call_public(call));
        }
        Work::Net(account, hour) => {
            let _ = black_box(state.owned.net(*account, *hour));
            let _ = black_box(raw::net(&state.public, *account, *hour, &mut figure));
        }
        Work::Exposure(operator) => {
            let _ = black_box(state.owned.exposure(*operator));
            let _ = black_box(raw::exposure(&state.public, *operator, &mut figure));
        }
        Work::HourlyExposure(operator, hour) => {
            let _ = black_box(state.owned.hourly_exposure(*operator, *hour));
            let _ = black_box(raw::hourly_exposure(&state.public, *operator, *hour, &mut figure));
        }
        Work::IsBook => {
            let _ = black_box(raw::is_book(&state.public));
        }
        Work::Open => {
            let _ = black_box(raw::open(&state.setup, &mut state.public));
        }
        _ => {}
    }
}
