//! The times of each work: by the public call, by the reference after its check, by the inner call, by the reference.

use crate::clock;
use crate::line::Times;
use crate::replay::Replay;
use crate::state::State;
use energy_book::{raw, Book as Owned, BOOK_SIZE, FIGURE_SIZE};
use reference::days::Step;
use reference::Book;
use std::cell::RefCell;
use std::hint::black_box;

/// Keeps the compiler from leaving work out whose answer nobody looks at.
fn done<T>(answer: T) {
    let _ = black_box(answer);
}

/// All bytes of a book, summed in some way.
pub fn reading(times: &mut Times, state: &State, sum: impl Fn(&[u8]) -> u64) {
    times.public.push(clock::many(state, |state| {
        done(sum(black_box(&state.public)));
    }));
}

/// The check alone.
pub fn is_book(times: &mut Times, state: &State) {
    times.public.push(clock::many(state, |state| {
        done(raw::is_book(black_box(&state.public)));
    }));
    times.checked.push(clock::many(state, |state| {
        done(black_box(&state.theirs).stands());
    }));
}

/// A call that changes the book, which is put back before each.
pub fn change(times: &mut Times, from: &State, call: &Step) {
    let mut state = from.clone();
    let back = |state: &mut State| state.public.copy_from_slice(&from.public);
    times.public.push(clock::once(&mut state, back, |state| {
        done(state.call_public(black_box(call)));
    }));
    let back = |state: &mut State| state.theirs = from.theirs.clone();
    times.checked.push(clock::once(&mut state, back, |state| {
        done(state.call_checked(black_box(call)));
    }));
    times.reference.push(clock::once(&mut state, back, |state| {
        done(state.call_theirs(black_box(call)));
    }));
    let back = |state: &mut State| state.owned = from.owned.clone();
    times.inner.push(clock::once(&mut state, back, |state| {
        done(state.call_inner(black_box(call)));
    }));
}

/// A call that is refused, and so may be made again and again.
pub fn refusal(times: &mut Times, from: &State, call: &Step) {
    let state = RefCell::new(from.clone());
    times.public.push(clock::many(&state, |state| {
        done(state.borrow_mut().call_public(black_box(call)));
    }));
    times.checked.push(clock::many(&state, |state| {
        done(state.borrow_mut().call_checked(black_box(call)));
    }));
    times.inner.push(clock::many(&state, |state| {
        done(state.borrow_mut().call_inner(black_box(call)));
    }));
    times.reference.push(clock::many(&state, |state| {
        done(state.borrow_mut().call_theirs(black_box(call)));
    }));
}

pub fn net(times: &mut Times, state: &State, account: u8, hour: u8) {
    times.public.push(clock::many(state, |state| {
        let mut figure = [0; FIGURE_SIZE];
        done(raw::net(&state.public, black_box(account), black_box(hour), &mut figure));
        done(figure);
    }));
    times.checked.push(clock::many(state, |state| {
        done(state.checked().map(|book| book.net(black_box(account), black_box(hour))));
    }));
    times.inner.push(clock::many(state, |state| {
        done(state.owned.net(black_box(account), black_box(hour)));
    }));
    times.reference.push(clock::many(state, |state| {
        done(black_box(&state.theirs).net(black_box(account), black_box(hour)));
    }));
}

pub fn exposure(times: &mut Times, state: &State, operator: u8) {
    times.public.push(clock::many(state, |state| {
        let mut figure = [0; FIGURE_SIZE];
        done(raw::exposure(&state.public, black_box(operator), &mut figure));
        done(figure);
    }));
    times.checked.push(clock::many(state, |state| {
        done(state.checked().map(|book| book.exposure(black_box(operator))));
    }));
    times.inner.push(clock::many(state, |state| {
        done(state.owned.exposure(black_box(operator)));
    }));
    times.reference.push(clock::many(state, |state| {
        done(black_box(&state.theirs).exposure(black_box(operator)));
    }));
}

pub fn hourly_exposure(times: &mut Times, state: &State, operator: u8, hour: u8) {
    times.public.push(clock::many(state, |state| {
        let mut figure = [0; FIGURE_SIZE];
        done(raw::hourly_exposure(&state.public, black_box(operator), black_box(hour), &mut figure));
        done(figure);
    }));
    times.checked.push(clock::many(state, |state| {
        done(state.checked().map(|book| book.hourly_exposure(black_box(operator), black_box(hour))));
    }));
    times.inner.push(clock::many(state, |state| {
        done(state.owned.hourly_exposure(black_box(operator), black_box(hour)));
    }));
    times.reference.push(clock::many(state, |state| {
        done(black_box(&state.theirs).hourly_exposure(black_box(operator), black_box(hour)));
    }));
}

/// An exposure inside, beside the reference's from what a book's bytes have too: net positions and rows.
pub fn exposure_from_rows(times: &mut Times, state: &State, operator: u8) {
    times.inner.push(clock::many(state, |state| {
        done(state.owned.exposure(black_box(operator)));
    }));
    times.reference.push(clock::many(state, |state| {
        done(black_box(&state.theirs).exposure_from_rows(black_box(operator)));
    }));
}

/// Opening; the reference allocates its book, and gives it back. There is no book to be checked before, so that its time is the checked
/// one as well.
pub fn open(times: &mut Times, from: &State) {
    let mut state = from.clone();
    times.public.push(clock::once(
        &mut state,
        |_| {},
        |state| {
            done(raw::open(black_box(&from.setup), &mut state.public));
        },
    ));
    let theirs = clock::many(&from.setup, |setup| {
        done(Book::open(black_box(setup)));
    });
    times.checked.push(theirs);
    times.reference.push(theirs);
}

/// A whole day from its opening.
pub fn day(times: &mut Times, from: &State, calls: &[Step]) {
    let open_public = |state: &mut State| {
        let mut book = vec![0; BOOK_SIZE];
        done(raw::open(&state.setup, &mut book));
        state.public = book;
    };
    let open_inner = |state: &mut State| state.owned = Owned::open(&state.setup).expect("a good set-up");
    let open_theirs = |state: &mut State| state.theirs = Book::open(&state.setup).expect("a good set-up");
    times.public.push(opened_and(from, calls, open_public, |state, call| done(state.call_public(call))));
    times.checked.push(opened_and(from, calls, open_theirs, |state, call| done(state.call_checked(call))));
    times.inner.push(opened_and(from, calls, open_inner, |state, call| done(state.call_inner(call))));
    times.reference.push(opened_and(from, calls, open_theirs, |state, call| done(state.call_theirs(call))));
}

/// The time of an opening and of all calls after it.
fn opened_and(from: &State, calls: &[Step], open: impl Fn(&mut State), call: impl Fn(&mut State, &Step)) -> f64 {
    let day = |state: &mut State| {
        open(state);
        for step in calls {
            call(state, step);
        }
    };
    clock::once(&mut from.clone(), |_| {}, day)
}

/// The two programs, each started anew.
pub fn replay(times: &mut Times, replay: &Replay) {
    times.inner.push(clock::many(replay, |replay| {
        done(replay.ours());
    }));
    times.reference.push(clock::many(replay, |replay| {
        done(replay.theirs());
    }));
}
