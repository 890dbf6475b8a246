//! Fewer calls that still fail.

use crate::Day;

/// Drops calls of a failing day while it still fails: first many at once, at the end one by one.
pub fn shrink(day: &Day, fails: impl Fn(&Day) -> bool) -> Day {
    let mut least = day.clone();
    let mut chunk = least.calls.len().div_ceil(2).max(1);
    loop {
        let mut from = 0;
        let mut dropped = false;
        while from < least.calls.len() {
            let mut fewer = least.clone();
            fewer.calls.drain(from..(from + chunk).min(least.calls.len()));
            if fails(&fewer) {
                least = fewer;
                dropped = true;
            } else {
                from += chunk;
            }
        }
        if chunk == 1 && !dropped {
            return least;
        }
        chunk = chunk.div_ceil(2).max(1);
        if least.calls.is_empty() {
            return least;
        }
    }
}
