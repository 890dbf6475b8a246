//! Generated days: what verdicts their strips meet, and what holds of each.

use reference::days::{day, Step};
use reference::*;
use std::collections::BTreeMap;

/// Sees each step of the days of some seeds: the book before it, the step, its
/// verdict, and the book after it.
fn each_step(seeds: std::ops::Range<u64>, mut see: impl FnMut(&Book, &Step, Verdict, &Book)) {
    for seed in seeds {
        let (setup, steps) = day(seed);
        let Ok(mut book) = Book::open(&setup) else {
            continue;
        };
        for step in &steps {
            let before = book.clone();
            let (mut results, mut balances) = (vec![0; step.results], vec![0; step.balances]);
            let verdict = book.call(&step.record, &step.prices, &mut results, &mut balances);
            see(&before, step, verdict, &book);
        }
    }
}

fn says_strip(step: &Step) -> bool {
    step.record.get(2) == Some(&kind::STRIP)
}

/// The rows of an accepted strip.
fn rows_of(step: &Step) -> impl Iterator<Item = &[u8]> {
    step.record[4..].chunks_exact(20)
}

fn call(book: &mut Book, record: &[u8]) -> Verdict {
    book.call(record, &[], &mut [], &mut [])
}

#[test]
fn strips_meet_every_verdict_that_they_can() {
    let mut seen = BTreeMap::new();
    let mut lengths = BTreeMap::new();
    let (mut in_batches, mut to_the_last, mut without_place) = (0, 0, 0);
    each_step(0..3_000, |before, step, verdict, after| {
        if !says_strip(step) {
            return;
        }
        *seen.entry(verdict.number).or_insert(0u32) += 1;
        if verdict.is_accepted() {
            *lengths.entry(step.record[3]).or_insert(0u32) += 1;
            in_batches += u32::from(before.batch_is_open());
            to_the_last += u32::from(after.rows().len() == 256);
        }
        without_place += u32::from(verdict.number == 15 && before.rows().len() < 256);
    });
    println!("strips by verdict: {seen:?}");
    println!("accepted by count: {lengths:?}");
    println!("in batches {in_batches}, to row 256 {to_the_last}, beyond it {without_place}");
    let numbers: Vec<u8> = seen.keys().copied().collect();
    assert_eq!(numbers, [0, 2, 3, 4, 5, 6, 7, 11, 14, 15, 18, 19, 21, 22]);
    assert!(seen.values().all(|&count| count > 25));
    assert_eq!(lengths.len(), 24);
    assert!(in_batches > 300 && to_the_last > 10 && without_place > 10);
}

#[test]
fn accepted_strips_are_their_registers_in_turn() {
    let mut strips = 0;
    each_step(3_000..4_000, |before, step, verdict, after| {
        if !says_strip(step) || !verdict.is_accepted() {
            return;
        }
        let mut in_turn = before.clone();
        for (row, number) in rows_of(step).zip(verdict.first..) {
            assert_eq!(call(&mut in_turn, row), Verdict::accepted(number));
        }
        assert_eq!(in_turn, *after);
        strips += 1;
    });
    assert!(strips > 500);
}

#[test]
fn strips_of_one_row_answer_as_its_register() {
    let (mut accepted, mut refused) = (0, 0);
    each_step(4_000..5_000, |before, step, verdict, after| {
        let register = match &step.record[..] {
            row if row.len() == 20 && row[2] == kind::REGISTER => row.to_vec(),
            [1, 0, kind::STRIP, 1, row @ ..] if row.len() == 20 && row[2] == kind::REGISTER => {
                row.to_vec()
            }
            _ => return,
        };
        let strip = [&[1, 0, kind::STRIP, 1], &register[..]].concat();
        for record in [register, strip] {
            let mut book = before.clone();
            assert_eq!(call(&mut book, &record), verdict);
            assert_eq!(book, *after);
        }
        match verdict.is_accepted() {
            true => accepted += 1,
            false => refused += 1,
        }
    });
    assert!(accepted > 5_000 && refused > 5_000);
}

/// A strip with one row's quantity changed by one.
fn with_one(step: &Step, row: usize, change: i32) -> Vec<u8> {
    let mut record = step.record.clone();
    let at = 4 + 20 * row + 16;
    let mut field = [0; 4];
    field.copy_from_slice(&record[at..at + 4]);
    let quantity = u32::from_le_bytes(field).wrapping_add_signed(change);
    record[at..at + 4].copy_from_slice(&quantity.to_le_bytes());
    record
}

#[test]
fn strips_come_within_one_of_their_limits() {
    // Just accepted, and refused for one kWh: by a margin, by the guarantee.
    let (mut met, mut passed) = ([0; 2], [0; 2]);
    each_step(5_000..7_500, |before, step, verdict, _| {
        if !says_strip(step) || step.record.get(3).is_none_or(|&count| count < 2) {
            return;
        }
        let limit = |number: u8| match number {
            18 => Some(0),
            19 => Some(1),
            _ => None,
        };
        for row in 0..usize::from(step.record[3]) {
            if verdict.is_accepted() {
                let other = call(&mut before.clone(), &with_one(step, row, 1));
                if let Some(sort) = limit(other.number) {
                    met[sort] += 1;
                    return;
                }
            } else if let Some(sort) = limit(verdict.number) {
                let other = call(&mut before.clone(), &with_one(step, row, -1));
                if other.is_accepted() {
                    passed[sort] += 1;
                    return;
                }
            }
        }
    });
    println!("met {met:?}, passed {passed:?}");
    assert!(met.iter().chain(&passed).all(|&count| count > 50));
}

#[test]
fn rows_of_strips_are_confirmed_and_withdrawn() {
    let (mut confirmed, mut withdrawn) = (0, 0);
    let mut last: Option<(u16, u16)> = None;
    each_step(7_000..8_000, |before, step, verdict, _| {
        let accepted = verdict.is_accepted();
        if before.rows().is_empty() {
            last = None;
        }
        if says_strip(step) && accepted {
            last = Some((verdict.first, verdict.first + u16::from(step.record[3]) - 1));
        }
        let (Some((first, end)), Ok(request), true) = (last, read(&step.record), accepted) else {
            return;
        };
        let of_strip = |number: u16| (first..=end).contains(&number);
        confirmed += u32::from(request.kind == kind::CONFIRM && of_strip(verdict.first));
        withdrawn += u32::from(request.kind == kind::WITHDRAW && of_strip(request.number));
    });
    println!("confirmed {confirmed}, withdrawn {withdrawn}");
    assert!(confirmed > 300 && withdrawn > 300);
}
