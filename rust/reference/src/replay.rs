//! The replay of a day from a stream of items.

use crate::bytes::{u16_at, u64_at};
use crate::settlement::MOST_SCHEDULES;
use crate::{kind, Book, Verdict};
use std::fmt::Write;

/// The longest stream that is replayed, in bytes.
pub const LONGEST_STREAM: usize = 65_536;

/// Replays a day: the first item of the stream is the set-up, the later ones
/// are requests. Gives a line for each, and more after a settlement.
pub fn replay(stream: &[u8]) -> String {
    if stream.len() > LONGEST_STREAM {
        return String::from("long\n");
    }
    let mut lines = String::new();
    let mut day: Option<Book> = None;
    for (number, item) in (Items { rest: stream }).enumerate() {
        let Some(item) = item else {
            line(&mut lines, format_args!("cut {number}"));
            break;
        };
        match &mut day {
            Some(book) => replay_call(book, number, item, &mut lines),
            None => match Book::open(item) {
                Ok(book) => {
                    verdict_line(&mut lines, number, Verdict::accepted(0));
                    day = Some(book);
                }
                Err(verdict) => {
                    verdict_line(&mut lines, number, verdict);
                    break;
                }
            },
        }
    }
    lines
}

/// Makes one call. A settlement's item carries the prices after the record.
fn replay_call(book: &mut Book, number: usize, item: &[u8], lines: &mut String) {
    let is_settlement = item.get(2) == Some(&kind::SETTLE);
    let record_length = if is_settlement { 3 } else { item.len() };
    let (record, prices) = item.split_at(record_length);
    let mut results = [0; MOST_SCHEDULES];
    let mut balances = [0; 8 * 16];
    let verdict = book.call(record, prices, &mut results, &mut balances);
    verdict_line(lines, number, verdict);
    if is_settlement && verdict.is_accepted() {
        for (result, place) in results.iter().zip(1..=book.schedules().len()) {
            line(lines, format_args!("s {place} {result}"));
        }
        let mut total = 0;
        for operator in 1..=book.setup().operators.len() {
            let balance = u64_at(&balances, 8 * (operator - 1)) as i64;
            line(lines, format_args!("o {operator} {balance}"));
            total += balance;
        }
        line(lines, format_args!("t {total}"));
    }
}

fn verdict_line(lines: &mut String, number: usize, verdict: Verdict) {
    let Verdict {
        number: verdict,
        first,
        second,
    } = verdict;
    line(lines, format_args!("{number} {verdict} {first} {second}"));
}

fn line(lines: &mut String, text: std::fmt::Arguments) {
    // Writing to a string cannot fail.
    let _ = writeln!(lines, "{text}");
}

/// The items of a stream, each a two-byte length and that many bytes; nothing
/// in place of one that is cut short, and then no more.
struct Items<'a> {
    rest: &'a [u8],
}

impl<'a> Iterator for Items<'a> {
    type Item = Option<&'a [u8]>;

    fn next(&mut self) -> Option<Self::Item> {
        if self.rest.is_empty() {
            return None;
        }
        let whole = if self.rest.len() < 2 {
            None
        } else {
            let length = usize::from(u16_at(self.rest, 0));
            self.rest[2..].split_at_checked(length)
        };
        self.rest = whole.map_or(&[], |(_, rest)| rest);
        Some(whole.map(|(item, _)| item))
    }
}
