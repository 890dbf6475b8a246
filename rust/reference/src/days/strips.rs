//! Strips, close to what all their rows together may have, and faulty ones.

use super::damage;
use super::random::Random;
use super::trades::{self, Trade};
use crate::{kind, strip_record, Book, Request, Row, Side, Status};
use crate::{GREATEST_QUANTITY, MOST_ROWS, MOST_STRIP_ROWS};

/// A strip's record, at times with a fault in one or two of its rows.
pub(crate) fn strip(random: &mut Random, book: &Book, small: bool) -> Vec<u8> {
    let count = count(random, book);
    let mut rows = rows(random, book, count, small);
    if random.chance(12) {
        same_code(random, book, &mut rows);
    }
    let is_faulty = random.chance(14);
    if is_faulty {
        for _ in 0..random.pick(&[1, 1, 2]) {
            fault(random, book, &mut rows);
        }
    }
    let mut record = strip_record(&rows);
    if is_faulty && random.chance(40) {
        damage_row(random, &mut record);
    }
    if random.chance(5) {
        damage_shape(random, &mut record);
    }
    record
}

/// How many rows: any count; often as many as there is place for.
fn count(random: &mut Random, book: &Book) -> usize {
    let left = (MOST_ROWS - book.rows().len()) as u64;
    let most = MOST_STRIP_ROWS as u64;
    let count = match random.within(0..=9) {
        _ if left <= most && random.chance(60) => random.beside(left, 1..=most),
        0..=1 => 1,
        2..=5 => random.within(2..=4),
        6..=7 => random.within(5..=most),
        _ => most,
    };
    count as usize
}

/// Rows of one proposer. The last one often takes it to a limit, with all the
/// others in.
fn rows(random: &mut Random, book: &Book, count: usize, small: bool) -> Vec<Request> {
    let first = trades::register(random, book, small);
    if count == 1 {
        return vec![first];
    }
    let share = (first.quantity / count as u32).max(1);
    let mixed = random.chance(20);
    let codes = random.next();
    let mut rows: Vec<Request> = Vec::new();
    for number in 0..count as u64 {
        let (start, end) = trades::hours(random, book.setup(), first.account);
        rows.push(Request {
            other: counterparty(random, book, &first),
            code: codes.wrapping_add(number),
            side: match mixed {
                true => random.one_of(2),
                false => first.side,
            },
            first: start,
            last: end,
            quantity: random.within(1..=share.into()) as u32,
            ..first
        });
    }
    if !small && random.chance(70) {
        to_limit(random, book, &mut rows);
    }
    rows
}

/// Mostly the first row's counterparty, else any other account.
fn counterparty(random: &mut Random, book: &Book, first: &Request) -> u8 {
    let other = random.one_of(book.setup().accounts.len());
    if random.chance(60) || other == first.account {
        first.other
    } else {
        other
    }
}

/// Puts one row's quantity to what the proposer can take on with all the other
/// rows in, or beside it; usually in hours that another row touches.
fn to_limit(random: &mut Random, book: &Book, rows: &mut [Request]) {
    let at = random.within(0..=rows.len() as u64 - 1) as usize;
    let beside = random.pick(rows);
    let row = &mut rows[at];
    if random.chance(70) {
        (row.first, row.last) = (beside.first, beside.last);
    }
    let trade = Trade {
        account: row.account,
        other: row.other,
        side: [Side::Sell, Side::Buy][usize::from(row.side) - 1],
        first: row.first,
        last: row.last,
    };
    // The book with the others in, as far as it takes them.
    let mut with_others = book.clone();
    let others = [&rows[..at], &rows[at + 1..]].concat();
    with_others.call(&strip_record(&others), &[], &mut [], &mut []);
    let most = trades::own_limit(&with_others, trade);
    rows[at].quantity = random.beside(most.into(), 1..=GREATEST_QUANTITY.into()) as u32;
}

/// Gives a row the counterparty and code of another row, or of one that the
/// proposer has pending in the book, or one of each.
fn same_code(random: &mut Random, book: &Book, rows: &mut [Request]) {
    let which = random.within(0..=2);
    if which != 0 {
        let (from, to) = (random.pick(rows), random.within(0..=rows.len() as u64 - 1));
        let row = &mut rows[to as usize];
        (row.other, row.code) = (from.other, from.code);
    }
    let proposer = rows[0].account;
    let is_own = |row: &&Row| row.account == proposer && row.status == Status::Pending;
    let pending: Vec<Row> = book.rows().iter().filter(is_own).copied().collect();
    if which != 1 && !pending.is_empty() {
        let from = random.pick(&pending);
        let to = random.within(0..=rows.len() as u64 - 1) as usize;
        (rows[to].other, rows[to].code) = (from.counterparty, from.code);
    }
}

/// Puts something of a row out of what it may be: a field, its proposer, its
/// counterparty or its kind.
fn fault(random: &mut Random, book: &Book, rows: &mut [Request]) {
    let at = random.within(0..=rows.len() as u64 - 1) as usize;
    let row = &mut rows[at];
    match random.within(0..=7) {
        0 => row.other = row.account,
        1 => row.kind = random.within(0..=kind::COMMIT.into()) as u8,
        2 => row.account = random.one_of(book.setup().accounts.len()),
        3 => std::mem::swap(&mut row.account, &mut row.other),
        _ => {
            // The kind decides which fields there are.
            row.kind = kind::REGISTER;
            damage::out_of_range(random, book, row);
        }
    }
}

/// Damages the map, the kind or any byte of a row.
fn damage_row(random: &mut Random, record: &mut [u8]) {
    let at = usize::from(random.one_of(record[3].into())) - 1;
    let row = &mut record[4 + 20 * at..][..20];
    match random.within(0..=3) {
        0..=1 => {
            let flipped = random.within(0..=15);
            row[(flipped / 8) as usize] ^= 1 << (flipped % 8);
        }
        2 => row[2] = random.pick(&[0, 2, 3, 10, 11, 12, 13, 14, 255]),
        _ => row[random.within(0..=19) as usize] = random.next() as u8,
    }
}

/// Damages the count, the length, or both so that they still fit.
fn damage_shape(random: &mut Random, record: &mut Vec<u8>) {
    match random.within(0..=6) {
        0 => record[3] = random.pick(&[0, record[3] - 1, record[3] + 1, 25, 255]),
        1 => record.truncate(random.within(3..=record.len() as u64 - 1) as usize),
        2 => record.truncate(record.len() - 20),
        3 => record.extend(random.bytes(20)),
        4 => {
            let more = random.within(1..=30) as usize;
            record.extend(random.bytes(more));
        }
        5 => {
            // No rows, and none said.
            record.truncate(4);
            record[3] = 0;
        }
        _ => {
            // More rows than a strip has, all of them there.
            let count = random.pick(&[25, 26, 40]);
            record.resize(4 + 20 * usize::from(count), 0);
            record[3] = count;
        }
    }
}
