//! Asks, close to limits as registers are, and commits of what was asked.

use super::random::Random;
use super::trades::{self, Trade};
use crate::{kind, Book, Request, Row, GREATEST_QUANTITY};

/// An ask; at times of an account for which one stands.
pub(crate) fn ask(random: &mut Random, book: &Book, small: bool) -> Request {
    let request = match standing(random, book) {
        Some(row) if random.chance(35) => again(random, book, &row),
        _ => trades::register(random, book, small),
    };
    Request {
        kind: kind::ASK,
        ..request
    }
}

/// A commit, mostly of an ask that stands, else of the latest one, which was
/// refused or is cleared; at times with a field changed.
pub(crate) fn commit(random: &mut Random, book: &Book, latest: Option<Request>) -> Request {
    let asked = match standing(random, book) {
        Some(row) if random.chance(92) => Some(proposal(&row)),
        _ => latest.filter(|_| random.chance(80)),
    };
    let mut request = asked.unwrap_or_else(|| trades::register(random, book, false));
    if random.chance(20) {
        change(random, book, &mut request);
    }
    Request {
        kind: kind::COMMIT,
        ..request
    }
}

/// One of the asks that stand.
fn standing(random: &mut Random, book: &Book) -> Option<Row> {
    let asks: Vec<Row> = book.asks().iter().copied().flatten().collect();
    (!asks.is_empty()).then(|| random.pick(&asks))
}

/// The same account asks again: the very same, with another code, or for what it
/// can take on, or beside it.
fn again(random: &mut Random, book: &Book, row: &Row) -> Request {
    let mut request = proposal(row);
    match random.within(0..=3) {
        0 => {}
        1 => request.code ^= 1 << random.within(0..=63),
        _ => {
            let trade = Trade {
                account: row.account,
                other: row.counterparty,
                side: row.side,
                first: row.first,
                last: row.last,
            };
            let most = trades::own_limit(book, trade);
            request.quantity = random.beside(most.into(), 1..=GREATEST_QUANTITY.into()) as u32;
        }
    }
    request
}

/// Changes one of the seven fields, and leaves it in range where it can.
fn change(random: &mut Random, book: &Book, request: &mut Request) {
    let accounts = book.setup().accounts.len();
    let hours = book.setup().hours();
    match random.within(0..=6) {
        0 => request.account = random.one_of(accounts),
        1 => request.other = random.one_of(accounts),
        2 => request.code ^= 1 << random.within(0..=63),
        3 => request.side = 3u8.saturating_sub(request.side),
        4 if request.first < request.last => request.first += 1,
        4 => request.first = request.first.saturating_sub(1),
        5 if request.last < hours => request.last += 1,
        5 => request.last -= 1,
        _ if random.chance(50) => request.quantity = (request.quantity - 1).max(1),
        _ => request.quantity = (request.quantity + 1).min(GREATEST_QUANTITY),
    }
}

/// The proposal of a row.
fn proposal(row: &Row) -> Request {
    Request {
        account: row.account,
        other: row.counterparty,
        code: row.code,
        side: row.side as u8,
        first: row.first,
        last: row.last,
        quantity: row.quantity,
        ..Request::default()
    }
}
