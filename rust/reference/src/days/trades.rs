//! Requests of the registration phase, close to margins and guarantees.

use super::random::Random;
use crate::{kind, Account, Book, Position, Request, Row, Setup, Side, Status};
use crate::{GREATEST_GUARANTEE, GREATEST_QUANTITY};

/// A proposal, its quantity often at a limit of one of the parties.
pub(crate) fn register(random: &mut Random, book: &Book, small: bool) -> Request {
    let mut proposer = side_of_a_trade(random, book);
    let (mut own, mut others) = limits(book, proposer);
    // Where one of the parties can take nothing, usually look elsewhere.
    for _ in 0..3 {
        if own.min(others) > 0 || random.chance(25) {
            break;
        }
        proposer = side_of_a_trade(random, book);
        (own, others) = limits(book, proposer);
    }
    let both = own.min(others);
    let allowed = 1..=u64::from(GREATEST_QUANTITY);
    let quantity = match random.within(0..=19) {
        _ if small => random.within(1..=3),
        0..=3 => random.beside(own.into(), allowed),
        4..=7 => random.beside(both.into(), allowed),
        8..=9 => random.beside(others.into(), allowed),
        10 => random.pick(&[1, u64::from(GREATEST_QUANTITY)]),
        _ => random.within(1..=u64::from(both / 3).max(1)),
    };
    Request {
        kind: kind::REGISTER,
        account: proposer.account,
        other: proposer.other,
        code: code(random, small),
        side: proposer.side as u8,
        first: proposer.first,
        last: proposer.last,
        quantity: quantity as u32,
        ..Request::default()
    }
}

/// Any account's side of any trade.
fn side_of_a_trade(random: &mut Random, book: &Book) -> Trade {
    let setup = book.setup();
    let accounts = setup.accounts.len();
    let account = random.one_of(accounts);
    let mut other = random.one_of(accounts);
    if other == account && !random.chance(3) {
        other = account % accounts as u8 + 1;
    }
    let limited = random.pick(&[account, other]);
    let (first, last) = hours(random, setup, limited);
    Trade {
        account,
        other,
        side: random.pick(&[Side::Sell, Side::Buy]),
        first,
        last,
    }
}

/// The most that a proposer can propose, and that its counterparty can confirm.
fn limits(book: &Book, proposer: Trade) -> (u32, u32) {
    let counterparty = Trade {
        account: proposer.other,
        other: proposer.account,
        side: match proposer.side {
            Side::Sell => Side::Buy,
            Side::Buy => Side::Sell,
        },
        ..proposer
    };
    let confirm = |p: Position, quantity| p.with_trade(counterparty.side, quantity);
    (own_limit(book, proposer), room(book, counterparty, confirm))
}

/// The most that a proposer can propose.
pub(crate) fn own_limit(book: &Book, proposer: Trade) -> u32 {
    let propose = |p: Position, quantity| p.with_proposal(proposer.side, quantity);
    room(book, proposer, propose)
}

/// The confirmation of a row.
pub(crate) fn confirm_of(row: &Row) -> Request {
    Request {
        kind: kind::CONFIRM,
        account: row.counterparty,
        other: row.account,
        code: row.code,
        side: 3 - row.side as u8,
        first: row.first,
        last: row.last,
        quantity: row.quantity,
        ..Request::default()
    }
}

/// A confirmation of a pending row, at times of none or on other terms.
pub(crate) fn confirm(random: &mut Random, book: &Book) -> Request {
    let Some((_, row)) = a_row(random, book, 97) else {
        return Request {
            kind: kind::CONFIRM,
            ..register(random, book, false)
        };
    };
    let mut request = confirm_of(&row);
    if random.chance(15) {
        match random.within(0..=6) {
            0 => request.code ^= 1 << random.within(0..=63),
            1 => std::mem::swap(&mut request.account, &mut request.other),
            2 => request.other = random.one_of(book.setup().accounts.len()),
            3 => request.side = 3 - request.side,
            4 => {
                (request.first, request.last) = hours(random, book.setup(), request.account);
            }
            5 => request.quantity = (request.quantity + 1).min(GREATEST_QUANTITY),
            _ => request.quantity = (request.quantity - 1).max(1),
        }
    }
    request
}

/// A withdrawal of a pending row, at times not the caller's or not there.
pub(crate) fn withdraw(random: &mut Random, book: &Book) -> Request {
    let (mut number, mut account) = match a_row(random, book, 85) {
        Some((number, row)) => (number, row.account),
        None => (1, 1),
    };
    match random.within(0..=11) {
        0 => account = random.one_of(book.setup().accounts.len()),
        1 => number = random.pick(&[number + 1, 256]).min(256),
        _ => {}
    }
    Request {
        kind: kind::WITHDRAW,
        account,
        number,
        ..Request::default()
    }
}

/// The withdrawal of a row by its proposer.
pub(crate) fn withdraw_of(number: u16, row: &Row) -> Request {
    Request {
        kind: kind::WITHDRAW,
        account: row.account,
        number,
        ..Request::default()
    }
}

/// A guarantee, often just enough for the exposure or just too small.
pub(crate) fn guarantee(random: &mut Random, book: &Book) -> Request {
    let operator = random.one_of(book.setup().operators.len());
    let exposure = book.exposure(operator).unwrap_or(0);
    let share = 1000 - u64::from(book.setup().operator(operator).maintenance);
    let least = exposure.div_ceil(share.max(1));
    let guarantee = match random.within(0..=9) {
        0 => random.pick(&[0, GREATEST_GUARANTEE]),
        1..=3 => random
            .within(least..=least.saturating_mul(3) + 1_000)
            .min(GREATEST_GUARANTEE),
        _ => random.beside(least.saturating_sub(1), 0..=GREATEST_GUARANTEE),
    };
    Request {
        kind: kind::GUARANTEE,
        operator,
        guarantee,
        ..Request::default()
    }
}

/// Some hours of the day: one, a few or all, or those up to where a margin of
/// the account changes, or from there on.
pub(crate) fn hours(random: &mut Random, setup: &Setup, account: u8) -> (u8, u8) {
    let hours = setup.hours();
    let first = random.one_of(hours.into());
    let from = |random: &mut Random, first: u8| {
        let last = random.within(first.into()..=hours.into());
        (first, last as u8)
    };
    match random.within(0..=12) {
        0 => (1, hours),
        1..=4 => from(random, first),
        5..=6 => (1, 1),
        7..=9 => (first, first),
        _ => {
            let Some(change) = a_change(random, setup.account(account)) else {
                return (first, first);
            };
            match random.within(0..=2) {
                0 => from(random, change),
                1 => (random.one_of(usize::from(change) - 1), change - 1),
                _ => (random.one_of(usize::from(change) - 1), change),
            }
        }
    }
}

/// An hour whose margins are not those of the hour before.
fn a_change(random: &mut Random, account: &Account) -> Option<u8> {
    let margins: Vec<_> = account.margins(0..account.lower_margins.len()).collect();
    let pairs = (2..).zip(margins.windows(2));
    let changes: Vec<u8> = pairs
        .filter(|(_, pair)| pair[0] != pair[1])
        .map(|(hour, _)| hour)
        .collect();
    (!changes.is_empty()).then(|| random.pick(&changes))
}

/// A code; usually one of a few, so that codes are used again.
fn code(random: &mut Random, any: bool) -> u64 {
    if any || random.chance(20) {
        random.next()
    } else {
        random.within(0..=7)
    }
}

/// A row of the book and its number, with the chance given a pending one; often
/// the last of them.
fn a_row(random: &mut Random, book: &Book, chance_of_pending: u64) -> Option<(u16, Row)> {
    let pending_only = random.chance(chance_of_pending);
    let rows: Vec<_> = (1..)
        .zip(book.rows().iter().copied())
        .filter(|(_, row)| !pending_only || row.status == Status::Pending)
        .collect();
    match rows.last() {
        Some(&last) if random.chance(40) => Some(last),
        Some(_) => Some(random.pick(&rows)),
        None => None,
    }
}

/// An account's side of a trade.
#[derive(Clone, Copy)]
pub(crate) struct Trade {
    pub account: u8,
    pub other: u8,
    pub side: Side,
    pub first: u8,
    pub last: u8,
}

/// The greatest quantity that an account can take on without breaking a margin
/// or going beyond its operator's guarantee, where `take` adds a quantity to a
/// position; 0 if there is none.
fn room(book: &Book, trade: Trade, take: impl Fn(Position, i32) -> Position) -> u32 {
    let setup = book.setup();
    let account = setup.account(trade.account);
    let operator = account.operator;
    let left = i128::from(book.available(operator).unwrap_or(0))
        - i128::from(book.exposure(operator).unwrap_or(0));
    let fits = |quantity: u32| {
        let mut rise = 0;
        for hour in trade.first..=trade.last {
            let before = book.position(trade.account, hour).unwrap_or_default();
            let after = take(before, quantity as i32);
            let at = usize::from(hour) - 1;
            if after.low() < -(account.lower_margins[at] as i32)
                || after.high() > account.upper_margins[at] as i32
            {
                return false;
            }
            let estimate = setup.estimates[at];
            rise += i128::from(estimate) * i128::from(after.exposed() - before.exposed());
        }
        rise <= left
    };
    // Quantities up to `least` fit, those from `most` on do not.
    let (mut least, mut most) = (0, GREATEST_QUANTITY + 1);
    while most - least > 1 {
        let middle = least + (most - least) / 2;
        if fits(middle) {
            least = middle;
        } else {
            most = middle;
        }
    }
    least
}
