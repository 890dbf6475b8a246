//! Schedules close to the limits of points and accounts, and settlements.

use super::random::Random;
use super::Step;
use crate::{kind, Book, Direction, Point, Request, GREATEST_PRICE, GREATEST_QUANTITY};

/// The prices that schedules and zones share, so that there are ties.
const PRICES: [u32; 6] = [0, 2_999, 3_000, 3_001, 50_000, GREATEST_PRICE];

/// A schedule; its quantity is often what the point or the account has left.
pub(crate) fn schedule(random: &mut Random, book: &Book) -> Request {
    if !book.schedules().is_empty() && random.chance(35) {
        if let Some(request) = in_another_zone(random, book) {
            return request;
        }
    }
    let setup = book.setup();
    let point = a_point(random, book);
    let hour = an_hour(random, book, point);
    let (mut side, mut quantity) = (random.pick(&[1, 2]), 1);
    if let Some(site) = setup.points.get(usize::from(point) - 1) {
        let net = book.net(site.account, hour).unwrap_or(0);
        if random.chance(85) {
            side = if net < 0 { 1 } else { 2 };
        }
        let direction = match side {
            1 => Direction::Injection,
            _ => Direction::Withdrawal,
        };
        let greatest = greatest(site, direction);
        let used = |same: &dyn Fn(u8) -> bool| -> u64 {
            let schedules = book.schedules().iter();
            schedules
                .filter(|s| s.hour == hour && s.direction == direction && same(s.point))
                .map(|s| u64::from(s.quantity))
                .sum()
        };
        let at_point = used(&|other| other == point);
        let on_account = used(&|other| setup.point(other).account == site.account);
        let point_left = u64::from(greatest).saturating_sub(at_point);
        let account_left = net.unsigned_abs().saturating_sub(on_account);
        let allowed = 1..=u64::from(GREATEST_QUANTITY);
        quantity = match random.within(0..=9) {
            0..=1 => random.beside(point_left, allowed),
            2..=3 => random.beside(account_left, allowed),
            4 => random.beside(point_left.min(account_left) / 2, allowed),
            5 => random.beside(u64::from(greatest).min(net.unsigned_abs()), allowed),
            6 if random.chance(30) => random.within(allowed),
            _ => random.within(1..=(point_left.min(account_left) / 3).max(1)),
        } as u32;
    }
    Request {
        kind: kind::SCHEDULE,
        side,
        first: hour,
        quantity,
        point,
        price: price(random),
        ..Request::default()
    }
}

/// A small schedule of the account, hour and direction of an earlier one, at a
/// point in another zone and at a price that is never missed; nothing where
/// the account has no such point or no energy for it.
fn in_another_zone(random: &mut Random, book: &Book) -> Option<Request> {
    let setup = book.setup();
    let earlier = random.pick(book.schedules());
    let site = setup.point(earlier.point);
    let net = book.net(site.account, earlier.hour).unwrap_or(0);
    let (energy, price) = match earlier.direction {
        Direction::Injection => (-net, 0),
        Direction::Withdrawal => (net, GREATEST_PRICE),
    };
    let points: Vec<(u8, i64)> = (1..)
        .zip(&setup.points)
        .filter(|(_, point)| point.account == site.account && point.zone != site.zone)
        .map(|(number, point)| {
            let greatest = greatest(point, earlier.direction);
            (number, energy.min(greatest.into()))
        })
        .filter(|&(_, most)| most > 0)
        .collect();
    if points.is_empty() {
        return None;
    }
    let (point, most) = random.pick(&points);
    Some(Request {
        kind: kind::SCHEDULE,
        side: earlier.direction as u8,
        first: earlier.hour,
        quantity: random.within(1..=most as u64 / 8 + 1) as u32,
        point,
        price,
        ..Request::default()
    })
}

/// The most that a point takes in a direction.
fn greatest(point: &Point, direction: Direction) -> u32 {
    match direction {
        Direction::Injection => point.greatest_injection,
        Direction::Withdrawal => point.greatest_withdrawal,
    }
}

/// A point, usually one with hours that its account can schedule.
fn a_point(random: &mut Random, book: &Book) -> u8 {
    let setup = book.setup();
    let point = random.one_of(setup.points.len());
    let mut candidate = point;
    for _ in 0..4 {
        if random.chance(10) || !busy_hours(book, candidate).is_empty() {
            return candidate;
        }
        candidate = random.one_of(setup.points.len());
    }
    point
}

/// The hours in which a point's account has a position that the point can take
/// some of.
fn busy_hours(book: &Book, point: u8) -> Vec<u8> {
    let setup = book.setup();
    let Some(site) = setup.points.get(usize::from(point) - 1) else {
        return Vec::new();
    };
    (1..=setup.hours())
        .filter(|&hour| match book.net(site.account, hour) {
            Ok(net) if net < 0 => site.greatest_injection > 0,
            Ok(net) if net > 0 => site.greatest_withdrawal > 0,
            _ => false,
        })
        .collect()
}

/// An hour, usually one that can be scheduled, and then usually the first such,
/// so that schedules compete.
fn an_hour(random: &mut Random, book: &Book, point: u8) -> u8 {
    let busy = busy_hours(book, point);
    match busy.first() {
        Some(&hour) if random.chance(60) => hour,
        Some(_) if random.chance(75) => random.pick(&busy),
        _ => random.one_of(book.setup().estimates.len()),
    }
}

fn price(random: &mut Random) -> u32 {
    if random.chance(85) {
        random.pick(&PRICES)
    } else {
        random.within(0..=u64::from(GREATEST_PRICE)) as u32
    }
}

/// A settlement; `careless` ones may have a damaged price table or buffers that
/// are too short.
pub(crate) fn settle(random: &mut Random, book: &Book, careless: bool) -> Step {
    let setup = book.setup();
    let count = setup.price_table_length() / 4;
    let hours = setup.estimates.len();
    // Often national prices are neither the lowest nor the highest, so that
    // zones lie on both sides of them.
    let amid = random.chance(50);
    let mut prices: Vec<u8> = (0..count)
        .flat_map(|at| {
            let price = if amid && at < hours {
                random.pick(&PRICES[1..PRICES.len() - 1])
            } else {
                price(random)
            };
            price.to_le_bytes()
        })
        .collect();
    let mut results = book.schedules().len();
    let mut balances = 8 * setup.operators.len();
    if random.chance(30) {
        results += random.within(1..=9) as usize;
    }
    if random.chance(30) {
        balances += random.within(1..=9) as usize;
    }
    if careless {
        match random.within(0..=5) {
            0 => {
                let length = prices.len() as u64;
                let short = random.pick(&[0, 1, 4, length]).min(length);
                prices.truncate((length - short) as usize);
            }
            1 => prices.extend([0; 4]),
            2 => {
                let at = 4 * random.within(0..=count as u64 - 1) as usize;
                prices[at..at + 4].copy_from_slice(&(GREATEST_PRICE + 1).to_le_bytes());
            }
            3 => results = book.schedules().len().saturating_sub(1),
            4 => balances = 8 * setup.operators.len() - random.pick(&[1, 8]),
            _ => (results, balances) = (0, 0),
        }
    }
    Step {
        prices,
        results,
        balances,
        ..Step::of(&Request {
            kind: kind::SETTLE,
            ..Request::default()
        })
    }
}
