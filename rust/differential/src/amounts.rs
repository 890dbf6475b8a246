//! Days whose account hours come to the edges of purchase, sale and CCT.

use crate::directed::day;
use crate::made::*;
use crate::Day;
use reference::days::Step;
use reference::*;

/// The days and their names.
pub(crate) fn days() -> Vec<(String, Day)> {
    let mut days = vec![
        (String::from("amounts-balance-zero"), balance_zero()),
        (String::from("amounts-pun"), extreme_pun()),
        (String::from("amounts-two-zones"), two_zones()),
        (String::from("amounts-greatest"), greatest(GREATEST_PRICE, 0)),
        (String::from("amounts-greatest-zonal"), greatest(0, GREATEST_PRICE)),
    ];
    days.extend([23, 24, 25].map(|last| (format!("amounts-last-of-{last}"), last_hour(last))));
    days
}

/// Operator 1 has account 1, of injection, and account 3, of withdrawal; operator 2 has account 2, of withdrawal; operator 3 has none.
/// Each account has in each of three zones a point of its own kind and a mixed one. No limit is near.
fn setup(hours: usize) -> Setup {
    let account = |operator, kind| {
        let margins = vec![GREATEST_QUANTITY; hours];
        Account { operator, kind, lower_margins: margins.clone(), upper_margins: margins }
    };
    let point = |account: u8, kind, zone| Point {
        account,
        kind,
        zone,
        greatest_injection: if kind == PointKind::Withdrawal { 0 } else { GREATEST_QUANTITY },
        greatest_withdrawal: if kind == PointKind::Injection { 0 } else { GREATEST_QUANTITY },
    };
    let own = |account| if account == 1 { PointKind::Injection } else { PointKind::Withdrawal };
    let points_of = |account, zone| [point(account, own(account), zone), point(account, PointKind::Mixed, zone)];
    Setup {
        zones: 3,
        estimates: vec![1; hours],
        operators: vec![Operator { guarantee: GREATEST_GUARANTEE, maintenance: 0 }; 3],
        accounts: vec![account(1, Direction::Injection), account(2, Direction::Withdrawal), account(1, Direction::Withdrawal)],
        points: (1..=3).flat_map(|account| (1..=3).flat_map(move |zone| points_of(account, zone))).collect(),
    }
}

/// The number of an account's point of its own kind in a zone.
fn own(account: u8, zone: u8) -> u8 {
    6 * (account - 1) + 2 * (zone - 1) + 1
}

/// The number of an account's mixed point in a zone.
fn mixed(account: u8, zone: u8) -> u8 {
    own(account, zone) + 1
}

/// Account 1 sells to another.
fn sale(other: u8, hours: (u8, u8), quantity: u32, code: u64) -> Request {
    trade(1, other, 1, hours, quantity, code)
}

/// An injection, registered at any price.
fn inject(point: u8, hour: u8, quantity: u32) -> Request {
    schedule(1, point, hour, quantity, 0)
}

/// A withdrawal, registered at any price.
fn withdraw(point: u8, hour: u8, quantity: u32) -> Request {
    schedule(2, point, hour, quantity, GREATEST_PRICE)
}

/// A day of trades that are confirmed, of schedules, and of a settle at the price of each zone and hour, PUN as zone 0's.
fn settled(setup: &Setup, trades: &[Request], schedules: &[Request], price: impl Fn(u8, u8) -> u32) -> Day {
    let mut calls: Vec<Step> = trades.iter().flat_map(|trade| [call(trade), call(&mirror(trade))]).collect();
    calls.push(call(&simple(kind::CLOSE_GATE)));
    calls.extend(schedules.iter().map(call));
    calls.push(settle(price_table(setup, price)));
    day(setup, calls)
}

/// PUN, a zone below it, one above it and one equal to it.
fn around(zone: u8, _hour: u8) -> u32 {
    [6_000, 5_500, 6_700, 6_000][usize::from(zone)]
}

/// Physical balances of zero and a kWh beside: by one schedule, by several, and by none where the net position is zero; then others
/// that are not zero, since the schedule that would make them so is above what the account has, or misses its price.
fn balance_zero() -> Day {
    let back = trade(2, 1, 1, (7, 7), 15_000, 1);
    let mut schedules = vec![inject(own(1, 1), 1, 15_000), withdraw(own(2, 1), 1, 15_000)];
    schedules.extend([inject(own(1, 2), 2, 14_999), withdraw(own(2, 2), 2, 14_999)]);
    schedules.extend([inject(own(1, 1), 3, 10_000), inject(mixed(1, 2), 3, 5_000)]);
    schedules.extend([withdraw(mixed(2, 2), 3, 7_000), withdraw(own(2, 1), 3, 8_000)]);
    schedules.extend([inject(mixed(1, 3), 4, 15_000), withdraw(mixed(2, 1), 4, 14_999)]);
    schedules.extend([inject(own(1, 1), 5, 15_001), withdraw(mixed(2, 1), 5, 15_001)]);
    schedules.extend([schedule(1, own(1, 1), 6, 15_000, 5_501), schedule(2, mixed(2, 2), 6, 15_000, 6_699)]);
    schedules.extend([inject(own(1, 1), 7, 1), withdraw(mixed(2, 1), 7, 1)]);
    settled(&setup(24), &[sale(2, (1, 7), 15_000, 0), back], &schedules, around)
}

/// The least and the greatest PUN and those beside them, with zones at 0, at the greatest price and at PUN.
fn extreme_pun() -> Day {
    let puns = [0, GREATEST_PRICE, 1, GREATEST_PRICE - 1];
    let mut schedules = Vec::new();
    for hour in 1..=4 {
        schedules.extend([inject(own(1, 1), hour, 300), inject(mixed(1, 2), hour, 200), inject(own(1, 3), hour, 100)]);
        schedules.extend([withdraw(mixed(2, 1), hour, 30), withdraw(mixed(2, 2), hour, 20), withdraw(own(2, 2), hour, 10)]);
    }
    settled(&setup(24), &[sale(2, (1, 24), 1_000, 0)], &schedules, |zone, hour| {
        let pun = puns[usize::from(hour - 1) % 4];
        [pun, 0, GREATEST_PRICE, pun][usize::from(zone)]
    })
}

/// A net purchase with withdrawals on mixed points of two zones, and a net sale with injections in two zones, on both sides of PUN:
/// in hours apart, in the same hour, by two accounts of one operator, and each by an account of the other kind.
fn two_zones() -> Day {
    let back = trade(2, 1, 1, (8, 8), 1_000, 2);
    let mut schedules = vec![withdraw(mixed(2, 1), 5, 300), withdraw(mixed(2, 2), 5, 200)];
    schedules.extend([inject(own(1, 1), 6, 300), inject(own(1, 2), 6, 200)]);
    schedules.extend([inject(mixed(1, 1), 7, 150), inject(own(1, 2), 7, 450), inject(mixed(1, 2), 7, 1)]);
    schedules.extend([withdraw(mixed(2, 2), 7, 300), withdraw(own(2, 1), 7, 200), withdraw(mixed(2, 1), 7, 100)]);
    schedules.extend([withdraw(mixed(3, 1), 7, 20), withdraw(mixed(3, 2), 7, 30), withdraw(own(3, 3), 7, 4)]);
    schedules.extend([inject(mixed(2, 1), 8, 400), inject(mixed(2, 2), 8, 500)]);
    schedules.extend([withdraw(mixed(1, 1), 8, 40), withdraw(mixed(1, 2), 8, 60)]);
    let trades = [sale(2, (5, 7), 1_000, 0), sale(3, (7, 7), 100, 1), back];
    settled(&setup(24), &trades, &schedules, around)
}

/// The greatest net positions in all hours; those of five pairs of accounts are scheduled whole, those of three not at all.
fn greatest(pun: u32, zonal: u32) -> Day {
    let sellers = [1, 3, 5, 7, 9, 11, 13, 15];
    let trades = sellers.map(|seller| trade(seller, seller + 1, 1, (1, 25), GREATEST_QUANTITY, 0));
    let mut schedules = Vec::new();
    for seller in &sellers[..5] {
        for hour in 1..=25 {
            // The point of injection of the seller, and the mixed one of the buyer.
            schedules.extend([inject(*seller, hour, GREATEST_QUANTITY), withdraw(seller + 33, hour, GREATEST_QUANTITY)]);
        }
    }
    settled(&largest_setup(), &trades, &schedules, |zone, _| if zone == 0 { pun } else { zonal })
}

/// Trades and schedules in the last hour of a day, the one before it and the first; no two prices are equal.
fn last_hour(last: u8) -> Day {
    let trades = [sale(2, (1, last), 100, 0), sale(3, (last, last), 50, 1)];
    let mut schedules = vec![inject(own(1, 1), last - 1, 60), inject(own(1, 3), last, 80), inject(mixed(1, 2), last, 7)];
    schedules.extend([withdraw(mixed(2, 3), last, 30), withdraw(own(2, 1), last, 3), withdraw(mixed(3, 1), last, 20)]);
    schedules.push(withdraw(mixed(2, 2), 1, 10));
    settled(&setup(last.into()), &trades, &schedules, |zone, hour| {
        let pun = 15_000 * u32::from(hour);
        [pun, pun - 7, pun + 30, pun + 500][usize::from(zone)]
    })
}
