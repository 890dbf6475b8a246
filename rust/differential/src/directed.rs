//! Days made by hand: the paper's case and its edges, margins by hour, a full book, batches, greatest numbers, hourly amounts, strips,
//! asks, and every byte of a set-up and of a record put to values beside its own.

use crate::amounts;
use crate::asked;
use crate::damaged::{margins_beyond, records, setups};
use crate::made::*;
use crate::margins;
use crate::shaped;
use crate::Day;
use reference::days::Step;
use reference::*;

/// The days and their names.
pub fn days() -> Vec<(String, Day)> {
    let mut days = vec![
        (String::from("whole-case"), whole_case()),
        (String::from("edges"), edges()),
        (String::from("outage"), margins::outage()),
        (String::from("margins-apart"), margins::apart()),
        (String::from("margins-registered"), margins::registered()),
        (String::from("margins-confirmed"), margins::confirmed()),
        (String::from("full"), full()),
        (String::from("batches"), batches()),
        (String::from("greatest"), greatest()),
        (String::from("priority"), priority()),
        (String::from("phases"), phases()),
        (String::from("records"), records()),
    ];
    days.extend(amounts::days());
    days.extend(shaped::days());
    days.extend(asked::days());
    let setups = (0..).zip(setups().into_iter().chain(margins_beyond()));
    days.extend(setups.map(|(number, setup)| {
        let calls = Vec::new();
        (format!("setup-{number}"), Day { setup, calls })
    }));
    days
}

/// The paper's set-up, with another guarantee of operator 1 and lower margin of account 1.
pub(crate) fn paper_setup(guarantee: u64, lower: u32) -> Setup {
    let account =
        |operator, kind, lower, upper| Account { operator, kind, lower_margins: vec![lower; 24], upper_margins: vec![upper; 24] };
    Setup {
        zones: 1,
        estimates: vec![5_000; 24],
        operators: vec![Operator { guarantee, maintenance: 100 }, Operator { guarantee: 0, maintenance: 0 }],
        accounts: vec![account(1, Direction::Injection, lower, 0), account(2, Direction::Withdrawal, 0, 20_000)],
        points: vec![Point {
            account: 1,
            kind: PointKind::Injection,
            zone: 1,
            greatest_injection: 15_000,
            greatest_withdrawal: 0,
        }],
    }
}

/// The day of a set-up and calls.
pub(crate) fn day(setup: &Setup, calls: Vec<Step>) -> Day {
    Day { setup: setup.to_bytes(), calls }
}

fn whole_case() -> Day {
    let setup = paper_setup(100_000, 20_000);
    let sale = trade(1, 2, 1, (1, 1), 18_000, 0);
    let mut table = vec![0; 8 * 24];
    table[..4].copy_from_slice(&6_000u32.to_le_bytes());
    table[96..100].copy_from_slice(&5_500u32.to_le_bytes());
    let calls = vec![
        call(&sale),
        call(&mirror(&sale)),
        call(&simple(kind::CLOSE_GATE)),
        call(&schedule(1, 1, 1, 15_000, 3_000)),
        settle(table),
    ];
    day(&setup, calls)
}

/// Limits met and missed by one, a code used again, and calls without what they need.
fn edges() -> Day {
    let setup = paper_setup(100_000, 20_000);
    let sale = |quantity| trade(1, 2, 1, (1, 1), quantity, 0);
    let mut requests =
        vec![sale(18_001), sale(18_000), sale(1), withdrawal(1, 1), sale(18_000), simple(kind::UNDO), simple(kind::KEEP)];
    requests.extend([guarantee(1, 99_999), guarantee(1, 100_000), guarantee(1, GREATEST_GUARANTEE), withdrawal(1, 2)]);
    requests.extend([sale(20_001), sale(20_000), sale(0), trade(1, 2, 1, (24, 25), 1, 1), trade(1, 2, 1, (3, 2), 1, 1)]);
    requests.extend([trade(1, 1, 1, (1, 1), 1, 0), mirror(&sale(19_999)), mirror(&sale(20_000)), mirror(&sale(20_000))]);
    requests.extend([
        trade(1, 2, 2, (1, 24), 1, 5),
        trade(1, 2, 1, (2, 24), 1, 5),
        simple(kind::CLOSE_GATE),
        schedule(1, 1, 1, 15_000, 5_500),
    ]);
    requests.extend([schedule(1, 1, 1, 1, 0), schedule(2, 1, 1, 1, 400_000)]);
    let mut calls: Vec<Step> = requests.iter().map(call).collect();
    let table = prices(&setup, 6_000, 5_500);
    let settle_in = |length: usize, results, balances| lent(&simple(kind::SETTLE), table[..length].to_vec(), results, balances);
    calls.extend([
        settle_in(191, 3, 16),
        settle_in(192, 2, 16),
        settle_in(192, 3, 15),
        settle_in(192, 3, 16),
        settle_in(192, 3, 16),
    ]);
    day(&setup, calls)
}

/// More rows and schedules than there is place for.
fn full() -> Day {
    let setup = largest_setup();
    let rows = rows(256);
    let mut requests = rows.clone();
    requests.extend([rows[0], trade(1, 2, 1, (1, 1), 1, 999), withdrawal(1, 1), trade(1, 2, 1, (1, 1), 1, 999)]);
    requests.extend(rows.iter().skip(1).step_by(2).map(mirror));
    requests.push(simple(kind::CLOSE_GATE));
    requests.extend((0..257u32).map(|number| {
        let point = (number % 64) as u8 + 1;
        schedule((number / 64 % 2) as u8 + 1, point, 1 + (number % 25) as u8, 40, 400_000 - number)
    }));
    let mut calls: Vec<Step> = requests.iter().map(call).collect();
    calls.push(settle(prices(&setup, 300_000, 200_000)));
    day(&setup, calls)
}

/// A batch undone and one kept, each with all that a batch can change, and opened again while open.
fn batches() -> Day {
    let setup = largest_setup();
    let row = rows(8);
    let mut requests = vec![row[0], row[1], row[2], guarantee(1, 500_000_000_000)];
    for end in [kind::UNDO, kind::KEEP, kind::UNDO] {
        requests.extend([
            simple(kind::OPEN_BATCH),
            mirror(&row[0]),
            withdrawal(2, 2),
            guarantee(1, 400_000_000_000),
            row[3],
            mirror(&row[3]),
        ]);
        requests.extend([simple(kind::OPEN_BATCH), simple(kind::CLOSE_GATE), row[4], row[1], simple(end), simple(end)]);
    }
    requests.extend([row[5], mirror(&row[5]), simple(kind::CLOSE_GATE)]);
    day(&setup, requests.iter().map(call).collect())
}

/// The greatest quantities and prices, both ways.
fn greatest() -> Day {
    let setup = largest_setup();
    let mut calls = Vec::new();
    for account in (1..=31).step_by(2) {
        let sale = trade(account, account + 1, 1, (1, 25), GREATEST_QUANTITY, u64::MAX);
        let back = trade(account + 1, account, 1, (1, 25), GREATEST_QUANTITY, u64::MAX - 1);
        calls.extend([&sale, &mirror(&sale), &back, &mirror(&back), &back].map(call));
        calls.push(call(&sale));
        calls.push(call(&mirror(&sale)));
    }
    calls.push(call(&simple(kind::CLOSE_GATE)));
    for number in 0..64 {
        calls.extend([1, 2].map(|side| {
            call(&schedule(side, number + 1, number % 25 + 1, GREATEST_QUANTITY, (side == 2) as u32 * GREATEST_PRICE))
        }));
    }
    calls.push(settle(prices(&setup, GREATEST_PRICE, 0)));
    day(&setup, calls)
}

/// Prices equal and not, shares used up by what misses its price, and both limits.
fn priority() -> Day {
    let mut setup = largest_setup();
    setup.points[0].greatest_injection = 600;
    setup.points[32].greatest_injection = 700;
    setup.points[33].greatest_withdrawal = 500;
    let sale = trade(1, 2, 1, (1, 25), 1_000, 0);
    let mut requests = vec![sale, mirror(&sale), simple(kind::CLOSE_GATE)];
    for (side, points) in [(1, [1, 33]), (2, [2, 34])] {
        for (number, price) in (0u32..).zip([5_000, 5_000, 5_500, 5_501, 4_000, 6_000, 6_001, 0]) {
            requests.extend(points.map(|point| schedule(side, point, 1, 100 + 50 * number, price)));
            requests.push(schedule(side, points[0], 2, 1_000 - 400 * (number % 2), price));
        }
    }
    let mut calls: Vec<Step> = requests.iter().map(call).collect();
    calls.push(settle(prices(&setup, 6_000, 5_500)));
    day(&setup, calls)
}

/// Every kind in every phase, with and without a batch.
fn phases() -> Day {
    let setup = largest_setup();
    let sale = trade(1, 2, 1, (1, 2), 10, 7);
    let table = prices(&setup, 1, 2);
    let mut some = vec![
        mirror(&sale),
        sale,
        withdrawal(1, 1),
        guarantee(1, 7),
        simple(kind::UNDO),
        simple(kind::KEEP),
        schedule(1, 1, 1, 5, 5),
    ];
    let next = trade(3, 4, 1, (1, 2), 10, 8);
    some.extend([ask(&next), commit(&next)]);
    let all = || some.iter().map(call);
    let mut calls: Vec<Step> = all().chain([settle(table.clone()), call(&simple(kind::OPEN_BATCH))]).collect();
    calls.extend(all().chain([kind::CLOSE_GATE, kind::UNDO, kind::CLOSE_GATE, kind::CLOSE_GATE].map(|kind| call(&simple(kind)))));
    calls.extend(all().chain([settle(Vec::new()), settle(table.clone()), settle(table)]).chain(all()));
    day(&setup, calls)
}
