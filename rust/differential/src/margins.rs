//! Days whose margins differ by hour; they are met exactly and passed by one.

use crate::directed::{day, paper_setup};
use crate::made::*;
use crate::Day;
use reference::days::Step;
use reference::*;

/// The other party where every margin of all the others is tried; its own margins are the greatest.
const PARTNER: u8 = 2;

/// Account 1 cannot sell in hours 5 to 8, and account 2 can buy a kWh less in hour 24.
pub(crate) fn outage() -> Day {
    let mut setup = paper_setup(GREATEST_GUARANTEE, 20_000);
    setup.operators[1].guarantee = GREATEST_GUARANTEE;
    setup.accounts[0].lower_margins[4..8].fill(0);
    setup.accounts[1].upper_margins[23] = 19_999;
    let sale = |first, last, quantity, code| trade(1, 2, 1, (first, last), quantity, code);
    let mut requests = vec![sale(1, 24, 1, 0), sale(1, 24, 20_001, 0), sale(8, 24, 20_000, 0), sale(9, 24, 20_001, 0)];
    // Passes; its confirm breaks the upper margin of hour 24, until the quantity is a kWh less.
    requests.extend([sale(9, 24, 20_000, 1), mirror(&sale(9, 24, 20_000, 1)), withdrawal(1, 1)]);
    requests.extend([sale(9, 24, 19_999, 2), mirror(&sale(9, 24, 19_999, 2)), sale(9, 24, 1, 3), mirror(&sale(9, 24, 1, 3))]);
    requests.extend([sale(9, 24, 1, 4), sale(1, 4, 20_001, 5), sale(1, 4, 20_000, 5), mirror(&sale(1, 4, 20_000, 5))]);
    // What account 2 proposes to buy weighs on its upper margins.
    let purchase = |first, last, quantity, code| trade(2, 1, 2, (first, last), quantity, code);
    requests.extend([purchase(5, 24, 1, 6), purchase(5, 8, 20_001, 6), purchase(5, 8, 20_000, 6)]);
    requests.extend([mirror(&purchase(5, 8, 20_000, 6)), simple(kind::CLOSE_GATE), schedule(1, 1, 9, 15_000, 0)]);
    let mut calls: Vec<Step> = requests.iter().map(call).collect();
    calls.push(settle(prices(&setup, 6_000, 5_500)));
    day(&setup, calls)
}

/// The parties of a trade over all hours reach their margins in different hours, in either order, and by either side.
pub(crate) fn apart() -> Day {
    let mut setup = largest_setup();
    setup.estimates.fill(1);
    // Pairs of accounts: what the first can sell and the second buy, each in one hour; in the others, more.
    let pairs = [(1, (100, 3), (90, 7)), (3, (90, 7), (100, 3)), (5, (100, 1), (100, 25)), (7, (100, 25), (100, 24))];
    for (seller, (lower, low_hour), (upper, high_hour)) in pairs {
        *margin(&mut setup, Margin::Lower, seller, low_hour) = lower;
        *margin(&mut setup, Margin::Upper, seller + 1, high_hour) = upper;
    }
    let mut requests = Vec::new();
    for (seller, _, _) in pairs {
        for quantity in [89, 90, 91, 99, 100, 101] {
            let sale = trade(seller, seller + 1, 1, (1, 25), quantity, quantity.into());
            let purchase = trade(seller + 1, seller, 2, (1, 25), quantity, quantity.into());
            for proposal in [sale, purchase] {
                requests.extend([simple(kind::OPEN_BATCH), proposal, mirror(&proposal), simple(kind::UNDO)]);
            }
        }
        // Where 90 are sold, 10 and 11 more: up to the hours before those with the least margins, and over them.
        let sale = |last, quantity, code| trade(seller, seller + 1, 1, (1, last), quantity, code);
        requests.extend([sale(25, 90, 0), mirror(&sale(25, 90, 0))]);
        for last in [2, 3, 6, 7, 24, 25] {
            for quantity in [10, 11] {
                let more = sale(last, quantity, 1);
                requests.extend([simple(kind::OPEN_BATCH), more, mirror(&more), simple(kind::UNDO)]);
            }
        }
    }
    day(&setup, requests.iter().map(call).collect())
}

/// The largest set-up with margins that fall by one from each to the next, but for those of the partner.
fn falling() -> Setup {
    let mut setup = largest_setup();
    setup.estimates.fill(1);
    let mut next = 2_000_000;
    for (which, account, hour) in all_margins() {
        *margin(&mut setup, which, account, hour) = next;
        next -= 1;
    }
    setup
}

/// Each margin of all accounts but the partner.
fn all_margins() -> Vec<(Margin, u8, u8)> {
    let mut margins = Vec::new();
    for account in (1..=32).filter(|&account| account != PARTNER) {
        for which in [Margin::Lower, Margin::Upper] {
            margins.extend((1..=25).map(|hour| (which, account, hour)));
        }
    }
    margins
}

/// Every margin passed and met by registers.
pub(crate) fn registered() -> Day {
    every_margin(|account, side, hours, quantity, code| vec![trade(account, PARTNER, side, hours, quantity, code)])
}

/// Every margin passed and met by confirms of what the partner has proposed.
pub(crate) fn confirmed() -> Day {
    every_margin(|account, side, hours, quantity, code| {
        let proposal = trade(PARTNER, account, 3 - side, hours, quantity, code);
        vec![proposal, mirror(&proposal)]
    })
}

/// A day on which an account's side of a trade passes every margin by one in the last of its hours alone, meets it, and passes it
/// again by one more kWh in that hour; then all is undone. `requests` are those of an account, side, hours, quantity and code.
fn every_margin(requests: impl Fn(u8, u8, (u8, u8), u32, u64) -> Vec<Request>) -> Day {
    let mut setup = falling();
    let mut calls = Vec::new();
    for (which, account, hour) in all_margins() {
        let most = *margin(&mut setup, which, account, hour);
        let side = if which == Margin::Lower { 1 } else { 2 };
        calls.push(call(&simple(kind::OPEN_BATCH)));
        for (code, (hours, quantity)) in (0..).zip([((1, hour), most + 1), ((1, hour), most), ((hour, hour), 1)]) {
            calls.extend(requests(account, side, hours, quantity, code).iter().map(call));
        }
        calls.push(call(&simple(kind::UNDO)));
    }
    day(&setup, calls)
}
