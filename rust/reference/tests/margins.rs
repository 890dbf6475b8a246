//! Margins by hour: each hour of a trade meets its own pair.

mod common;
use common::*;
use reference::*;

/// Account 1 sells to account 2 over some hours.
fn sell_over(first: u8, last: u8, quantity: u32) -> Request {
    Request {
        first,
        last,
        ..sell(quantity)
    }
}

/// Account 1 buys from account 2 over some hours.
fn buy_over(first: u8, last: u8, quantity: u32) -> Request {
    Request {
        first,
        last,
        ..buy(quantity)
    }
}

/// Wide, but for the lower margin of account 1: 20,000, and 0 in hours 5 to 8.
fn outage() -> Setup {
    let mut setup = wide();
    setup.accounts[0].lower_margins.fill(20_000);
    setup.accounts[0].lower_margins[4..8].fill(0);
    setup
}

/// The answer of a fresh day.
fn answer(setup: &Setup, request: Request) -> Verdict {
    Day::open(setup).call(request)
}

#[test]
fn an_outage_stops_sales_in_its_hours_alone() {
    let setup = outage();
    assert_eq!(answer(&setup, sell_over(1, 24, 1)), with(18, 5, 0));
    assert_eq!(answer(&setup, sell_over(1, 24, 20_000)), with(18, 5, 0));
    assert_eq!(answer(&setup, sell_over(6, 24, 1)), with(18, 6, 0));
    assert_eq!(answer(&setup, sell_over(8, 9, 1)), with(18, 8, 0));
    assert_eq!(answer(&setup, sell_over(1, 4, 20_000)), accepted(1));
    assert_eq!(answer(&setup, sell_over(9, 24, 20_000)), accepted(1));
    // The first hour that breaks its own margin, not the one that breaks it
    // by most.
    assert_eq!(answer(&setup, sell_over(1, 24, 20_001)), with(18, 1, 0));
    assert_eq!(answer(&setup, sell_over(9, 24, 20_001)), with(18, 9, 0));
    // Purchases meet the upper margins.
    assert_eq!(answer(&setup, buy_over(1, 24, 20_001)), accepted(1));
}

#[test]
fn what_was_bought_can_be_sold_in_an_outage() {
    let mut day = Day::open(&outage());
    day.trade(buy_over(5, 7, 300));
    assert_eq!(day.call(sell_over(5, 8, 300)), with(18, 8, 0));
    assert_eq!(day.call(sell_over(5, 7, 301)), with(18, 5, 0));
    assert_eq!(day.call(sell_over(5, 7, 300)), accepted(2));
}

#[test]
fn one_hour_short_is_named() {
    for short in [1, 12, 24] {
        let mut setup = wide();
        setup.accounts[0].upper_margins.fill(500);
        setup.accounts[0].upper_margins[usize::from(short) - 1] = 499;
        let hour = u16::from(short);
        assert_eq!(answer(&setup, buy_over(1, short, 500)), with(18, hour, 0));
        assert_eq!(answer(&setup, buy_over(short, 24, 500)), with(18, hour, 0));
        assert_eq!(answer(&setup, buy_over(1, 24, 499)), accepted(1));
        if short > 1 {
            assert_eq!(answer(&setup, buy_over(1, short - 1, 500)), accepted(1));
        }
        if short < 24 {
            assert_eq!(answer(&setup, buy_over(short + 1, 24, 500)), accepted(1));
        }
    }
}

#[test]
fn a_confirmation_meets_the_margins_of_its_caller_by_hour() {
    // Account 1 can sell at most 100 in hour 3, account 2 buy 90 in hour 7.
    let mut setup = wide();
    setup.accounts[0].lower_margins[2] = 100;
    setup.accounts[1].upper_margins[6] = 90;
    let mut day = Day::open(&setup);
    assert_eq!(day.call(sell_over(1, 24, 101)), with(18, 3, 0));
    assert_eq!(day.call(sell_over(1, 24, 100)), accepted(1));
    let refused = day.call(mirror(sell_over(1, 24, 100)));
    assert_eq!(refused, with(18, 7, 0));
    assert_eq!(day.call(withdraw(1, 1)), accepted(0));
    assert_eq!(day.call(sell_over(1, 7, 91)), accepted(2));
    let refused = day.call(mirror(sell_over(1, 7, 91)));
    assert_eq!(refused, with(18, 7, 0));
    assert_eq!(day.call(withdraw(1, 2)), accepted(0));
    day.trade(sell_over(1, 24, 90));
    // 10 more are left to account 1 in hour 3, none to account 2 in hour 7.
    assert_eq!(day.call(sell_over(1, 6, 11)), with(18, 3, 0));
    day.trade(sell_over(1, 6, 10));
    assert_eq!(day.call(sell_over(7, 7, 1)), accepted(5));
    assert_eq!(day.call(mirror(sell_over(7, 7, 1))), with(18, 7, 0));
}

#[test]
fn a_confirmed_sale_meets_the_lower_margins_by_hour() {
    // Account 2 proposes to buy; account 1 confirms, and sells.
    let mut setup = wide();
    setup.accounts[0].lower_margins[23] = 40;
    setup.accounts[1].upper_margins[0] = 50;
    let purchase = |first, quantity| Request {
        account: 2,
        other: 1,
        ..buy_over(first, 24, quantity)
    };
    let mut day = Day::open(&setup);
    assert_eq!(day.call(purchase(1, 51)), with(18, 1, 0));
    assert_eq!(day.call(purchase(1, 41)), accepted(1));
    assert_eq!(day.call(mirror(purchase(1, 41))), with(18, 24, 0));
    assert_eq!(day.call(withdraw(2, 1)), accepted(0));
    day.trade(purchase(1, 40));
    assert_eq!(day.book.net(1, 24), Ok(-40));
}

/// Each margin of the set-up another.
fn all_different() -> Setup {
    let mut setup = wide();
    let mut next = 1_000;
    for account in &mut setup.accounts {
        for margin in account
            .lower_margins
            .iter_mut()
            .chain(&mut account.upper_margins)
        {
            *margin = next;
            next += 1;
        }
    }
    setup
}

#[test]
fn a_trade_of_one_hour_meets_the_pair_of_that_hour() {
    let setup = all_different();
    for hour in 1..=24 {
        let at = usize::from(hour) - 1;
        let (lower, upper) = (
            setup.accounts[0].lower_margins[at],
            setup.accounts[0].upper_margins[at],
        );
        let broken = with(18, hour.into(), 0);
        assert_eq!(answer(&setup, sell_over(hour, hour, lower)), accepted(1));
        assert_eq!(answer(&setup, sell_over(hour, hour, lower + 1)), broken);
        assert_eq!(answer(&setup, buy_over(hour, hour, upper)), accepted(1));
        assert_eq!(answer(&setup, buy_over(hour, hour, upper + 1)), broken);
        // As if every hour had that pair.
        let mut same = setup.clone();
        same.accounts[0].lower_margins.fill(lower);
        same.accounts[0].upper_margins.fill(upper);
        for quantity in [lower, lower + 1] {
            let request = sell_over(hour, hour, quantity);
            assert_eq!(answer(&setup, request), answer(&same, request));
        }
    }
}

/// The refusal of a set-up.
fn fault(setup: &Setup) -> Option<Verdict> {
    Book::open(&setup.to_bytes()).err()
}

#[test]
fn a_margin_at_fault_is_named_by_its_own_offset() {
    let setup = all_different();
    for (account, entry) in [(0, 121), (1, 315)] {
        for hour in 0..24 {
            let offset = 4 * hour as u16;
            let mut lower = setup.clone();
            lower.accounts[account].lower_margins[hour] = 10_000_001;
            assert_eq!(fault(&lower), Some(with(9, entry + 2 + offset, 0)));
            let mut upper = setup.clone();
            upper.accounts[account].upper_margins[hour] = 10_000_001;
            assert_eq!(fault(&upper), Some(with(9, entry + 98 + offset, 0)));
        }
    }
    // All lower margins come before the upper ones, those of account 1 before
    // account 2.
    let mut setup = setup;
    setup.accounts[1].operator = 3;
    setup.accounts[0].upper_margins[0] = 10_000_001;
    setup.accounts[0].lower_margins[23] = 10_000_001;
    assert_eq!(fault(&setup), Some(with(9, 123 + 4 * 23, 0)));
    setup.accounts[0].lower_margins[23] = 10_000_000;
    assert_eq!(fault(&setup), Some(with(9, 219, 0)));
    setup.accounts[0].upper_margins[0] = 10_000_000;
    assert_eq!(fault(&setup), Some(with(9, 315, 0)));
}

/// The largest set-up.
fn largest() -> Setup {
    let mut setup = whole_case_of(25);
    setup.zones = 8;
    setup.operators = vec![operator(GREATEST_GUARANTEE, 0); 16];
    setup.accounts = vec![setup.accounts[0].clone(); 32];
    setup.points = vec![setup.points[0].clone(); 64];
    setup
}

#[test]
fn the_largest_set_up() {
    let bytes = largest().to_bytes();
    assert_eq!(bytes.len(), 7_433);
    assert_eq!(Setup::read(&bytes), Ok(largest()));
    // Its very last upper margin, just before the points.
    let mut setup = largest();
    setup.accounts[31].upper_margins[24] = 10_000_000;
    assert_eq!(fault(&setup), None);
    setup.accounts[31].upper_margins[24] = 10_000_001;
    assert_eq!(fault(&setup), Some(with(9, 7_433 - 64 * 11 - 4, 0)));
    for length in [7_432, 7_434] {
        let mut bytes = bytes.clone();
        bytes.resize(length, 0);
        assert_eq!(Book::open(&bytes).err(), Some(refused(8)));
    }
}

#[test]
fn one_pair_for_the_whole_day_has_the_wrong_length() {
    for setup in [whole_case_of(23), whole_case(), largest()] {
        let mut pairs = setup.clone();
        for account in &mut pairs.accounts {
            account.lower_margins.truncate(1);
            account.upper_margins.truncate(1);
        }
        assert_eq!(fault(&setup), None);
        assert_eq!(fault(&pairs), Some(refused(8)));
    }
    // The hours of the day are the hours of the margins.
    for hours in [23, 25] {
        let mut bytes = whole_case().to_bytes();
        bytes[0] = hours;
        assert_eq!(Book::open(&bytes).err(), Some(refused(8)));
    }
}

#[test]
fn hours_without_trades_need_no_margin() {
    // The whole case with margins in hour 1 alone.
    let mut setup = whole_case();
    for account in &mut setup.accounts {
        account.lower_margins[1..].fill(0);
        account.upper_margins[1..].fill(0);
    }
    let mut day = Day::open(&setup);
    day.trade(sell(18_000));
    assert_eq!(day.simple(kind::CLOSE_GATE), accepted(0));
    assert_eq!(day.call(schedule(1, 1, 15_000, 3_000)), accepted(1));
    assert_eq!(day.settle(&hour_1(24, 6_000, 5_500)), accepted(0));
    assert_eq!(day.results, [0]);
    assert_eq!(day.balances, [-25_500_000, 108_000_000]);
}
