//! The paper's own cases: the whole case, the edges and the traps.

mod common;
use common::*;
use reference::*;

#[test]
fn whole_case_replays() {
    let mut settle = record(&simple(kind::SETTLE));
    settle.extend(hour_1(24, 6_000, 5_500));
    let items = [
        whole_case().to_bytes(),
        record(&sell(18_000)),
        record(&mirror(sell(18_000))),
        record(&simple(kind::CLOSE_GATE)),
        record(&schedule(1, 1, 15_000, 3_000)),
        settle,
    ];
    let expected = "0 0 0 0\n1 0 1 0\n2 0 1 0\n3 0 0 0\n4 0 1 0\n5 0 0 0\n\
        s 1 0\no 1 -25500000\no 2 108000000\nt 82500000\n";
    assert_eq!(replay(&stream(&items)), expected);
}

#[test]
fn whole_case_set_up_bytes() {
    let bytes = whole_case().to_bytes();
    assert_eq!(bytes.len(), 5 + 4 * 24 + 10 * 2 + (2 + 8 * 24) * 2 + 11);
    assert_eq!(&bytes[..9], &[24, 2, 2, 1, 1, 0x88, 0x13, 0, 0]);
    assert_eq!(&bytes[101..111], &[0xA0, 0x86, 1, 0, 0, 0, 0, 0, 100, 0]);
    let (twenty_thousand, zero) = ([0x20, 0x4E, 0, 0].repeat(24), [0; 96]);
    assert_eq!(&bytes[121..123], &[1, 1]);
    assert_eq!(&bytes[123..219], &twenty_thousand);
    assert_eq!(&bytes[219..315], &zero);
    assert_eq!(&bytes[315..317], &[2, 2]);
    assert_eq!(&bytes[317..413], &zero);
    assert_eq!(&bytes[413..509], &twenty_thousand);
    assert_eq!(&bytes[509..], &[1, 1, 1, 0x98, 0x3A, 0, 0, 0, 0, 0, 0]);
    assert_eq!(Setup::read(&bytes), Ok(whole_case()));
}

#[test]
fn exposure_may_equal_the_available_guarantee() {
    let mut day = Day::open(&whole_case());
    assert_eq!(day.call(sell(18_001)), refused(19));
    assert_eq!(day.call(sell(18_000)), accepted(1));
    assert_eq!(day.book.exposure(1), Ok(90_000_000));
    assert_eq!(day.book.available(1), Ok(90_000_000));
}

#[test]
fn margin_binds_with_ample_guarantee() {
    assert_eq!(Day::open(&ample()).call(sell(20_000)), accepted(1));
    assert_eq!(Day::open(&ample()).call(sell(20_001)), with(18, 1, 0));
}

#[test]
fn last_hour_beyond_the_day() {
    let request = Request {
        last: 24,
        ..sell(1)
    };
    let mut day = Day::open(&whole_case_of(23));
    assert_eq!(day.call(request), with(6, 6, 0));
}

#[test]
fn quantity_zero() {
    assert_eq!(Day::open(&whole_case()).call(sell(0)), with(6, 7, 0));
}

#[test]
fn undo_unopened() {
    let mut day = Day::open(&whole_case());
    assert_eq!(day.simple(kind::UNDO), refused(13));
    assert_eq!(day.simple(kind::KEEP), refused(13));
}

#[test]
fn code_is_reused_after_withdrawal() {
    let mut day = Day::open(&whole_case());
    assert_eq!(day.call(sell(1_000)), accepted(1));
    assert_eq!(day.call(sell(1_000)), refused(14));
    assert_eq!(day.call(withdraw(1, 1)), accepted(0));
    assert_eq!(day.call(sell(1_000)), accepted(2));
}

#[test]
fn row_256_passes_and_257_does_not() {
    let mut day = Day::open(&ample());
    for number in 1..=256 {
        let request = Request {
            code: u64::from(number),
            ..sell(1)
        };
        assert_eq!(day.call(request), accepted(number));
        if number % 2 == 0 {
            assert_eq!(day.call(withdraw(1, number)), accepted(0));
        }
    }
    assert_eq!(day.call(sell(1)), refused(15));
    let alike = Request { code: 1, ..sell(1) };
    assert_eq!(day.call(alike), refused(14));
}

/// Settles a sale of 15,000 in hour 1, scheduled at 3,000.
fn settle_injection(zonal: u32) -> Day {
    let mut day = Day::open(&whole_case());
    day.trade(sell(15_000));
    assert_eq!(day.simple(kind::CLOSE_GATE), accepted(0));
    assert_eq!(day.call(schedule(1, 1, 15_000, 3_000)), accepted(1));
    assert_eq!(day.settle(&hour_1(24, 6_000, zonal)), accepted(0));
    day
}

#[test]
fn zone_price_equal_to_the_injection_price_registers() {
    let day = settle_injection(3_000);
    assert_eq!(day.results, [0]);
    assert_eq!(day.balances, [-45_000_000, 90_000_000]);
}

#[test]
fn zone_price_below_the_injection_price_does_not() {
    let day = settle_injection(2_999);
    assert_eq!(day.results, [3]);
    assert_eq!(day.balances, [-90_000_000, 90_000_000]);
}

#[test]
fn trap_pending_sales_count_in_low() {
    let mut day = Day::open(&ample());
    assert_eq!(day.call(sell(15_000)), accepted(1));
    let second = |quantity| Request {
        code: 1,
        ..sell(quantity)
    };
    assert_eq!(day.call(second(5_001)), with(18, 1, 0));
    assert_eq!(day.call(second(5_000)), accepted(2));
}

#[test]
fn trap_undo_restores_guarantees() {
    let mut day = Day::open(&whole_case());
    assert_eq!(day.simple(kind::OPEN_BATCH), accepted(0));
    assert_eq!(day.call(guarantee(1, 200_000)), accepted(0));
    assert_eq!(day.call(sell(18_001)), accepted(1));
    assert_eq!(day.call(withdraw(1, 1)), accepted(0));
    assert_eq!(day.simple(kind::UNDO), accepted(1));
    assert_eq!(day.book, Day::open(&whole_case()).book);
    assert_eq!(day.call(sell(18_001)), refused(19));
    assert_eq!(day.call(sell(18_000)), accepted(1));
}

#[test]
fn trap_refused_open_does_not_reopen_the_batch() {
    let mut day = Day::open(&ample());
    assert_eq!(day.simple(kind::OPEN_BATCH), accepted(0));
    assert_eq!(day.call(sell(10)), accepted(1));
    assert_eq!(day.simple(kind::OPEN_BATCH), refused(12));
    assert_eq!(day.simple(kind::CLOSE_GATE), refused(12));
    assert_eq!(day.simple(kind::UNDO), accepted(1));
    assert!(day.book.rows().is_empty());
}

#[test]
fn trap_result_3_keeps_its_share() {
    let mut day = Day::open(&ample());
    day.trade(sell(18_000));
    day.simple(kind::CLOSE_GATE);
    // The first in priority misses the price, yet fills the point to 5,000.
    day.call(schedule(1, 1, 5_001, 4_001));
    day.call(schedule(1, 1, 10_000, 4_000));
    day.call(schedule(1, 1, 5_000, 4_001));
    assert_eq!(day.settle(&hour_1(24, 6_000, 3_999)), accepted(0));
    assert_eq!(day.results, [1, 3, 3]);
}
