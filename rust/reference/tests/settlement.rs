//! Set-ups, the gate, schedules, settlement and replay.

mod common;
use common::*;
use reference::*;

/// The refusal of a set-up with one byte replaced.
fn with_byte(setup: &Setup, offset: usize, byte: u8) -> Option<Verdict> {
    let mut bytes = setup.to_bytes();
    bytes[offset] = byte;
    Book::open(&bytes).err()
}

#[test]
fn set_up_refusals() {
    let setup = whole_case();
    let bytes = setup.to_bytes();
    assert_eq!(Book::open(&bytes[..4]).err(), Some(refused(8)));
    assert_eq!(Book::open(&bytes[..519]).err(), Some(refused(8)));
    for (offset, byte) in [(0, 22), (0, 26), (1, 0), (1, 17), (2, 33), (3, 65), (4, 9)] {
        assert_eq!(with_byte(&setup, offset, byte), Some(refused(8)));
    }
    // The highest byte of a value out of range gives the offset of its first.
    let faults = [
        (8, 1, 5),
        (108, 1, 101),
        (110, 4, 109),
        (121, 0, 121),
        (121, 3, 121),
        (122, 3, 122),
        (126, 1, 123),
        (218, 1, 215),
        (222, 1, 219),
        (314, 1, 311),
        (315, 0, 315),
        (412, 1, 409),
        (508, 1, 505),
        (509, 3, 509),
        (510, 4, 510),
        (511, 2, 511),
        (515, 1, 512),
        (519, 1, 516),
    ];
    for (offset, byte, fault) in faults {
        assert_eq!(with_byte(&setup, offset, byte), Some(with(9, fault, 0)));
    }
    // A kind mismatch lies at the point's kind, from either side.
    assert_eq!(with_byte(&setup, 509, 2), Some(with(9, 510, 0)));
    assert_eq!(with_byte(&setup, 510, 2), Some(with(9, 510, 0)));
    assert_eq!(with_byte(&setup, 516, 1), Some(with(9, 516, 0)));
    assert_eq!(with_byte(&setup, 510, 3), None);
    let mut setup = setup;
    setup.points[0] = point(2, PointKind::Withdrawal, 1, 1);
    let verdict = Book::open(&setup.to_bytes()).err();
    assert_eq!(verdict, Some(with(9, 512, 0)));
}

#[test]
fn closing_withdraws_what_is_pending() {
    let mut day = Day::open(&wide());
    day.trade(sell(10));
    assert_eq!(day.call(sell(7)), accepted(2));
    assert_eq!(day.book.exposure(1), Ok(85_000));
    assert_eq!(day.simple(kind::CLOSE_GATE), accepted(0));
    assert_eq!(day.book.exposure(1), Ok(50_000));
    assert_eq!(day.book.rows()[1].status, Status::Withdrawn);
    for kind in kind::OPEN_BATCH..=kind::CLOSE_GATE {
        assert_eq!(day.simple(kind), refused(11));
    }
}

/// Account 1 has sold 100 in hour 1, account 2 has bought them.
fn scheduling(points: Vec<Point>) -> Day {
    let mut setup = wide();
    setup.points = points;
    let mut day = Day::open(&setup);
    day.trade(sell(100));
    day.simple(kind::CLOSE_GATE);
    day
}

#[test]
fn priority_is_by_price_then_receipt() {
    let mut day = scheduling(vec![point(1, PointKind::Injection, 1_000, 0)]);
    day.call(schedule(1, 1, 60, 11));
    day.call(schedule(1, 1, 50, 10));
    day.call(schedule(1, 1, 50, 10));
    day.call(schedule(1, 1, 1, 10));
    day.settle(&hour_1(24, 0, 10));
    assert_eq!(day.results, [2, 0, 0, 2]);
    let mut day = scheduling(vec![point(2, PointKind::Withdrawal, 0, 1_000)]);
    day.call(schedule(2, 1, 60, 10));
    day.call(schedule(2, 1, 50, 11));
    day.call(schedule(2, 1, 40, 10));
    day.settle(&hour_1(24, 11, 400_000));
    assert_eq!(day.results, [2, 0, 3]);
}

#[test]
fn point_limit_comes_before_the_accounts() {
    let points = vec![
        point(1, PointKind::Mixed, 50, 50),
        point(1, PointKind::Injection, 200, 0),
    ];
    let mut day = scheduling(points);
    day.call(schedule(1, 1, 51, 1));
    day.call(schedule(1, 1, 50, 2));
    day.call(schedule(1, 2, 51, 3));
    day.call(schedule(1, 2, 50, 4));
    day.call(schedule(1, 2, 201, 5));
    // Other directions and hours have limits of their own.
    day.call(schedule(2, 1, 1, 1));
    day.call(schedule(2, 2, 1, 1));
    let later = Request {
        first: 2,
        ..schedule(1, 1, 1, 1)
    };
    day.call(later);
    day.settle(&hour_1(24, 0, 4));
    assert_eq!(day.results, [1, 0, 2, 0, 1, 2, 1, 2]);
}

#[test]
fn balances_of_each_kind_of_point() {
    // Withdrawal at a point of kind 2: the national price.
    let mut day = scheduling(vec![point(2, PointKind::Withdrawal, 0, 100)]);
    day.call(schedule(2, 1, 30, 70));
    day.settle(&hour_1(24, 70, 80));
    assert_eq!(day.results, [0]);
    assert_eq!(day.balances, [-7_000, 7_000 - 2_100]);
    // At a mixed point: the zone's.
    for (price, result, balance) in [(80, 0, 7_000 - 2_400), (79, 3, 7_000)] {
        let mut day = scheduling(vec![point(2, PointKind::Mixed, 0, 100)]);
        day.call(schedule(2, 1, 30, price));
        day.settle(&hour_1(24, 70, 80));
        assert_eq!(day.results, [result]);
        assert_eq!(day.balances, [-7_000, balance]);
    }
}

#[test]
fn zones_have_their_own_prices() {
    let mut setup = wide();
    setup.zones = 2;
    setup.points[0].zone = 2;
    let mut day = Day::open(&setup);
    let proposal = Request {
        first: 24,
        last: 24,
        ..sell(100)
    };
    day.trade(proposal);
    day.simple(kind::CLOSE_GATE);
    let injection = Request {
        first: 24,
        ..schedule(1, 1, 40, 3)
    };
    assert_eq!(day.call(injection), accepted(1));
    let prices: Vec<u8> = (1..=72u32).flat_map(u32::to_le_bytes).collect();
    assert_eq!(day.settle(&prices), accepted(0));
    assert_eq!(day.balances, [-2_400 + 40 * 72, 2_400]);
}

#[test]
fn settlement_refusals_in_order() {
    let mut day = Day::open(&whole_case());
    let good = hour_1(24, 6_000, 5_500);
    let mut dear = good.clone();
    dear[191] = 1;
    let settle = [1, 0, 10];
    let call = |day: &mut Day, prices: &[u8], results: usize, balances: usize| {
        let before = day.book.clone();
        let (mut results, mut balances) = (vec![7; results], vec![7; balances]);
        let verdict = day.book.call(&settle, prices, &mut results, &mut balances);
        if !verdict.is_accepted() {
            assert_eq!(day.book, before);
            assert!(results.iter().chain(&balances).all(|&byte| byte == 7));
        }
        (verdict, results, balances)
    };
    assert_eq!(call(&mut day, &good[..191], 0, 0).0, refused(5));
    assert_eq!(call(&mut day, &dear, 0, 0).0, with(6, 12, 0));
    assert_eq!(call(&mut day, &good, 0, 15).0, refused(10));
    assert_eq!(call(&mut day, &good, 0, 16).0, refused(11));
    day.simple(kind::CLOSE_GATE);
    day.call(schedule(1, 1, 1, 1));
    day.call(schedule(1, 1, 1, 1));
    assert_eq!(call(&mut day, &good, 1, 16).0, refused(10));
    let (verdict, results, balances) = call(&mut day, &good, 3, 17);
    assert_eq!(verdict, accepted(0));
    assert_eq!(results, [2, 2, 7]);
    assert_eq!(balances[..16], [0; 16]);
    assert_eq!(balances[16], 7);
    assert_eq!(call(&mut day, &good, 1, 16).0, refused(10));
    assert_eq!(call(&mut day, &good, 2, 16).0, refused(11));
    assert_eq!(day.call(schedule(1, 1, 1, 1)), refused(11));
}

#[test]
fn schedule_256_passes_and_257_does_not() {
    let mut day = scheduling(vec![point(1, PointKind::Injection, 1_000, 0)]);
    for place in 1..=256 {
        assert_eq!(day.call(schedule(1, 1, 1, 1)), accepted(place));
    }
    assert_eq!(day.call(schedule(1, 1, 1, 1)), refused(20));
    assert_eq!(day.settle(&hour_1(24, 0, 1)), accepted(0));
    assert!(day.results[..100].iter().all(|&result| result == 0));
    assert!(day.results[100..].iter().all(|&result| result == 2));
}

#[test]
fn replay_of_odd_streams() {
    let setup = whole_case().to_bytes();
    assert_eq!(replay(&[]), "");
    assert_eq!(replay(&[5]), "cut 0\n");
    assert_eq!(replay(&[1, 0]), "cut 0\n");
    assert_eq!(replay(&[0, 0, 3, 0, 1, 0, 5]), "0 8 0 0\n");
    assert_eq!(replay(&vec![0; LONGEST_STREAM]), "0 8 0 0\n");
    assert_eq!(replay(&vec![0; LONGEST_STREAM + 1]), "long\n");
    let mut day = stream(&[
        setup,
        vec![],
        vec![1, 0],
        vec![9, 9, 10, 1],
        vec![1, 0, 5, 0],
    ]);
    assert_eq!(
        replay(&day),
        "0 0 0 0\n1 2 0 0\n2 2 0 0\n3 4 0 3\n4 5 0 0\n"
    );
    day.extend([1, 0, 10, 0]);
    day.truncate(day.len() - 3);
    assert!(replay(&day).ends_with("4 5 0 0\ncut 5\n"));
}
