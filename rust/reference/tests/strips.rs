//! Strips: what they do, and what the state refuses.

mod common;
use common::*;
use reference::*;

/// Account 1 sells to account 2 in one hour, with a code.
fn sale(hour: u8, quantity: u32, code: u64) -> Request {
    Request {
        first: hour,
        last: hour,
        code,
        ..sell(quantity)
    }
}

/// Account 1 buys from account 2 in one hour, with a code.
fn purchase(hour: u8, quantity: u32, code: u64) -> Request {
    Request {
        side: 2,
        ..sale(hour, quantity, code)
    }
}

/// So many sales of a kWh, hour by hour, with codes from a first one on.
fn sales(count: u8, code: u64) -> Vec<Request> {
    let one = |number: u8| sale(number % 24 + 1, 1, code + u64::from(number));
    (0..count).map(one).collect()
}

#[test]
fn a_strip_is_its_registers_in_turn() {
    for count in [1, 2, 23, 24] {
        let mut day = Day::open(&wide());
        assert_eq!(day.call(sell(5)), accepted(1));
        let mut in_turn = Day {
            book: day.book.clone(),
            results: Vec::new(),
            balances: Vec::new(),
        };
        let rows = sales(count, 1);
        assert_eq!(day.strip(&rows), accepted(2));
        for (row, number) in rows.iter().zip(2..) {
            assert_eq!(in_turn.call(*row), accepted(number));
        }
        assert_eq!(day.book, in_turn.book);
        assert!(day.book.stands());
        // The next row has the next number.
        let next = u16::from(count) + 2;
        assert_eq!(day.call(sale(1, 1, 100)), accepted(next));
    }
}

#[test]
fn the_record_of_a_strip() {
    let rows = [sale(1, 2, 3), sale(4, 5, 6)];
    let bytes = strip_record(&rows);
    assert_eq!(bytes[..4], [1, 0, 11, 2]);
    assert_eq!(bytes[4..24], record(&rows[0]));
    assert_eq!(bytes[24..], record(&rows[1]));
    assert_eq!(strip_record(&sales(24, 0)).len(), 484);
    // Reader and writer take single records only.
    assert_eq!(read(&bytes), Err(refused(3)));
    assert_eq!(read(&[1, 0, 11]), Err(refused(3)));
    assert_eq!(write(&simple(kind::STRIP), &mut [0; 484]), refused(3));
    assert_eq!(layout(kind::STRIP), None);
}

#[test]
fn rows_of_a_strip_are_confirmed_and_withdrawn() {
    let mut day = Day::open(&wide());
    let rows = sales(24, 0);
    assert_eq!(day.strip(&rows), accepted(1));
    assert_eq!(day.book.exposure(1), Ok(24 * 5_000));
    assert_eq!(day.call(mirror(rows[7])), accepted(8));
    assert_eq!(day.call(withdraw(1, 24)), accepted(0));
    assert_eq!(day.book.net(1, 8), Ok(-1));
    assert_eq!(day.book.exposure(1), Ok(23 * 5_000));
    // The codes of both are free again.
    assert_eq!(day.strip(&[rows[7], rows[23]]), accepted(25));
    assert_eq!(day.strip(&[sale(1, 1, 50), rows[0]]), refused(14));
}

#[test]
fn a_strip_in_a_batch() {
    let mut day = Day::open(&wide());
    assert_eq!(day.strip(&sales(3, 0)), accepted(1));
    let before = day.book.clone();
    assert_eq!(day.simple(kind::OPEN_BATCH), accepted(0));
    assert_eq!(day.strip(&sales(24, 10)), accepted(4));
    assert_eq!(day.call(sale(1, 1, 99)), accepted(28));
    assert_eq!(day.strip(&sales(24, 10)), refused(14));
    assert_eq!(day.call(mirror(sales(24, 10)[3])), accepted(7));
    assert!(day.book.stands());
    assert_eq!(day.simple(kind::UNDO), accepted(25));
    assert_eq!(day.book, before);
    assert_eq!(day.simple(kind::OPEN_BATCH), accepted(0));
    assert_eq!(day.strip(&sales(2, 10)), accepted(4));
    assert_eq!(day.simple(kind::KEEP), accepted(0));
    assert_eq!(day.strip(&sales(2, 20)), accepted(6));
    assert!(day.book.stands());
}

#[test]
fn every_row_weighs_on_the_margins() {
    // Account 1 can sell 20,000 in each hour.
    let day = || Day::open(&ample());
    assert_eq!(
        day().strip(&[sale(1, 15_000, 0), sale(1, 5_000, 1)]),
        accepted(1)
    );
    let over = [sale(1, 15_000, 0), sale(1, 5_001, 1)];
    assert_eq!(day().strip(&over), with(18, 1, 0));
    // The lowest hour over all rows, also where only a later row touches it.
    let late = [sale(9, 20_001, 0), sale(5, 1, 1), sale(4, 20_001, 2)];
    assert_eq!(day().strip(&late), with(18, 4, 0));
    let together = [sale(9, 20_001, 0), sale(3, 20_000, 1), sale(3, 1, 2)];
    assert_eq!(day().strip(&together), with(18, 3, 0));
    let long = [
        sale(7, 20_000, 0),
        Request {
            first: 6,
            last: 8,
            ..sale(6, 1, 1)
        },
    ];
    assert_eq!(day().strip(&long), with(18, 7, 0));
    // What was pending before weighs too.
    let mut traded = day();
    assert_eq!(traded.call(sale(2, 19_999, 0)), accepted(1));
    assert_eq!(
        traded.strip(&[sale(1, 1, 1), sale(2, 2, 2)]),
        with(18, 2, 0)
    );
    assert_eq!(traded.strip(&[sale(1, 1, 1), sale(2, 1, 2)]), accepted(2));
}

#[test]
fn sales_and_purchases_do_not_cancel() {
    let mut setup = ample();
    setup.accounts[0].lower_margins.fill(100);
    setup.accounts[0].upper_margins.fill(50);
    let strip = |rows: &[Request]| Day::open(&setup).strip(rows);
    assert_eq!(strip(&[sale(1, 100, 0), purchase(1, 50, 1)]), accepted(1));
    let low = [sale(1, 101, 0), purchase(1, 1, 1)];
    assert_eq!(strip(&low), with(18, 1, 0));
    let high = [sale(1, 1, 0), purchase(1, 51, 1)];
    assert_eq!(strip(&high), with(18, 1, 0));
}

#[test]
fn every_row_weighs_on_the_guarantee() {
    // 18,000 kWh are covered.
    let strip = |rows: &[Request]| Day::open(&whole_case()).strip(rows);
    let halves = |more: u32| [sale(1, 9_000, 0), sale(24, 9_000 + more, 1)];
    assert_eq!(strip(&halves(0)), accepted(1));
    assert_eq!(strip(&halves(1)), refused(19));
    let over = [sale(1, 20_000, 0), sale(24, 20_001, 1)];
    assert_eq!(strip(&over), with(18, 24, 0));
    // Purchases free nothing while they wait.
    let mut setup = whole_case();
    setup.accounts[0].upper_margins.fill(20_000);
    let both = [sale(1, 18_001, 0), purchase(1, 18_001, 1)];
    assert_eq!(Day::open(&setup).strip(&both), refused(19));
    // Another account of the operator weighs on it too.
    setup.accounts[1].operator = 1;
    setup.accounts[1].lower_margins.fill(20_000);
    let mut day = Day::open(&setup);
    let others = Request {
        account: 2,
        other: 1,
        ..sell(10_000)
    };
    assert_eq!(day.call(others), accepted(1));
    assert_eq!(
        day.strip(&[sale(1, 4_000, 0), sale(2, 4_001, 1)]),
        refused(19)
    );
    assert_eq!(
        day.strip(&[sale(1, 4_000, 0), sale(2, 4_000, 1)]),
        accepted(2)
    );
}

#[test]
fn rows_to_the_last() {
    let with_rows = |count: u64| {
        let mut day = Day::open(&wide());
        for code in 0..count {
            assert!(day.call(sale(1, 1, 1_000 + code)).is_accepted());
        }
        day
    };
    let mut day = with_rows(232);
    assert_eq!(day.strip(&sales(24, 0)), accepted(233));
    assert_eq!(day.strip(&sales(1, 50)), refused(15));
    assert_eq!(day.strip(&[sale(1, 1, 50), sale(2, 1, 0)]), refused(14));
    assert_eq!(day.strip(&[sale(1, 1, 50), sale(2, 1, 50)]), refused(22));
    let mut day = with_rows(233);
    assert_eq!(day.strip(&sales(24, 0)), refused(15));
    assert_eq!(day.strip(&sales(23, 0)), accepted(234));
    // Withdrawn rows keep their numbers.
    assert_eq!(day.call(withdraw(1, 256)), accepted(0));
    assert_eq!(day.strip(&sales(1, 50)), refused(15));
}

#[test]
fn twins_are_alike_in_counterparty_and_code() {
    let mut setup = wide();
    setup.accounts.push(setup.accounts[1].clone());
    let strip = |rows: &[Request]| Day::open(&setup).strip(rows);
    let to_third = |row: Request| Request { other: 3, ..row };
    let row = sale(1, 1, 7);
    assert_eq!(strip(&[row, to_third(row)]), accepted(1));
    // Side, hours and quantity do not tell them apart.
    for twin in [row, sale(2, 3, 7), purchase(1, 1, 7)] {
        assert_eq!(strip(&[row, twin]), refused(22));
        assert_eq!(
            strip(&[sale(1, 1, 0), row, sale(2, 1, 1), twin]),
            refused(22)
        );
    }
    // A row alike one that is withdrawn or confirmed is none.
    let mut day = Day::open(&setup);
    day.trade(row);
    assert_eq!(day.strip(&[row, sale(1, 1, 8)]), accepted(2));
    // Nor is one of the other party.
    let theirs = Request {
        account: 2,
        other: 1,
        ..row
    };
    assert_eq!(day.strip(&[theirs]), accepted(4));
}

#[test]
fn a_strip_has_its_phase() {
    let mut day = Day::open(&wide());
    assert_eq!(day.strip(&sales(2, 0)), accepted(1));
    assert_eq!(day.simple(kind::CLOSE_GATE), accepted(0));
    assert_eq!(day.strip(&sales(2, 5)), refused(11));
    // 11 comes before 14 and 22, and after 6 and 7.
    assert_eq!(day.strip(&[sale(1, 1, 9), sale(1, 1, 9)]), refused(11));
    assert_eq!(day.strip(&[sale(1, 1, 9), sale(1, 0, 9)]), with(6, 7, 0));
    assert_eq!(day.settle(&hour_1(24, 0, 0)), accepted(0));
    assert_eq!(day.strip(&sales(2, 5)), refused(11));
}

#[test]
fn a_strip_is_an_item_of_a_replay() {
    let items = [
        wide().to_bytes(),
        strip_record(&sales(24, 0)),
        strip_record(&[sale(1, 1, 30), sale(2, 1, 30)]),
        record(&mirror(sales(24, 0)[23])),
        // The bytes behind a strip are its own: too many.
        [strip_record(&sales(1, 40)), vec![0; 96]].concat(),
        vec![1, 0, 11, 0],
        vec![1, 0, 11],
        vec![0, 0, 11, 0],
        strip_record(&sales(2, 40)),
    ];
    let expected = "0 0 0 0\n1 0 1 0\n2 22 0 0\n3 0 24 0\n4 5 0 0\n\
        5 21 0 0\n6 5 0 0\n7 2 0 0\n8 0 25 0\n";
    assert_eq!(replay(&stream(&items)), expected);
}
