//! Refusals, their order and their details.

mod common;
use common::*;
use reference::*;

#[test]
fn fields_out_of_range() {
    let mut day = Day::open(&whole_case());
    let register = sell(1);
    let cases = [
        (
            1,
            Request {
                account: 0,
                ..register
            },
        ),
        (
            1,
            Request {
                account: 3,
                other: 0,
                ..register
            },
        ),
        (
            2,
            Request {
                other: 3,
                ..register
            },
        ),
        (
            4,
            Request {
                side: 0,
                ..register
            },
        ),
        (
            4,
            Request {
                side: 3,
                ..register
            },
        ),
        (
            5,
            Request {
                first: 0,
                last: 0,
                ..register
            },
        ),
        (
            5,
            Request {
                first: 25,
                last: 25,
                ..register
            },
        ),
        (
            6,
            Request {
                first: 2,
                ..register
            },
        ),
        (
            6,
            Request {
                last: 0,
                ..register
            },
        ),
        (
            6,
            Request {
                last: 25,
                ..register
            },
        ),
        (7, sell(10_000_001)),
        (8, withdraw(1, 0)),
        (8, withdraw(1, 257)),
        (9, guarantee(0, 0)),
        (9, guarantee(3, u64::MAX)),
        (10, guarantee(1, GREATEST_GUARANTEE + 1)),
        (
            5,
            Request {
                first: 0,
                ..schedule(1, 1, 1, 1)
            },
        ),
        (11, schedule(1, 0, 1, 1)),
        (11, schedule(1, 2, 1, 1)),
        (12, schedule(1, 1, 1, 400_001)),
    ];
    for (field, request) in cases {
        assert_eq!(day.call(request), with(6, field, 0), "{request:?}");
    }
    // A field fault comes before equal accounts, those before the phase.
    let own = Request {
        other: 1,
        ..register
    };
    assert_eq!(day.call(own), refused(7));
    assert_eq!(day.call(Request { quantity: 0, ..own }), with(6, 7, 0));
    day.simple(kind::CLOSE_GATE);
    assert_eq!(day.call(own), refused(7));
    assert_eq!(day.call(register), refused(11));
}

#[test]
fn confirm_finds_the_row_and_mirrors_it() {
    let mut day = Day::open(&wide());
    let proposal = Request {
        last: 3,
        code: 5,
        ..sell(100)
    };
    assert_eq!(day.call(proposal), accepted(1));
    let good = mirror(proposal);
    assert_eq!(day.call(Request { code: 6, ..good }), refused(16));
    assert_eq!(day.call(mirror(good)), refused(16));
    assert_eq!(day.call(Request { side: 1, ..good }), refused(17));
    assert_eq!(day.call(Request { last: 2, ..good }), refused(17));
    assert_eq!(
        day.call(Request {
            quantity: 99,
            ..good
        }),
        refused(17)
    );
    assert_eq!(day.call(good), accepted(1));
    assert_eq!(day.call(good), refused(16));
    assert_eq!(day.call(withdraw(1, 1)), refused(16));
    assert_eq!(day.book.net(1, 3), Ok(-100));
    assert_eq!(day.book.net(2, 3), Ok(100));
    assert_eq!(day.book.net(2, 4), Ok(0));
}

#[test]
fn withdraw_is_the_proposers() {
    let mut day = Day::open(&wide());
    assert_eq!(day.call(withdraw(1, 1)), refused(16));
    assert_eq!(day.call(sell(100)), accepted(1));
    assert_eq!(day.call(withdraw(2, 1)), refused(16));
    assert_eq!(day.call(withdraw(1, 2)), refused(16));
    assert_eq!(day.call(withdraw(1, 1)), accepted(0));
    assert_eq!(day.call(withdraw(1, 1)), refused(16));
    assert_eq!(day.book.exposure(1), Ok(0));
}

#[test]
fn margins_name_the_lowest_hour() {
    let mut day = Day::open(&ample());
    day.trade(Request {
        first: 7,
        last: 7,
        ..sell(15_000)
    });
    let long = Request {
        first: 5,
        last: 9,
        code: 1,
        ..sell(5_001)
    };
    assert_eq!(day.call(long), with(18, 7, 0));
    assert_eq!(day.call(buy(1)), with(18, 1, 0));
    // A confirmation is judged on its caller.
    let mut setup = ample();
    setup.accounts[1].upper_margins.fill(99);
    let mut day = Day::open(&setup);
    let proposal = Request {
        first: 3,
        last: 4,
        ..sell(100)
    };
    assert_eq!(day.call(proposal), accepted(1));
    assert_eq!(day.call(mirror(proposal)), with(18, 3, 0));
}

#[test]
fn confirmed_sale_is_judged_on_the_guarantee() {
    let mut setup = wide();
    setup.operators[1] = operator(100, 500);
    let mut day = Day::open(&setup);
    // Account 2 would sell: 10 kWh at 5,000 are the 50,000 available.
    assert_eq!(day.call(buy(11)), accepted(1));
    assert_eq!(day.call(mirror(buy(11))), refused(19));
    assert_eq!(day.call(withdraw(1, 1)), accepted(0));
    day.trade(buy(10));
    assert_eq!(day.book.exposure(2), Ok(50_000));
    assert_eq!(day.call(guarantee(2, 99)), refused(19));
    assert_eq!(day.call(guarantee(2, 100)), accepted(0));
    // A purchase frees the guarantee, once confirmed.
    let back = Request { code: 2, ..sell(4) };
    day.trade(back);
    assert_eq!(day.book.exposure(2), Ok(30_000));
    assert_eq!(day.call(guarantee(2, 59)), refused(19));
    assert_eq!(day.call(guarantee(2, 60)), accepted(0));
}

#[test]
fn one_operator_on_both_sides_counts_both_changes() {
    let mut setup = wide();
    setup.accounts[1].operator = 1;
    setup.operators[0] = operator(50, 0);
    let mut day = Day::open(&setup);
    day.trade(sell(10));
    // Account 2 sells back what it has: its own exposure stays at nothing,
    // and that of account 1 goes.
    let back = Request { code: 1, ..buy(10) };
    assert_eq!(day.call(back), accepted(2));
    assert_eq!(day.call(mirror(back)), accepted(2));
    assert_eq!(day.book.exposure(1), Ok(0));
    // Pending sales count in full, even on a net above zero.
    day.trade(sell(5));
    let resale = Request {
        code: 2,
        account: 2,
        other: 1,
        ..sell(5)
    };
    assert_eq!(day.call(resale), accepted(4));
    assert_eq!(day.book.exposure(1), Ok(50_000));
    let one_more = Request {
        code: 3,
        account: 2,
        other: 1,
        ..sell(1)
    };
    assert_eq!(day.call(one_more), refused(19));
}

#[test]
fn a_confirmation_within_one_operator_may_move_exposure() {
    let mut setup = wide();
    setup.operators[0] = operator(50, 0);
    setup.accounts.push(setup.accounts[0].clone());
    let mut day = Day::open(&setup);
    day.trade(sell(10));
    // Account 3 sells what account 1 buys back: the whole guarantee is in use
    // before and after.
    let back = Request {
        other: 3,
        ..buy(10)
    };
    assert_eq!(day.call(back), accepted(2));
    assert_eq!(day.call(mirror(back)), accepted(2));
    assert_eq!(day.book.exposure(1), Ok(50_000));
    let more = Request { other: 3, ..buy(1) };
    assert_eq!(day.call(more), accepted(3));
    assert_eq!(day.call(mirror(more)), refused(19));
}

#[test]
fn undo_counts_the_rows_since_the_open() {
    let mut day = Day::open(&wide());
    assert_eq!(day.call(sell(1)), accepted(1));
    let before = day.book.clone();
    assert_eq!(day.simple(kind::OPEN_BATCH), accepted(0));
    assert_eq!(day.call(mirror(sell(1))), accepted(1));
    assert_eq!(day.call(sell(2)), accepted(2));
    assert_eq!(day.call(withdraw(1, 2)), accepted(0));
    assert_eq!(day.call(sell(3)), accepted(3));
    assert_eq!(day.simple(kind::UNDO), accepted(2));
    assert_eq!(day.book, before);
    assert_eq!(day.simple(kind::OPEN_BATCH), accepted(0));
    assert_eq!(day.call(withdraw(1, 1)), accepted(0));
    assert_eq!(day.simple(kind::KEEP), accepted(0));
    assert_eq!(day.simple(kind::UNDO), refused(13));
    assert_eq!(day.call(sell(1)), accepted(2));
}

#[test]
fn readings_name_the_lowest_bit() {
    let day = Day::open(&whole_case());
    assert_eq!(day.book.net(0, 0), Err(with(6, 1, 0)));
    assert_eq!(day.book.net(3, 1), Err(with(6, 1, 0)));
    assert_eq!(day.book.net(2, 25), Err(with(6, 5, 0)));
    assert_eq!(day.book.exposure(0), Err(with(6, 9, 0)));
    assert_eq!(day.book.exposure(3), Err(with(6, 9, 0)));
}
