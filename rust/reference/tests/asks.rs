//! Asks and commits: what they do, what clears them, and what refuses them.

mod common;
use common::*;
use reference::*;

/// Wide, with a third account, of operator 2.
fn three() -> Setup {
    let mut setup = wide();
    setup.accounts.push(setup.accounts[1].clone());
    setup
}

/// Account 1 sells to account 2 in one hour, with a code.
fn sale(hour: u8, quantity: u32, code: u64) -> Request {
    Request {
        first: hour,
        last: hour,
        code,
        ..sell(quantity)
    }
}

/// The same, proposed by another account to account 1 or 2.
fn of(account: u8, request: Request) -> Request {
    Request {
        account,
        other: if account == 1 { 2 } else { 1 },
        ..request
    }
}

fn copy(day: &Day) -> Day {
    Day {
        book: day.book.clone(),
        results: Vec::new(),
        balances: Vec::new(),
    }
}

/// How many asks stand.
fn standing(day: &Day) -> usize {
    day.book.asks().iter().flatten().count()
}

#[test]
fn a_commit_gets_the_number_of_its_ask() {
    let mut day = Day::open(&three());
    day.trade(sell(5));
    let request = sale(3, 7, 1);
    assert_eq!(day.call(ask(request)), accepted(2));
    assert_eq!(standing(&day), 1);
    assert!(day.book.stands());
    // Asked again, it is the same.
    assert_eq!(day.call(ask(request)), accepted(2));
    let mut registered = copy(&day);
    assert_eq!(day.call(commit(request)), accepted(2));
    assert_eq!(registered.call(request), accepted(2));
    assert_eq!(day.book, registered.book);
    assert_eq!(standing(&day), 0);
    // The row is one like any other.
    assert_eq!(day.call(commit(request)), refused(23));
    assert_eq!(day.call(request), refused(14));
    assert_eq!(day.call(mirror(request)), accepted(2));
    assert_eq!(day.book.net(2, 3), Ok(7));
}

#[test]
fn an_ask_changes_nothing_else() {
    let mut day = Day::open(&whole_case());
    assert_eq!(day.call(sell(10_000)), accepted(1));
    let mut without = copy(&day);
    // 8,000 kWh more are covered, whoever asks how often.
    for code in 1..=5 {
        assert_eq!(day.call(ask(sale(1, 8_000, code))), accepted(2));
        assert_eq!(day.call(ask(sale(1, 8_001, code))), refused(19));
    }
    assert_eq!(day.book.rows(), without.book.rows());
    assert_eq!(day.book.exposure(1), without.book.exposure(1));
    assert_eq!(day.book.position(1, 1), without.book.position(1, 1));
    for day in [&mut day, &mut without] {
        assert_eq!(day.call(sale(1, 8_000, 9)), accepted(2));
    }
    assert_eq!(day.book, without.book);
}

#[test]
fn another_accounts_register_clears() {
    let mut day = Day::open(&three());
    let request = sale(1, 1, 1);
    assert_eq!(day.call(ask(request)), accepted(1));
    assert_eq!(day.call(of(3, sale(9, 1, 5))), accepted(1));
    assert_eq!(day.call(commit(request)), refused(23));
    assert_eq!(day.call(ask(request)), accepted(2));
    assert_eq!(day.call(commit(request)), accepted(2));
}

#[test]
fn a_second_ask_takes_the_place_of_the_first() {
    let mut day = Day::open(&three());
    let (first, second) = (sale(1, 1, 1), sale(2, 2, 2));
    assert_eq!(day.call(ask(first)), accepted(1));
    assert_eq!(day.call(ask(second)), accepted(1));
    assert_eq!(standing(&day), 1);
    assert_eq!(day.call(commit(first)), refused(23));
    assert_eq!(day.call(commit(second)), accepted(1));
}

#[test]
fn one_commit_clears_the_asks_of_all() {
    let mut day = Day::open(&three());
    let (first, second, third) = (sale(1, 1, 1), of(2, sale(1, 1, 1)), of(3, sale(1, 1, 1)));
    // An ask reserves nothing: all get the same number.
    for request in [first, second, third] {
        assert_eq!(day.call(ask(request)), accepted(1));
    }
    assert_eq!(standing(&day), 3);
    assert!(day.book.stands());
    assert_eq!(day.call(commit(second)), accepted(1));
    assert_eq!(standing(&day), 0);
    for request in [first, third] {
        assert_eq!(day.call(commit(request)), refused(23));
        assert_eq!(day.call(ask(request)), accepted(2));
    }
}

#[test]
fn a_refused_ask_leaves_the_earlier_one() {
    let mut day = Day::open(&whole_case());
    assert_eq!(day.call(sale(2, 1, 7)), accepted(1));
    let request = sale(1, 17_999, 1);
    assert_eq!(day.call(ask(request)), accepted(2));
    let refusals = [
        (sale(1, 20_001, 2), with(18, 1, 0)),
        (sale(1, 18_000, 2), refused(19)),
        (sale(1, 1, 7), refused(14)),
        (sale(1, 0, 2), with(6, 7, 0)),
        (sale(25, 1, 2), with(6, 5, 0)),
        (
            Request {
                other: 1,
                ..request
            },
            refused(7),
        ),
    ];
    for (other, verdict) in refusals {
        assert_eq!(day.call(ask(other)), verdict);
        let committed = match verdict.number {
            6 | 7 => verdict,
            _ => refused(23),
        };
        assert_eq!(day.call(commit(other)), committed);
    }
    assert_eq!(day.call(commit(request)), accepted(2));
    assert_eq!(day.book.exposure(1), Ok(18_000 * 5_000));
}

#[test]
fn a_batch_clears_at_both_ends() {
    let request = sale(1, 1, 1);
    for end in [kind::UNDO, kind::KEEP] {
        let mut day = Day::open(&three());
        assert_eq!(day.call(ask(request)), accepted(1));
        assert_eq!(day.simple(kind::OPEN_BATCH), accepted(0));
        assert_eq!(day.call(commit(request)), refused(23));
        // Asked and committed inside.
        assert_eq!(day.call(ask(request)), accepted(1));
        assert!(day.book.stands());
        assert_eq!(day.simple(kind::OPEN_BATCH), refused(12));
        assert_eq!(day.call(commit(request)), accepted(1));
        let next = sale(1, 1, 2);
        assert_eq!(day.call(ask(next)), accepted(2));
        let rows = u16::from(end == kind::UNDO);
        assert_eq!(day.simple(end), accepted(rows));
        // Neither the ask inside nor the one before the open is back.
        assert_eq!(standing(&day), 0);
        assert_eq!(day.call(commit(next)), refused(23));
        assert_eq!(day.call(commit(request)), refused(23));
        assert_eq!(day.simple(end), refused(13));
    }
}

#[test]
fn an_ask_in_a_batch_is_judged_on_the_present_part() {
    let mut day = Day::open(&whole_case());
    assert_eq!(day.call(sell(18_000)), accepted(1));
    assert_eq!(day.simple(kind::OPEN_BATCH), accepted(0));
    let request = sale(1, 18_000, 1);
    assert_eq!(day.call(ask(request)), with(18, 1, 0));
    assert_eq!(day.call(withdraw(1, 1)), accepted(0));
    // As saved it would not be covered, and there are as many rows as now.
    assert_eq!(day.call(ask(request)), accepted(2));
    assert!(day.book.stands());
    assert_eq!(day.call(commit(request)), accepted(2));
    assert_eq!(day.simple(kind::UNDO), accepted(1));
}

#[test]
fn a_commit_has_all_seven_fields_of_its_ask() {
    let mut day = Day::open(&three());
    let request = Request {
        first: 3,
        last: 5,
        code: 0x0807_0605_0403_0201,
        ..sell(10)
    };
    assert_eq!(day.call(ask(request)), accepted(1));
    let others = [
        Request {
            account: 3,
            ..request
        },
        Request {
            other: 3,
            ..request
        },
        Request { side: 2, ..request },
        Request {
            first: 4,
            ..request
        },
        Request {
            first: 2,
            ..request
        },
        Request { last: 4, ..request },
        Request { last: 6, ..request },
        Request {
            quantity: 9,
            ..request
        },
        Request {
            quantity: 11,
            ..request
        },
        mirror(request),
    ];
    let codes = (0..64).map(|bit| Request {
        code: request.code ^ 1 << bit,
        ..request
    });
    for other in others.into_iter().chain(codes) {
        assert_eq!(day.call(commit(other)), refused(23), "{other:?}");
    }
    assert_eq!(day.call(commit(request)), accepted(1));
}

/// A day on which account 1 has a pending row with code 7, account 2 one with
/// code 8, and asks of accounts 1 and 2 stand.
fn asked(setup: &Setup) -> Day {
    let mut day = Day::open(setup);
    assert_eq!(day.call(sale(1, 1, 7)), accepted(1));
    assert_eq!(day.call(of(2, sale(1, 1, 8))), accepted(2));
    assert_eq!(day.call(ask(sale(2, 5, 1))), accepted(3));
    assert_eq!(day.call(ask(of(2, sale(2, 5, 2)))), accepted(3));
    day
}

#[test]
fn every_accepted_call_but_an_ask_clears() {
    let records = [
        record(&sale(3, 1, 9)),
        record(&mirror(sale(1, 1, 7))),
        record(&withdraw(1, 1)),
        record(&guarantee(1, 1_000_000)),
        record(&simple(kind::OPEN_BATCH)),
        record(&simple(kind::CLOSE_GATE)),
        strip_record(&[sale(3, 1, 9)]),
        strip_record(&[sale(3, 1, 9), sale(4, 1, 10)]),
        record(&commit(sale(2, 5, 1))),
        record(&commit(of(2, sale(2, 5, 2)))),
    ];
    for record in records {
        let mut day = asked(&three());
        assert!(day.record(&record).is_accepted(), "{record:?}");
        assert_eq!(standing(&day), 0, "{record:?}");
        assert!(day.book.stands());
    }
    for end in [kind::UNDO, kind::KEEP] {
        let mut day = asked(&three());
        assert_eq!(day.simple(kind::OPEN_BATCH), accepted(0));
        assert_eq!(day.call(ask(sale(2, 5, 1))), accepted(3));
        assert_eq!(day.simple(end), accepted(0));
        assert_eq!(standing(&day), 0);
    }
    // An ask of a third account, or again of the first, clears none.
    let mut day = asked(&three());
    assert_eq!(day.call(ask(of(3, sale(2, 5, 1)))), accepted(3));
    assert_eq!(day.call(ask(sale(2, 6, 1))), accepted(3));
    assert_eq!(standing(&day), 3);
    assert_eq!(day.call(commit(of(2, sale(2, 5, 2)))), accepted(3));
}

#[test]
fn no_refused_call_clears() {
    let mut setup = three();
    setup.accounts[0].lower_margins.fill(20_000);
    setup.operators[0].guarantee = 100_000;
    let price_table = vec![0; 8 * 24];
    let twins = [sale(3, 1, 9), sale(4, 1, 9)];
    let mut refusals = vec![
        (vec![], 2),
        (vec![1, 0, 14], 3),
        (vec![1, 0, 12], 4),
        (record(&ask(sale(1, 1, 9)))[..19].to_vec(), 5),
        (strip_record(&[]), 21),
        (strip_record(&twins), 22),
        (strip_record(&[sale(3, 20_001, 9)]), 18),
    ];
    let requests = [
        (sale(1, 0, 9), 6),
        (
            Request {
                other: 1,
                ..sale(1, 1, 9)
            },
            7,
        ),
        (sale(1, 1, 7), 14),
        (sale(3, 20_001, 9), 18),
        (sale(3, 19_000, 9), 19),
        (ask(sale(1, 0, 9)), 6),
        (ask(sale(1, 1, 7)), 14),
        (ask(sale(3, 20_001, 9)), 18),
        (ask(sale(3, 19_000, 9)), 19),
        (commit(sale(1, 0, 9)), 6),
        (commit(sale(2, 4, 1)), 23),
        (commit(of(3, sale(2, 5, 1))), 23),
        (mirror(sale(1, 1, 9)), 16),
        (mirror(sale(1, 2, 7)), 17),
        (withdraw(2, 1), 16),
        (guarantee(1, 0), 19),
        (simple(kind::UNDO), 13),
        (simple(kind::KEEP), 13),
        (schedule(1, 1, 1, 1), 11),
        (simple(kind::SETTLE), 5),
    ];
    refusals.extend(requests.map(|(request, number)| (record(&request), number)));
    let mut day = asked(&setup);
    for (record, number) in refusals {
        assert_eq!(day.record(&record).number, number, "{record:?}");
    }
    assert_eq!(day.settle(&price_table), refused(11));
    assert_eq!(standing(&day), 2);
    assert_eq!(day.call(commit(sale(2, 5, 1))), accepted(3));

    // In a batch open and close are refused.
    let mut day = Day::open(&setup);
    assert_eq!(day.simple(kind::OPEN_BATCH), accepted(0));
    assert_eq!(day.call(ask(sale(2, 5, 1))), accepted(1));
    assert_eq!(day.simple(kind::OPEN_BATCH), refused(12));
    assert_eq!(day.simple(kind::CLOSE_GATE), refused(12));
    assert_eq!(day.call(commit(sale(2, 5, 1))), accepted(1));
}

/// Days in which a register meets each number of the state that it can.
fn days() -> Vec<Day> {
    let mut setup = whole_case();
    setup.accounts[0].upper_margins.fill(5);
    let mut plain = Day::open(&setup);
    assert_eq!(plain.call(sale(1, 1, 7)), accepted(1));
    let mut batch = copy(&plain);
    assert_eq!(batch.simple(kind::OPEN_BATCH), accepted(0));
    let mut full = Day::open(&setup);
    for code in 0..256 {
        assert!(full.call(sale(1, 1, code)).is_accepted());
    }
    let mut closed = copy(&plain);
    assert_eq!(closed.simple(kind::CLOSE_GATE), accepted(0));
    let mut settled = copy(&closed);
    assert_eq!(settled.settle(&hour_1(24, 0, 0)), accepted(0));
    vec![plain, batch, full, closed, settled]
}

/// Records to register: good ones, one for each fault, and some of two.
fn registers() -> Vec<Vec<u8>> {
    let good = Request {
        last: 3,
        ..sale(1, 1, 1_000)
    };
    let requests = [
        good,
        sale(1, 18_000, 1_000),
        sale(1, 17_999, 1_000),
        sale(1, 18_001, 1_000),
        sale(24, 20_001, 1_000),
        sale(24, 20_000, 1_000),
        sale(1, 1, 7),
        sale(1, 20_001, 7),
        Request { side: 2, ..good },
        Request {
            side: 2,
            quantity: 6,
            ..good
        },
        Request { other: 1, ..good },
        of(2, good),
    ];
    let mut records: Vec<Vec<u8>> = requests.iter().map(record).collect();
    let whole = record(&good);
    for at in (0..2).chain(3..20) {
        for value in [0, 1, 3, 25, 26, 0x80, 0xFF] {
            let mut other = whole.clone();
            other[at] = value;
            records.push(other);
        }
    }
    records.extend((3..20).map(|length| whole[..length].to_vec()));
    records.push([&whole[..], &[0]].concat());
    records
}

#[test]
fn an_ask_answers_as_its_register() {
    let mut seen = std::collections::BTreeSet::new();
    for day in days() {
        for register in registers() {
            let mut asked = register.clone();
            asked[2] = kind::ASK;
            let (mut asking, mut registering) = (copy(&day), copy(&day));
            let verdict = asking.record(&asked);
            assert_eq!(verdict, registering.record(&register), "{register:?}");
            seen.insert(verdict.number);
            // A commit of it is refused as the register is up to 11.
            let mut committed = register.clone();
            committed[2] = kind::COMMIT;
            let expected = match verdict.number {
                2..=11 => verdict,
                _ => refused(23),
            };
            assert_eq!(copy(&day).record(&committed), expected, "{register:?}");
            if verdict.is_accepted() {
                assert_eq!(asking.record(&committed), verdict);
                assert_eq!(asking.book, registering.book);
            }
        }
    }
    let seen: Vec<u8> = seen.into_iter().collect();
    assert_eq!(seen, [0, 2, 4, 5, 6, 7, 11, 14, 15, 18, 19]);
}

#[test]
fn what_refuses_a_commit_comes_in_rank() {
    // The rows of the day are full, the guarantee is used, code 7 is pending.
    let day = days().remove(2);
    let alone = |request: Request| copy(&day).call(commit(request));
    // 23 comes before 14, 15, 18 and 19,
    assert_eq!(copy(&day).call(sale(1, 1, 7)), refused(14));
    assert_eq!(alone(sale(1, 1, 7)), refused(23));
    assert_eq!(alone(sale(1, 1, 999)), refused(23));
    assert_eq!(alone(sale(1, 20_001, 999)), refused(23));
    assert_eq!(alone(sale(2, 19_000, 999)), refused(23));
    // after 6 and 7,
    assert_eq!(alone(sale(1, 0, 7)), with(6, 7, 0));
    let own = Request {
        other: 1,
        ..sale(1, 1, 7)
    };
    assert_eq!(alone(own), refused(7));
    // and after 11, which comes after 6 and 7 too.
    let mut closed = days().remove(3);
    assert_eq!(closed.call(commit(sale(1, 1, 7))), refused(11));
    assert_eq!(closed.call(ask(sale(1, 1, 7))), refused(11));
    assert_eq!(closed.call(commit(sale(1, 0, 7))), with(6, 7, 0));
    assert_eq!(closed.call(commit(own)), refused(7));
    // Closing has cleared what stood.
    let mut day = asked(&three());
    assert_eq!(day.simple(kind::CLOSE_GATE), accepted(0));
    assert_eq!(day.call(commit(sale(2, 5, 1))), refused(11));
}

#[test]
fn an_ask_is_no_row() {
    let mut day = Day::open(&three());
    // Asks alike in counterparty and code, of two accounts and of one.
    assert_eq!(day.call(ask(of(3, sale(1, 1, 1)))), accepted(1));
    assert_eq!(day.call(ask(of(2, sale(1, 1, 1)))), accepted(1));
    assert_eq!(day.call(ask(of(2, sale(2, 3, 1)))), accepted(1));
    assert_eq!(day.simple(kind::OPEN_BATCH), accepted(0));
    // None is confirmed, withdrawn or counted.
    assert_eq!(day.call(ask(sale(1, 1, 1))), accepted(1));
    assert_eq!(day.call(mirror(sale(1, 1, 1))), refused(16));
    assert_eq!(day.call(withdraw(1, 1)), refused(16));
    assert_eq!(day.simple(kind::UNDO), accepted(0));
}

#[test]
fn to_the_last_row() {
    let mut day = Day::open(&three());
    for code in 0..255 {
        assert!(day.call(sale(1, 1, code)).is_accepted());
    }
    let requests = [1, 2, 3].map(|account| of(account, sale(1, 1, 999)));
    for request in requests {
        assert_eq!(day.call(ask(request)), accepted(256));
    }
    assert_eq!(day.call(commit(requests[0])), accepted(256));
    assert_eq!(day.call(ask(requests[1])), refused(15));
    assert_eq!(day.call(commit(requests[1])), refused(23));
    assert_eq!(day.call(withdraw(1, 256)), accepted(0));
    assert_eq!(day.call(ask(requests[0])), refused(15));
    assert!(day.book.stands());
}

#[test]
fn asks_and_commits_are_items_of_a_replay() {
    let request = sale(1, 18_000, 1);
    let items = [
        whole_case().to_bytes(),
        record(&commit(request)),
        record(&ask(request)),
        record(&ask(sale(1, 18_001, 1))),
        record(&commit(request)),
        record(&commit(request)),
        record(&mirror(request)),
        record(&ask(sale(24, 1, 2))),
        [record(&ask(sale(24, 1, 2))), vec![0]].concat(),
        record(&simple(kind::CLOSE_GATE)),
        record(&commit(request)),
        record(&ask(request)),
    ];
    let expected = "0 0 0 0\n1 23 0 0\n2 0 1 0\n3 19 0 0\n4 0 1 0\n5 23 0 0\n\
        6 0 1 0\n7 19 0 0\n8 5 0 0\n9 0 0 0\n10 11 0 0\n11 11 0 0\n";
    assert_eq!(replay(&stream(&items)), expected);
}

#[test]
fn a_book_has_only_asks_that_a_register_would_be_accepted_for() {
    let mut setup = whole_case();
    setup.accounts.push(setup.accounts[1].clone());
    let mut day = Day::open(&setup);
    assert_eq!(day.call(sale(2, 1_000, 7)), accepted(1));
    assert_eq!(day.call(ask(sale(1, 17_000, 1))), accepted(2));
    let book = &day.book;
    let row = book.asks()[0].unwrap();
    let stands = |place, ask| book.with_ask(place, ask).is_some();
    let with = |change: fn(&mut Row)| {
        let mut other = row;
        change(&mut other);
        stands(1, Some(other))
    };
    assert!(stands(1, Some(row)) && stands(1, None));
    assert!(with(|row| row.code = 2) && with(|row| row.counterparty = 3));
    assert!(with(|row| row.quantity = 1) && with(|row| (row.first, row.last) = (24, 24)));
    let broken: [fn(&mut Row); 17] = [
        |row| row.account = 2,
        |row| row.counterparty = 1,
        |row| row.counterparty = 0,
        |row| row.counterparty = 4,
        |row| row.side = Side::Buy,
        |row| row.first = 0,
        |row| row.first = 2,
        |row| row.last = 25,
        |row| row.last = 2,
        |row| row.quantity = 0,
        |row| row.quantity = 17_001,
        |row| row.quantity = 20_001,
        |row| row.quantity = 10_000_001,
        |row| row.status = Status::Confirmed,
        |row| row.status = Status::Withdrawn,
        |row| row.code = 7,
        |row| (row.account, row.counterparty) = (2, 1),
    ];
    for (number, change) in broken.into_iter().enumerate() {
        assert!(!with(change), "{number}");
    }
    // Another place, or one that no account has.
    assert!(!stands(2, Some(row)) && !stands(3, Some(row)));
    for place in [0, 4, 32, 255] {
        assert!(!stands(place, Some(row)));
        assert!(stands(place, None));
    }
    // Margins and guarantees are held against it.
    setup.accounts[0].lower_margins[0] = 17_000;
    assert!(book.stands_with(&setup));
    setup.accounts[0].lower_margins[0] = 16_999;
    assert!(!book.stands_with(&setup));
    // After the gate there are none.
    assert_eq!(day.simple(kind::CLOSE_GATE), accepted(0));
    assert!(day.book.with_ask(1, None) == Some(day.book.clone()));
    assert!(day.book.with_ask(1, Some(row)).is_none());
}
