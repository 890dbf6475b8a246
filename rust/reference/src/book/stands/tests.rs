//! Books stand after every call, and do not once they are damaged.

use crate::days::{day, Step};
use crate::ledger::{damages, Ledger};
use crate::{kind, layout, write, Account, Book, Direction, Operator, Phase, Point, PointKind};
use crate::{Request, Row, Schedule, Setup, Status};

/// Two operators with an account each, and a mixed point.
fn setup() -> Setup {
    let account = |operator, kind| Account {
        operator,
        kind,
        lower_margins: vec![20_000; 24],
        upper_margins: vec![20_000; 24],
    };
    Setup {
        zones: 1,
        estimates: vec![5_000; 24],
        operators: vec![
            Operator {
                guarantee: 1_000_000,
                maintenance: 100,
            };
            2
        ],
        accounts: vec![
            account(1, Direction::Injection),
            account(2, Direction::Withdrawal),
        ],
        points: vec![Point {
            account: 1,
            kind: PointKind::Mixed,
            zone: 1,
            greatest_injection: 10,
            greatest_withdrawal: 10,
        }],
    }
}

fn call(book: &mut Book, request: Request) {
    let (_, length) = layout(request.kind).unwrap();
    let mut record = vec![0; length];
    write(&request, &mut record);
    assert!(book.call(&record, &[], &mut [], &mut []).is_accepted());
    assert!(book.stands());
}

fn simple(kind: u8) -> Request {
    Request {
        kind,
        ..Request::default()
    }
}

/// Account 1 sells to account 2.
fn sale(hours: (u8, u8), quantity: u32, code: u64) -> Request {
    Request {
        account: 1,
        other: 2,
        code,
        side: 1,
        first: hours.0,
        last: hours.1,
        quantity,
        ..simple(kind::REGISTER)
    }
}

/// The confirmation of a request to register.
fn mirror(request: Request) -> Request {
    Request {
        kind: kind::CONFIRM,
        account: request.other,
        other: request.account,
        side: 3 - request.side,
        ..request
    }
}

fn withdrawal(number: u16) -> Request {
    Request {
        account: 1,
        number,
        ..simple(kind::WITHDRAW)
    }
}

/// A book of five rows: a confirmed sale in hour 1, pending ones with the codes
/// 1 and 2 in hour 2, a withdrawn one in the hours 3 to 4, and a pending
/// purchase in hour 24.
fn registration() -> Book {
    let purchase = Request {
        side: 2,
        ..sale((24, 24), 1_000, 4)
    };
    let mut book = Book::open(&setup().to_bytes()).unwrap();
    for request in [
        sale((1, 1), 18_000, 0),
        mirror(sale((1, 1), 18_000, 0)),
        sale((2, 2), 9_500, 1),
        sale((2, 2), 9_500, 2),
        sale((3, 4), 1_000, 3),
        withdrawal(4),
        purchase,
    ] {
        call(&mut book, request);
    }
    book
}

/// The same with a batch open, in which row 2 was confirmed, row 3 withdrawn
/// and row 6 registered.
fn batch() -> Book {
    let mut book = registration();
    for request in [
        simple(kind::OPEN_BATCH),
        mirror(sale((2, 2), 9_500, 1)),
        withdrawal(3),
        sale((5, 5), 1_000, 5),
    ] {
        call(&mut book, request);
    }
    book
}

/// The same after the gate, with a schedule.
fn closed() -> Book {
    let mut book = registration();
    call(&mut book, simple(kind::CLOSE_GATE));
    call(
        &mut book,
        Request {
            side: 1,
            first: 24,
            quantity: 10,
            point: 1,
            price: 400_000,
            ..simple(kind::SCHEDULE)
        },
    );
    book
}

fn is_found(name: &str, book: &Book, damage: impl Fn(&mut Book)) {
    let mut damaged = book.clone();
    damage(&mut damaged);
    assert!(!damaged.stands(), "{name}");
}

#[test]
fn days_stand_after_every_call() {
    let mut calls = 0;
    for seed in 60_000..60_150 {
        let (setup, steps) = day(seed);
        let Ok(mut book) = Book::open(&setup) else {
            continue;
        };
        assert!(book.stands());
        for Step {
            record,
            prices,
            results,
            balances,
        } in steps
        {
            book.call(
                &record,
                &prices,
                &mut vec![0; results],
                &mut vec![0; balances],
            );
            assert!(book.stands());
            for operator in 1..=book.setup().operators.len() as u8 {
                let exposure = book.exposure_from_rows(operator);
                assert_eq!(book.exposure(operator), Ok(exposure));
            }
            calls += 1;
        }
        assert_eq!(book.exposure_from_rows(0), 0);
    }
    assert!(calls > 10_000);
}

#[test]
fn a_damaged_ledger_does_not_stand() {
    let (plain, batch) = (registration(), batch());
    for (name, damage) in damages::OF_SUMS.iter().chain(&damages::OF_ROWS) {
        let mut ledger = plain.ledger.clone();
        damage(&mut ledger);
        assert!(!ledger.stands(&plain.setup), "{name}");
        is_found(name, &plain, |book| damage(&mut book.ledger));
        is_found(name, &batch, |book| damage(saved(book)));
    }
}

fn saved(book: &mut Book) -> &mut Ledger {
    book.saved.as_mut().unwrap()
}

/// A margin of a set-up, and its name.
type Margin = (&'static str, fn(&mut Setup) -> &mut u32);

#[test]
fn a_broken_limit_is_found() {
    let book = registration();
    // 18,000 sold in hour 1, 19,000 about to be in hour 2; in hour 24 1,000
    // about to be bought. No other hour needs a margin.
    let mut least = setup();
    for account in &mut least.accounts {
        account.lower_margins.fill(0);
        account.upper_margins.fill(0);
    }
    least.accounts[0].lower_margins[..2].copy_from_slice(&[18_000, 19_000]);
    least.accounts[0].upper_margins[23] = 1_000;
    least.accounts[1].upper_margins[0] = 18_000;
    assert!(book.stands_with(&least));
    let margins: [Margin; 4] = [
        ("net sold", |setup| &mut setup.accounts[0].lower_margins[0]),
        ("pending sales", |setup| {
            &mut setup.accounts[0].lower_margins[1]
        }),
        ("pending purchases", |setup| {
            &mut setup.accounts[0].upper_margins[23]
        }),
        ("net bought", |setup| {
            &mut setup.accounts[1].upper_margins[0]
        }),
    ];
    for (name, margin) in margins {
        let mut less = least.clone();
        *margin(&mut less) -= 1;
        assert!(!book.stands_with(&less), "{name}");
    }
    is_found("maintenance", &book, |book| {
        book.setup.operators[0].maintenance = 1_000;
    });
    is_found("set-up", &book, |book| book.setup.zones = 9);
}

#[test]
fn a_margin_broken_in_the_saved_part_is_found() {
    // Row 3, of 9,500 in hour 2, is withdrawn at present but pending as saved.
    let (book, mut setup) = (batch(), setup());
    setup.accounts[0].lower_margins[1] = 19_000;
    assert!(book.stands_with(&setup));
    setup.accounts[0].lower_margins[1] = 18_999;
    assert!(!book.stands_with(&setup));
    // Row 6 is of the batch alone.
    setup.accounts[0].lower_margins = vec![20_000; 24];
    setup.accounts[0].lower_margins[4] = 999;
    assert!(!book.stands_with(&setup));
    assert!(registration().stands_with(&setup));
}

#[test]
fn what_belongs_to_another_phase_is_found() {
    is_found("pending after the gate", &registration(), |book| {
        book.phase = Phase::Schedules;
    });
    is_found("batch after the gate", &batch(), |book| {
        book.phase = Phase::Schedules;
    });
    for phase in [Phase::Schedules, Phase::Settled] {
        let mut book = closed();
        book.phase = phase;
        assert!(book.stands());
        is_found("batch", &book, |book| {
            book.saved = Some(Box::new(book.ledger.clone()));
        });
    }
    is_found("schedules before the gate", &closed(), |book| {
        book.phase = Phase::Registration;
    });
}

#[test]
fn a_schedule_out_of_range_is_found() {
    let damages: [fn(&mut Schedule); 7] = [
        |schedule| schedule.point = 0,
        |schedule| schedule.point = 2,
        |schedule| schedule.hour = 0,
        |schedule| schedule.hour = 25,
        |schedule| schedule.quantity = 0,
        |schedule| schedule.quantity = 10_000_001,
        |schedule| schedule.price = 400_001,
    ];
    for damage in damages {
        is_found("schedule", &closed(), |book| {
            damage(&mut book.schedules[0]);
        });
    }
    is_found("257 schedules", &closed(), |book| {
        book.schedules = vec![book.schedules[0]; 257];
    });
}

#[test]
fn an_ask_that_cannot_stand_is_found() {
    // A register would be accepted for each of these, after the batch too.
    let good = Row::proposed(&sale((3, 4), 1_000, 9));
    let (mut plain, mut batch) = (registration(), batch());
    for book in [&mut plain, &mut batch] {
        book.asks[0] = Some(good);
        assert!(book.stands());
        is_found("the other account's", book, |book| {
            book.asks = vec![None, Some(good)];
        });
        is_found("confirmed", book, |book| {
            book.asks[0] = Some(Row {
                status: Status::Confirmed,
                ..good
            });
        });
        is_found("one place more", book, |book| book.asks.push(None));
        is_found("one place fewer", book, |book| book.asks.truncate(1));
    }
    // Code 2 is pending, but no more in the batch; only the present part counts.
    let alike = Row::proposed(&sale((3, 4), 1_000, 2));
    is_found("alike", &plain, |book| book.asks[0] = Some(alike));
    batch.asks[0] = Some(alike);
    assert!(batch.stands());
    // Code 5 is pending in the batch alone.
    let later = Row::proposed(&sale((3, 4), 1_000, 5));
    plain.asks[0] = Some(later);
    assert!(plain.stands());
    is_found("alike in the batch", &batch, |book| {
        book.asks[0] = Some(later);
    });
    for phase in [Phase::Schedules, Phase::Settled] {
        is_found("after the gate", &closed(), |book| {
            book.phase = phase;
            book.asks[0] = Some(good);
        });
    }
}

#[test]
fn saved_rows_that_the_present_ones_do_not_continue_are_found() {
    let mut other = batch();
    damages::other_code(saved(&mut other));
    assert!(saved(&mut other).clone().stands(&setup()));
    assert!(!other.stands());

    // The saved part is the later one: it has more rows, or a row confirmed
    // or withdrawn that is pending at present.
    for request in [
        sale((5, 5), 1_000, 5),
        mirror(sale((2, 2), 9_500, 1)),
        withdrawal(3),
    ] {
        let mut book = registration();
        call(&mut book, simple(kind::OPEN_BATCH));
        call(&mut book, request);
        is_found("later", &book, |book| {
            let now = book.ledger.clone();
            book.ledger = std::mem::replace(saved(book), now);
        });
    }
}
