//! The paper's whole case and its edges.

mod common;

use common::{sale, setup};
use energy_book::{price_table, Account, Book, Refusal, Request, Setup, Side, Terms, Verdict};

const AMPLE: u64 = 1_000_000;

fn book(guarantee: u64) -> Book {
    Book::open(&setup(guarantee).to_bytes()).unwrap()
}

fn accepted(number: u16) -> Verdict {
    Verdict::Accepted { number }
}

/// PUN and zone price in hour 1, the rest 0.
fn prices(pun: u32, zone: u32) -> Vec<u8> {
    let in_hour_1 = |price: u32| -> Vec<u32> { (1..=24).map(|hour| if hour == 1 { price } else { 0 }).collect() };
    price_table(&in_hour_1(pun), &[&in_hour_1(zone)])
}

/// The exposures of an operator in the hours in which they are not 0; those of all hours sum to its exposure.
fn exposed_hours(book: &Book, operator: u8) -> Vec<(u8, u64)> {
    let hours: Vec<(u8, u64)> = (1..=24).map(|hour| (hour, book.hourly_exposure(operator, hour).unwrap())).collect();
    assert_eq!(Ok(hours.iter().map(|(_, exposure)| exposure).sum()), book.exposure(operator));
    hours.into_iter().filter(|(_, exposure)| *exposure != 0).collect()
}

#[test]
fn whole_case() {
    let mut book = book(100_000);
    let terms = sale(0, 18_000);
    assert_eq!(book.submit(&Request::register(1, 2, terms)), accepted(1));
    assert_eq!((book.net(1, 1), book.net(2, 1)), (Ok(0), Ok(0)));
    assert_eq!(book.exposure(1), Ok(90_000_000));
    assert_eq!(exposed_hours(&book, 1), [(1, 90_000_000)]);
    assert_eq!(book.submit(&Request::confirm(2, 1, terms.mirrored())), accepted(1));
    assert_eq!((book.net(1, 1), book.net(2, 1)), (Ok(-18_000), Ok(18_000)));
    assert_eq!((book.exposure(1), book.exposure(2)), (Ok(90_000_000), Ok(0)));
    assert_eq!((exposed_hours(&book, 1), exposed_hours(&book, 2)), (vec![(1, 90_000_000)], vec![]));
    assert_eq!(book.submit(&Request::close_gate()), accepted(0));
    assert_eq!(book.submit(&Request::schedule(1, Side::Sells, 1, 15_000, 3_000)), accepted(1));
    let settlement = book.settle(&prices(6_000, 5_500)).unwrap();
    assert_eq!(settlement.results, [0]);
    assert_eq!(settlement.balances, [-25_500_000, 108_000_000]);
    assert_eq!(settlement.balances.iter().sum::<i64>(), 82_500_000);
    assert_eq!(book.settle(&prices(6_000, 5_500)), Err(Refusal::WrongPhase));
    assert_eq!(exposed_hours(&book, 1), [(1, 90_000_000)]);
}

#[test]
fn exposure_by_hour() {
    // Operator 1 has accounts 1 and 3, which may sell and buy; the estimate of hour h is h times 1,000.
    let mut setup = setup(AMPLE);
    setup.estimates = (1..=24).map(|hour| 1_000 * hour).collect();
    setup.accounts[0] = Account::same_all_day(1, 1, 20_000, 20_000, 24);
    setup.accounts.push(Account::same_all_day(1, 2, 20_000, 20_000, 24));
    let mut book = Book::open(&setup.to_bytes()).unwrap();
    let sale = |first, last, quantity| Terms { first, last, ..sale(0, quantity) };

    // What account 3 is long by this does not ease account 1.
    assert_eq!(book.submit(&Request::register(1, 3, sale(1, 3, 100))), accepted(1));
    assert_eq!(book.submit(&Request::confirm(3, 1, sale(1, 3, 100).mirrored())), accepted(1));
    assert_eq!(exposed_hours(&book, 1), [(1, 100_000), (2, 200_000), (3, 300_000)]);

    // A pending sale of account 3 counts in full, also in hour 3, where it is long; confirmed, it counts where it is short.
    assert_eq!(book.submit(&Request::register(3, 2, sale(3, 4, 30))), accepted(2));
    assert_eq!(exposed_hours(&book, 1), [(1, 100_000), (2, 200_000), (3, 390_000), (4, 120_000)]);
    assert_eq!(book.submit(&Request::confirm(2, 3, sale(3, 4, 30).mirrored())), accepted(2));
    assert_eq!(exposed_hours(&book, 1), [(1, 100_000), (2, 200_000), (3, 300_000), (4, 120_000)]);

    // A pending row counts for its proposer alone, and a pending purchase not at all.
    assert_eq!(book.submit(&Request::register(1, 2, sale(24, 24, 5))), accepted(3));
    assert_eq!(book.submit(&Request::register(1, 3, sale(1, 24, 7).mirrored())), accepted(4));
    assert_eq!(exposed_hours(&book, 1), [(1, 100_000), (2, 200_000), (3, 300_000), (4, 120_000), (24, 120_000)]);
    assert_eq!(exposed_hours(&book, 2), []);

    // The gate withdraws what is pending.
    assert_eq!(book.submit(&Request::close_gate()), accepted(0));
    assert_eq!(exposed_hours(&book, 1), [(1, 100_000), (2, 200_000), (3, 300_000), (4, 120_000)]);
}

#[test]
fn sales_up_to_the_guarantee_and_the_margin() {
    let register = |guarantee, quantity| book(guarantee).submit(&Request::register(1, 2, sale(0, quantity)));
    assert_eq!(register(100_000, 18_000), accepted(1));
    assert_eq!(register(100_000, 18_001), Verdict::Refused(Refusal::Uncovered));
    assert_eq!(register(AMPLE, 20_000), accepted(1));
    assert_eq!(register(AMPLE, 20_001), Verdict::Refused(Refusal::MarginBroken { hour: 1 }));
}

#[test]
fn margins_by_hour() {
    // Account 1 cannot sell in hours 5 to 8; account 2 can buy a kWh less in hour 24.
    let mut setup = setup(1_000_000_000);
    setup.accounts[0].lower[4..8].fill(0);
    setup.accounts[1].upper[23] = 19_999;
    let sale = |first, last, quantity| Terms { first, last, ..sale(0, quantity) };
    let register = |terms| Book::open(&setup.to_bytes()).unwrap().submit(&Request::register(1, 2, terms));
    let broken = |hour| Verdict::Refused(Refusal::MarginBroken { hour });
    assert_eq!(register(sale(1, 24, 1)), broken(5));
    assert_eq!(register(sale(8, 24, 20_000)), broken(8));
    assert_eq!(register(sale(9, 24, 20_001)), broken(9));
    assert_eq!(register(sale(9, 24, 20_000)), accepted(1));
    assert_eq!(register(sale(1, 4, 20_000)), accepted(1));
    for (quantity, verdict) in [(20_000, broken(24)), (19_999, accepted(1))] {
        let mut book = Book::open(&setup.to_bytes()).unwrap();
        assert_eq!(book.submit(&Request::register(1, 2, sale(9, 24, quantity))), accepted(1));
        assert_eq!(book.submit(&Request::confirm(2, 1, sale(9, 24, quantity).mirrored())), verdict);
    }
}

#[test]
fn fields_out_of_range() {
    let mut short_day = setup(AMPLE);
    short_day.estimates.pop();
    for account in &mut short_day.accounts {
        account.lower.pop();
        account.upper.pop();
    }
    let mut book = Book::open(&short_day.to_bytes()).unwrap();
    let late = Terms { first: 23, last: 24, ..sale(0, 1) };
    assert_eq!(book.submit(&Request::register(1, 2, late)), Verdict::Refused(Refusal::OutOfRange { bit: 6 }));
    assert_eq!(book.submit(&Request::register(1, 2, sale(0, 0))), Verdict::Refused(Refusal::OutOfRange { bit: 7 }));
    assert_eq!(book.submit(&Request::register(1, 1, sale(0, 1))), Verdict::Refused(Refusal::SameAccount));
    assert_eq!(book.net(3, 1), Err(Refusal::OutOfRange { bit: 1 }));
    assert_eq!(book.net(1, 24), Err(Refusal::OutOfRange { bit: 5 }));
    assert_eq!(book.exposure(0), Err(Refusal::OutOfRange { bit: 9 }));
    assert_eq!(book.hourly_exposure(1, 24), Err(Refusal::OutOfRange { bit: 5 }));
    assert_eq!(book.hourly_exposure(3, 23), Err(Refusal::OutOfRange { bit: 9 }));
    assert_eq!(book.hourly_exposure(3, 24), Err(Refusal::OutOfRange { bit: 5 }));
}

#[test]
fn a_code_is_free_again_after_withdrawal() {
    let mut book = book(AMPLE);
    assert_eq!(book.submit(&Request::register(1, 2, sale(5, 1))), accepted(1));
    assert_eq!(book.submit(&Request::register(1, 2, sale(5, 1))), Verdict::Refused(Refusal::AlreadyPending));
    assert_eq!(book.submit(&Request::withdraw(1, 1)), accepted(0));
    assert_eq!(book.submit(&Request::withdraw(1, 1)), Verdict::Refused(Refusal::NoSuchRow));
    assert_eq!(book.submit(&Request::register(1, 2, sale(5, 1))), accepted(2));
}

#[test]
fn undo_restores_rows_and_guarantees() {
    let mut book = book(AMPLE);
    assert_eq!(book.submit(&Request::undo()), Verdict::Refused(Refusal::NoBatch));
    assert_eq!(book.submit(&Request::register(1, 2, sale(1, 10))), accepted(1));
    let before = book.clone();
    assert_eq!(book.submit(&Request::open_batch()), accepted(0));
    assert_eq!(book.submit(&Request::open_batch()), Verdict::Refused(Refusal::BatchOpen));
    assert_eq!(book.submit(&Request::guarantee(1, 2 * AMPLE)), accepted(0));
    assert_eq!(book.submit(&Request::confirm(2, 1, sale(1, 10).mirrored())), accepted(1));
    assert_eq!(book.submit(&Request::register(1, 2, sale(2, 10))), accepted(2));
    assert_eq!(book.submit(&Request::register(1, 2, sale(3, 10))), accepted(3));
    assert_eq!(book.net(1, 1), Ok(-10));
    assert_eq!(book.submit(&Request::close_gate()), Verdict::Refused(Refusal::BatchOpen));
    assert_eq!(book.submit(&Request::undo()), accepted(2));
    assert!(book == before);
}

#[test]
fn a_confirm_must_mirror() {
    let mut book = book(AMPLE);
    assert_eq!(book.submit(&Request::register(1, 2, sale(1, 10))), accepted(1));
    assert_eq!(book.submit(&Request::confirm(2, 1, sale(1, 10))), Verdict::Refused(Refusal::NotMirrored));
    assert_eq!(book.submit(&Request::confirm(2, 1, sale(1, 11).mirrored())), Verdict::Refused(Refusal::NotMirrored));
    assert_eq!(book.submit(&Request::confirm(1, 2, sale(1, 10).mirrored())), Verdict::Refused(Refusal::NoSuchRow));
    assert_eq!(book.submit(&Request::confirm(2, 1, sale(1, 10).mirrored())), accepted(1));
}

#[test]
fn rows_and_schedules_to_the_last() {
    let mut book = book(AMPLE);
    for number in 1..=256 {
        assert_eq!(book.submit(&Request::register(1, 2, sale(number.into(), 1))), accepted(number));
    }
    assert_eq!(book.submit(&Request::register(1, 2, sale(257, 1))), Verdict::Refused(Refusal::RowsFull));
    assert_eq!(book.submit(&Request::close_gate()), accepted(0));
    for place in 1..=256 {
        assert_eq!(book.submit(&Request::schedule(1, Side::Sells, 1, 1, 0)), accepted(place));
    }
    assert_eq!(book.submit(&Request::schedule(1, Side::Sells, 1, 1, 0)), Verdict::Refused(Refusal::SchedulesFull));
    let settlement = book.settle(&prices(0, 0)).unwrap();
    assert_eq!(settlement.results, [2; 256]);
    assert_eq!(settlement.balances, [0, 0]);
}

#[test]
fn a_zone_price_equal_to_the_schedules_registers() {
    for (zone, result) in [(3_000, 0), (2_999, 3)] {
        let mut book = book(AMPLE);
        assert_eq!(book.submit(&Request::register(1, 2, sale(1, 10))), accepted(1));
        assert_eq!(book.submit(&Request::confirm(2, 1, sale(1, 10).mirrored())), accepted(1));
        assert_eq!(book.submit(&Request::close_gate()), accepted(0));
        assert_eq!(book.submit(&Request::schedule(1, Side::Sells, 1, 10, 3_000)), accepted(1));
        assert_eq!(book.settle(&prices(6_000, zone)).unwrap().results, [result]);
    }
}

#[test]
fn set_ups_at_fault() {
    let mut no_hours = setup(AMPLE);
    no_hours.estimates.clear();
    assert_eq!(Book::open(&no_hours.to_bytes()), Err(Refusal::SetupShape));
    let mut many = setup(AMPLE);
    many.points = vec![many.points[0]; 300];
    assert_eq!(Book::open(&many.to_bytes()), Err(Refusal::SetupShape));
    let mut dear = setup(AMPLE);
    dear.estimates[2] = 400_001;
    assert_eq!(Book::open(&dear.to_bytes()), Err(Refusal::SetupValue { offset: 13 }));
}

#[test]
fn set_ups_with_margins_at_fault() {
    // 5 counts, 24 estimates, 2 operators; then an account of 2 + 2 × 96 bytes, and another.
    let accounts = 5 + 4 * 24 + 2 * 10;
    let opened = |change: fn(&mut Setup)| {
        let mut setup = setup(AMPLE);
        change(&mut setup);
        Book::open(&setup.to_bytes())
    };
    let fault = |offset| Err(Refusal::SetupValue { offset });
    assert_eq!(opened(|setup| setup.accounts[0].lower[0] = 10_000_001), fault(accounts + 2));
    assert_eq!(opened(|setup| setup.accounts[0].upper[0] = 10_000_001), fault(accounts + 2 + 96));
    assert_eq!(opened(|setup| setup.accounts[1].lower[23] = 10_000_001), fault(accounts + 194 + 2 + 92));
    assert_eq!(opened(|setup| setup.accounts[1].upper[23] = 10_000_001), fault(accounts + 2 * 194 - 4));
    assert!(opened(|setup| setup.accounts[1].upper[23] = 10_000_000).is_ok());

    // Other lists than one margin for each hour, also where the length of all is right.
    let shape = Err(Refusal::SetupShape);
    assert_eq!(opened(|setup| setup.accounts[0].lower.truncate(23)), shape);
    assert_eq!(opened(|setup| setup.accounts[1].upper.push(0)), shape);
    let moved = |setup: &mut Setup| {
        let last = setup.accounts[0].lower.pop();
        setup.accounts[0].upper.extend(last);
    };
    assert_eq!(opened(moved), shape);
    let pairs = |setup: &mut Setup| {
        for account in &mut setup.accounts {
            account.lower.truncate(1);
            account.upper.truncate(1);
        }
    };
    assert_eq!(opened(pairs), shape);
    // One pair for each account in the bytes of a day of 24 hours.
    let mut bytes = setup(AMPLE).to_bytes();
    bytes.drain(accounts as usize + 194..accounts as usize + 194 + 184);
    bytes.drain(accounts as usize..accounts as usize + 184);
    assert_eq!(Book::open(&bytes), shape);
}
