//! Asks and commits: what they answer, what clears an ask, and what refuses a commit.

mod common;

use common::{sale, setup};
use energy_book::{Account, Book, Refusal, Request, Setup, Side, Strip, Terms, Verdict};

const AMPLE: u64 = 1_000_000;
const NO_ASK: Verdict = Verdict::Refused(Refusal::NoStandingAsk);

/// The paper's set-up with a third account, of operator 1, which may sell as account 1.
fn three(guarantee: u64) -> Setup {
    let mut setup = setup(guarantee);
    setup.accounts.push(Account::same_all_day(1, 1, 20_000, 0, 24));
    setup
}

fn book(guarantee: u64) -> Book {
    Book::open(&three(guarantee).to_bytes()).unwrap()
}

fn accepted(number: u16) -> Verdict {
    Verdict::Accepted { number }
}

#[test]
fn a_commit_gets_the_number_of_its_ask() {
    let mut book = book(AMPLE);
    assert_eq!(book.submit(&Request::register(1, 2, sale(7, 1))), accepted(1));
    let mut registered = book.clone();
    assert_eq!(book.submit(&Request::ask(1, 2, sale(8, 5))), accepted(2));
    assert_eq!((book.net(1, 1), book.exposure(1)), (Ok(0), Ok(5_000)));
    assert_eq!(book.submit(&Request::commit(1, 2, sale(8, 5))), accepted(2));
    assert_eq!(registered.submit(&Request::register(1, 2, sale(8, 5))), accepted(2));
    assert!(book == registered);
    assert_eq!(book.submit(&Request::commit(1, 2, sale(8, 5))), NO_ASK);
    assert_eq!(book.submit(&Request::confirm(2, 1, sale(8, 5).mirrored())), accepted(2));
}

#[test]
fn an_ask_answers_as_its_register() {
    for guarantee in [AMPLE, 1_000] {
        let mut asking = book(guarantee);
        assert_eq!(asking.submit(&Request::register(1, 2, sale(7, 1))), accepted(1));
        let long = Terms { first: 3, last: 9, ..sale(0, 20_001) };
        for terms in [sale(0, 1), sale(7, 1), sale(0, 0), sale(0, 20_000), long, Terms { side: Side::Buys, ..sale(0, 1) }] {
            for other in [1, 2, 3, 4] {
                let before = asking.clone();
                let answer = before.clone().submit(&Request::register(1, other, terms));
                assert_eq!(asking.submit(&Request::ask(1, other, terms)), answer);
                assert!(answer.ok().is_ok() || asking == before);
            }
        }
        assert_eq!(asking.submit(&Request::close_gate()), accepted(0));
        assert_eq!(asking.submit(&Request::ask(1, 2, sale(0, 1))), Verdict::Refused(Refusal::WrongPhase));
        assert_eq!(asking.submit(&Request::commit(1, 2, sale(0, 1))), Verdict::Refused(Refusal::WrongPhase));
    }
}

#[test]
fn a_later_ask_of_the_account_takes_the_place() {
    let mut book = book(AMPLE);
    let (first, second) = (sale(1, 10), sale(2, 20));
    assert_eq!(book.submit(&Request::ask(1, 2, first)), accepted(1));
    assert_eq!(book.submit(&Request::ask(1, 2, second)), accepted(1));
    assert_eq!(book.submit(&Request::commit(1, 2, first)), NO_ASK);
    // A refused one does not.
    assert_eq!(book.submit(&Request::ask(1, 2, sale(3, 20_001))), Verdict::Refused(Refusal::MarginBroken { hour: 1 }));
    assert_eq!(book.submit(&Request::commit(1, 2, second)), accepted(1));
}

#[test]
fn every_field_of_the_ask_is_wanted() {
    let terms = Terms { code: 1, side: Side::Sells, first: 3, last: 5, quantity: 10 };
    let mut book = book(AMPLE);
    assert_eq!(book.submit(&Request::ask(1, 2, terms)), accepted(1));
    for other in [
        Request::commit(3, 2, terms),
        Request::commit(1, 3, terms),
        Request::commit(1, 2, Terms { code: 1 << 63, ..terms }),
        Request::commit(1, 2, terms.mirrored()),
        Request::commit(1, 2, Terms { first: 4, ..terms }),
        Request::commit(1, 2, Terms { last: 6, ..terms }),
        Request::commit(1, 2, Terms { quantity: 11, ..terms }),
    ] {
        assert_eq!(book.submit(&other), NO_ASK);
    }
    assert_eq!(book.submit(&Request::commit(1, 2, terms)), accepted(1));
}

/// A book with a pending row of code 7, and asks of accounts 1 and 3.
fn asked() -> Book {
    let mut book = book(AMPLE);
    assert_eq!(book.submit(&Request::register(1, 2, sale(7, 1))), accepted(1));
    assert_eq!(book.submit(&Request::ask(1, 2, sale(1, 5))), accepted(2));
    assert_eq!(book.submit(&Request::ask(3, 2, sale(1, 5))), accepted(2));
    book
}

#[test]
fn accepted_calls_but_asks_clear_and_refused_ones_do_not() {
    let requests = [
        Request::register(1, 2, sale(9, 1)),
        Request::confirm(2, 1, sale(7, 1).mirrored()),
        Request::withdraw(1, 1),
        Request::guarantee(1, AMPLE),
        Request::open_batch(),
        Request::commit(3, 2, sale(1, 5)),
    ];
    for request in requests {
        let mut book = asked();
        let _ = book.submit(&request).ok().unwrap();
        assert_eq!(book.submit(&Request::commit(1, 2, sale(1, 5))), NO_ASK, "{request:?}");
    }
    let mut book = asked();
    assert_eq!(book.submit_strip(&Strip::new().with(Request::register(1, 2, sale(9, 1)))), accepted(2));
    assert_eq!(book.submit(&Request::commit(1, 2, sale(1, 5))), NO_ASK);

    let mut book = asked();
    let before = book.clone();
    for request in [
        Request::register(1, 2, sale(7, 1)),
        Request::confirm(2, 1, sale(9, 1).mirrored()),
        Request::withdraw(3, 1),
        Request::guarantee(1, 0),
        Request::undo(),
        Request::keep(),
        Request::schedule(1, Side::Sells, 1, 1, 1),
        Request::settle(),
        Request::ask(1, 2, sale(7, 1)),
        Request::commit(1, 2, sale(1, 4)),
    ] {
        assert!(book.submit(&request).ok().is_err());
        assert!(book == before, "{request:?}");
    }
    assert_eq!(book.submit(&Request::commit(1, 2, sale(1, 5))), accepted(2));
    assert_eq!(book.submit(&Request::commit(3, 2, sale(1, 5))), NO_ASK);
}

#[test]
fn a_batch_clears_as_it_opens_and_as_it_ends() {
    for end in [Request::undo(), Request::keep()] {
        let mut book = asked();
        assert_eq!(book.submit(&Request::open_batch()), accepted(0));
        assert_eq!(book.submit(&Request::commit(1, 2, sale(1, 5))), NO_ASK);
        assert_eq!(book.submit(&Request::ask(1, 2, sale(1, 5))), accepted(2));
        assert_eq!(book.submit(&end), accepted(0));
        assert_eq!(book.submit(&Request::commit(1, 2, sale(1, 5))), NO_ASK);
    }
}

#[test]
fn a_book_with_asks_is_stored_and_taken_back() {
    let mut book = Book::from_bytes(asked().as_bytes()).unwrap();
    assert!(book == asked());
    assert_eq!(book.submit(&Request::commit(3, 2, sale(1, 5))), accepted(2));
}
