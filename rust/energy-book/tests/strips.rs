//! Strips: all rows or none, and what refuses them.

mod common;

use common::{sale, setup};
use energy_book::{raw, Book, Refusal, Request, Side, Strip, Terms, Verdict, STRIP_MOST, STRIP_ROWS_MOST};

const AMPLE: u64 = 1_000_000;

fn book(guarantee: u64) -> Book {
    Book::open(&setup(guarantee).to_bytes()).unwrap()
}

fn accepted(number: u16) -> Verdict {
    Verdict::Accepted { number }
}

/// Sales of so many kWh in the hours from 1 on, a row for each.
fn strip(quantities: &[u32]) -> Strip {
    let row = |(hour, &quantity): (u8, &u32)| {
        Request::register(1, 2, Terms { code: hour.into(), side: Side::Sells, first: hour, last: hour, quantity })
    };
    (1..).zip(quantities).map(row).collect()
}

#[test]
fn a_strip_is_its_registers_in_turn() {
    let whole = strip(&[1; STRIP_ROWS_MOST]);
    let (mut book, mut in_turn) = (book(AMPLE), book(AMPLE));
    assert_eq!(book.submit_strip(&whole), accepted(1));
    for (row, number) in whole.rows().iter().zip(1..) {
        assert_eq!(in_turn.submit(row), accepted(number));
    }
    assert!(book == in_turn);
    assert_eq!(book.exposure(1), Ok(24 * 5_000));
    assert_eq!(book.submit(&Request::register(1, 2, sale(99, 1))), accepted(25));
}

#[test]
fn a_strip_of_one_row_answers_as_its_register() {
    for guarantee in [AMPLE, 1_000] {
        for register in [sale(0, 1), sale(7, 1), sale(0, 0), sale(0, 20_001)].map(|terms| Request::register(1, 2, terms)) {
            let mut alone = book(guarantee);
            assert_eq!(alone.submit(&Request::register(1, 2, sale(7, 100))), accepted(1));
            let mut in_strip = alone.clone();
            assert_eq!(in_strip.submit_strip(&Strip::new().with(register)), alone.submit(&register));
            assert!(alone == in_strip);
        }
    }
}

/// The answer of a book with a pending row of code 7; a refusal leaves it as it was.
fn refusal(guarantee: u64, strip: &Strip) -> Option<Refusal> {
    let mut book = book(guarantee);
    assert_eq!(book.submit(&Request::register(1, 2, sale(7, 1))), accepted(1));
    let before = book.clone();
    let refused = book.submit_strip(strip).ok().err();
    assert!(refused.is_none() || book == before);
    refused
}

#[test]
fn what_refuses_a_strip() {
    let whole = strip(&[1; 6]);
    let register = |terms| Request::register(1, 2, terms);
    let terms = Terms { first: 9, last: 9, ..sale(9, 1) };
    let refusal_with = |row: Request| refusal(AMPLE, &whole.clone().with(row));
    assert_eq!(refusal(AMPLE, &whole), None);
    assert_eq!(refusal_with(Request::confirm(1, 2, terms)), Some(Refusal::UnknownKind));
    assert_eq!(refusal_with(Request::withdraw(1, 1)), Some(Refusal::UnknownKind));
    assert_eq!(refusal_with(Request::ask(1, 2, terms)), Some(Refusal::UnknownKind));
    assert_eq!(refusal_with(Request::commit(1, 2, terms)), Some(Refusal::UnknownKind));
    assert_eq!(refusal_with(Request::register(2, 1, terms)), Some(Refusal::OutOfRange { bit: 1 }));
    assert_eq!(refusal_with(register(Terms { last: 25, quantity: 0, ..terms })), Some(Refusal::OutOfRange { bit: 6 }));
    assert_eq!(refusal_with(Request::register(1, 1, terms)), Some(Refusal::SameAccount));
    assert_eq!(refusal_with(register(Terms { code: 7, ..terms })), Some(Refusal::AlreadyPending));
    assert_eq!(refusal_with(register(Terms { code: 3, ..terms })), Some(Refusal::StripTwins));
    assert_eq!(refusal_with(register(Terms { quantity: 20_001, ..terms })), Some(Refusal::MarginBroken { hour: 9 }));
    // The lowest hour, though a later row breaks it; and rows that break it together.
    let mut late = strip(&[1, 1, 1, 20_001]);
    late.push(register(Terms { first: 3, last: 3, ..sale(9, 20_000) }));
    assert_eq!(refusal(AMPLE, &late), Some(Refusal::MarginBroken { hour: 3 }));
    // 900 kWh are covered, of which one is pending.
    assert_eq!(refusal(5_000, &strip(&[400, 499])), None);
    assert_eq!(refusal(5_000, &strip(&[400, 500])), Some(Refusal::Uncovered));
}

#[test]
fn counts_and_lengths() {
    assert_eq!(strip(&[1; 24]).to_record().len(), STRIP_MOST);
    assert_eq!(Strip::new().to_record(), [1, 0, 11, 0]);
    for count in [0, 25, 26, 255, 256, 300] {
        let many: Strip = (0..count).map(|code| Request::register(1, 2, sale(code, 1))).collect();
        assert_eq!(refusal(AMPLE, &many), Some(Refusal::StripCount), "{count} rows");
    }
    let whole = strip(&[1; 24]).to_record();
    let mut book = book(AMPLE);
    for length in (0..whole.len()).chain(whole.len() + 1..whole.len() + 30) {
        let mut record = whole.clone();
        record.resize(length, 0);
        let expected = if length < 3 { Refusal::Unreadable } else { Refusal::WrongLength };
        assert_eq!(book.call(&record, &[], &mut [], &mut []), Verdict::Refused(expected));
    }
    assert_eq!(book.call(&[1, 0, 14], &[], &mut [], &mut []), Verdict::Refused(Refusal::UnknownKind));
    assert_eq!(book.call(&whole, &[], &mut [], &mut []), accepted(1));
}

#[test]
fn reader_and_writer_take_single_records() {
    let whole = strip(&[1; 2]).to_record();
    assert_eq!(Request::from_record(&whole), Err(Refusal::UnknownKind));
    let request = Request { kind: 11, ..Request::default() };
    assert_eq!(request.to_record(), Err(Refusal::UnknownKind));
    assert_eq!(raw::write(&request.to_fields(), &mut [0; STRIP_MOST]), Verdict::Refused(Refusal::UnknownKind));
    assert_eq!(book(AMPLE).submit(&request), Verdict::Refused(Refusal::UnknownKind));
    // The rows of a strip are records by themselves.
    for (row, bytes) in strip(&[1; 2]).rows().iter().zip(whole[4..].chunks(20)) {
        assert_eq!(row.to_record().unwrap(), bytes);
    }
}

#[test]
fn to_the_last_row() {
    let mut book = book(AMPLE);
    for number in 1..=232 {
        assert_eq!(book.submit(&Request::register(1, 2, sale(1_000 + u64::from(number), 1))), accepted(number));
    }
    let mut full = book.clone();
    assert_eq!(full.submit_strip(&strip(&[1; 24])), accepted(233));
    assert_eq!(full.submit_strip(&Strip::new().with(Request::register(1, 2, sale(99, 1)))), Verdict::Refused(Refusal::RowsFull));
    assert_eq!(book.submit(&Request::register(1, 2, sale(99, 1))), accepted(233));
    assert_eq!(book.submit_strip(&strip(&[1; 24])), Verdict::Refused(Refusal::RowsFull));
    assert_eq!(book.submit_strip(&strip(&[1; 23])), accepted(234));
}

#[test]
fn undo_counts_the_rows_of_a_strip() {
    let mut book = book(AMPLE);
    let before = book.clone();
    assert_eq!(book.submit(&Request::open_batch()), accepted(0));
    assert_eq!(book.submit_strip(&strip(&[1; 24])), accepted(1));
    assert_eq!(book.submit(&Request::confirm(2, 1, sale(1, 1).mirrored())), accepted(1));
    assert_eq!(book.submit(&Request::withdraw(1, 24)), accepted(0));
    assert_eq!(book.submit(&Request::undo()), accepted(24));
    assert!(book == before);
    assert_eq!(book.submit(&Request::close_gate()), accepted(0));
    assert_eq!(book.submit_strip(&strip(&[1; 24])), Verdict::Refused(Refusal::WrongPhase));
}
