//! The boundary: buffers of every length, any bytes, unaligned books, threads. A refusal changes no byte that was lent.

mod common;

use common::{sale, setup, Numbers};
use energy_book::{raw, Book, Refusal, Request, Side, Strip, Terms, Verdict, BOOK_SIZE, FIELDS_SIZE, FIGURE_SIZE, RECORD_MOST};

const MARK: u8 = 0xA5;

fn opened() -> Vec<u8> {
    Book::open(&setup(1_000_000).to_bytes()).unwrap().as_bytes().to_vec()
}

/// A book with a confirmed and a pending row, in a batch.
fn traded() -> Book {
    let mut book = Book::open(&setup(1_000_000).to_bytes()).unwrap();
    for request in [
        Request::register(1, 2, sale(u64::MAX, 7)),
        Request::confirm(2, 1, sale(u64::MAX, 7).mirrored()),
        Request::open_batch(),
        Request::register(1, 2, sale(2, 9)),
    ] {
        book.submit(&request).ok().unwrap();
    }
    book
}

#[test]
fn books_of_every_length_near_the_right_one() {
    let bytes = setup(1).to_bytes();
    for length in [0, 1, BOOK_SIZE - 1, BOOK_SIZE + 1, 2 * BOOK_SIZE] {
        let mut book = vec![MARK; length];
        let mut figure = [MARK; FIGURE_SIZE];
        assert_eq!(raw::open(&bytes, &mut book), Verdict::Refused(Refusal::NotABook));
        assert_eq!(raw::call(&[1, 0, 5], &mut book, &[], &mut [], &mut []), Verdict::Refused(Refusal::NotABook));
        assert_eq!(raw::net(&book, 1, 1, &mut figure), Verdict::Refused(Refusal::NotABook));
        assert_eq!(raw::exposure(&book, 1, &mut figure), Verdict::Refused(Refusal::NotABook));
        assert_eq!(raw::hourly_exposure(&book, 1, 1, &mut figure), Verdict::Refused(Refusal::NotABook));
        assert!(!raw::is_book(&book));
        assert!(book.iter().chain(&figure).all(|byte| *byte == MARK));
    }
}

#[test]
fn opening_fills_the_whole_buffer() {
    let mut book = vec![MARK; BOOK_SIZE];
    assert_eq!(raw::open(&setup(1_000_000).to_bytes(), &mut book), Verdict::Accepted { number: 0 });
    assert!(book == opened());
}

#[test]
fn figures_into_buffers_of_every_length() {
    let book = traded();
    for length in 0..=2 * FIGURE_SIZE {
        let mut net = vec![MARK; length];
        let mut exposure = vec![MARK; length];
        let mut hourly = vec![MARK; length];
        let verdicts = [
            raw::net(book.as_bytes(), 1, 1, &mut net),
            raw::exposure(book.as_bytes(), 1, &mut exposure),
            raw::hourly_exposure(book.as_bytes(), 1, 1, &mut hourly),
        ];
        if length < FIGURE_SIZE {
            assert_eq!(verdicts, [Verdict::Refused(Refusal::BufferShort); 3]);
            assert!(net.iter().chain(&exposure).chain(&hourly).all(|byte| *byte == MARK));
        } else {
            assert_eq!(verdicts, [Verdict::Accepted { number: 0 }; 3]);
            assert_eq!(net[..FIGURE_SIZE], (-7i64).to_le_bytes());
            assert_eq!(exposure[..FIGURE_SIZE], (16 * 5_000u64).to_le_bytes());
            assert_eq!(hourly[..FIGURE_SIZE], (16 * 5_000u64).to_le_bytes());
            let rest = net[FIGURE_SIZE..].iter().chain(&exposure[FIGURE_SIZE..]).chain(&hourly[FIGURE_SIZE..]);
            assert!(rest.into_iter().all(|byte| *byte == MARK));
        }
    }
    // 1 and 6 come before 10.
    assert_eq!(raw::net(&[], 1, 1, &mut []), Verdict::Refused(Refusal::NotABook));
    assert_eq!(raw::exposure(book.as_bytes(), 3, &mut []), Verdict::Refused(Refusal::OutOfRange { bit: 9 }));
    assert_eq!(raw::hourly_exposure(&[], 3, 25, &mut []), Verdict::Refused(Refusal::NotABook));
    assert_eq!(raw::hourly_exposure(book.as_bytes(), 3, 25, &mut []), Verdict::Refused(Refusal::OutOfRange { bit: 5 }));
    assert_eq!(raw::hourly_exposure(book.as_bytes(), 3, 24, &mut []), Verdict::Refused(Refusal::OutOfRange { bit: 9 }));
}

#[test]
fn hourly_exposures_of_every_operator_and_hour() {
    // Operator 1 has a short net of 7 and a pending sale of 9, both in hour 1.
    let book = traded();
    for operator in 0..=255 {
        for hour in 0..=255 {
            let expected = match (operator, hour) {
                (_, 0 | 25..) => Err(Refusal::OutOfRange { bit: 5 }),
                (0 | 3.., _) => Err(Refusal::OutOfRange { bit: 9 }),
                (1, 1) => Ok(80_000),
                _ => Ok(0),
            };
            assert_eq!(book.hourly_exposure(operator, hour), expected, "operator {operator}, hour {hour}");
        }
    }
}

#[test]
fn records_and_fields_of_every_length() {
    let request = Request::register(1, 2, sale(0x0102_0304_0506_0708, 0x0A0B_0C0D));
    let record = request.to_record().unwrap();
    for length in 0..=2 * FIELDS_SIZE {
        let mut fields = vec![MARK; length];
        let read = raw::read(&record, &mut fields);
        let mut written = vec![MARK; length];
        let wrote = raw::write(&request.to_fields(), &mut written);
        let enough =
            |most: usize| if length < most { Verdict::Refused(Refusal::BufferShort) } else { Verdict::Accepted { number: 0 } };
        assert_eq!((read, wrote), (enough(FIELDS_SIZE), enough(RECORD_MOST)));
        let filled = |most: usize| if length < most { 0 } else { most };
        assert_eq!(fields[..filled(FIELDS_SIZE)], request.to_fields()[..filled(FIELDS_SIZE)]);
        assert_eq!(written[..filled(RECORD_MOST)], record[..filled(RECORD_MOST)]);
        let rest = fields[filled(FIELDS_SIZE)..].iter().chain(&written[filled(RECORD_MOST)..]);
        assert!(rest.into_iter().all(|byte| *byte == MARK));
        let mut buffer = [MARK; RECORD_MOST];
        let from = raw::write(&vec![1; length], &mut buffer);
        assert_eq!(from == Verdict::Refused(Refusal::WrongLength), length != FIELDS_SIZE);
    }
}

#[test]
fn requests_and_records_there_and_back() {
    let requests = [
        Request::register(1, 2, sale(u64::MAX, u32::MAX)),
        Request::confirm(255, 254, sale(1, 2).mirrored()),
        Request::withdraw(3, u16::MAX),
        Request::guarantee(4, u64::MAX),
        Request::open_batch(),
        Request::undo(),
        Request::keep(),
        Request::close_gate(),
        Request::schedule(5, Side::Buys, 6, 7, u32::MAX),
        Request::settle(),
        Request::ask(1, 2, sale(u64::MAX, u32::MAX)),
        Request::commit(255, 254, sale(1, 2).mirrored()),
    ];
    for request in requests {
        assert_eq!(Request::from_fields(&request.to_fields()), request);
        assert_eq!(Request::from_record(&request.to_record().unwrap()), Ok(request));
    }
    assert_eq!(Request::default().to_record(), Err(Refusal::UnknownKind));
    assert_eq!(Request::from_record(&[3, 0, 6]), Err(Refusal::WrongMap { missing: 0, unwanted: 1 }));
    assert_eq!(Request::from_record(&[1, 0, 1]), Err(Refusal::WrongMap { missing: 7, unwanted: 0 }));
}

/// A request with small numbers, so that many are accepted.
fn small_request(numbers: &mut Numbers) -> Request {
    let mut small = |n: u64| 1 + numbers.below(n) as u8;
    let (account, other, first) = (small(2), small(2), small(2));
    let side = if small(2) == 1 { Side::Sells } else { Side::Buys };
    let terms = Terms { code: small(2).into(), side, first, last: 2, quantity: small(2).into() };
    match small(18) {
        1..=4 => Request::register(account, other, terms),
        5..=8 => Request::confirm(account, other, terms),
        9 => Request::withdraw(account, small(8).into()),
        10 => Request::guarantee(account, u64::from(small(200)) * 10_000),
        11 => Request::open_batch(),
        12 => Request::undo(),
        13 => Request::keep(),
        14 => [Request::close_gate(), Request::open_batch()][usize::from(small(8) > 1)],
        15 => Request::schedule(1, side, first, small(2).into(), 0),
        16 => Request::settle(),
        17 => Request::ask(account, other, terms),
        _ => Request::commit(account, other, terms),
    }
}

/// A strip of a few such requests, most of them registers, of one proposer.
fn small_strip(numbers: &mut Numbers) -> Strip {
    let rows = 1 + numbers.below(3);
    let row = |code: u64| {
        let kind = if numbers.below(16) == 0 { small_request(numbers).kind } else { 1 };
        let side = if numbers.below(2) == 0 { Side::Sells } else { Side::Buys };
        let terms = Terms { code: code + 3 * numbers.below(4), side, first: 1, last: 2, quantity: 1 };
        Request { kind, ..Request::register(1, 2, terms) }
    };
    (0..rows).map(row).collect()
}

/// The record of a request or a strip, or one that is damaged: cut, longer, or with another byte.
fn some_record(numbers: &mut Numbers) -> Vec<u8> {
    let mut record = match numbers.below(12) {
        0 => small_strip(numbers).to_record(),
        _ => small_request(numbers).to_record().unwrap(),
    };
    let at = numbers.below(record.len() as u64) as usize;
    match numbers.below(16) {
        0 => record.truncate(at),
        1 => record.push(at as u8),
        2 => record[at] = numbers.below(256) as u8,
        _ => {}
    }
    record
}

#[test]
fn any_record_leaves_a_book_and_a_refusal_leaves_all() {
    let mut numbers = Numbers(88_172_645_463_325_252);
    let mut book = traded().as_bytes().to_vec();
    let mut accepted = [0; 14];
    let mut last = Vec::new();
    for _ in 0..20_000 {
        let mut record = some_record(&mut numbers);
        // What was asked last is committed, now and then.
        if last.get(2) == Some(&12) && numbers.below(2) == 0 {
            record = [&last[..2], &[13], &last[3..]].concat();
        }
        last = record.clone();
        let before = book.clone();
        let mut results = vec![MARK; numbers.below(300) as usize];
        let mut balances = vec![MARK; numbers.below(200) as usize];
        let verdict = raw::call(&record, &mut book, &[0; 192], &mut results, &mut balances);
        assert!(raw::is_book(&book), "{record:?}");
        match verdict {
            Verdict::Accepted { .. } => accepted[usize::from(record[2])] += 1,
            Verdict::Refused(_) => {
                assert!(book == before, "{record:?}");
                assert!(results.iter().chain(&balances).all(|byte| *byte == MARK), "{record:?}");
            }
        }
        // Days end, and others begin.
        if numbers.below(200) == 0 {
            book = traded().as_bytes().to_vec();
        }
    }
    assert!(accepted[1..].iter().all(|times| *times > 20), "accepted by kind: {accepted:?}");
}

#[test]
fn a_damaged_book_is_refused_or_still_a_book() {
    let mut numbers = Numbers(1_234_567);
    let whole = traded().as_bytes().to_vec();
    let mut refused = 0;
    for _ in 0..3_000 {
        let mut book = whole.clone();
        let within = if numbers.below(4) == 0 { BOOK_SIZE as u64 } else { 20_000 };
        let at = numbers.below(within) as usize;
        book[at] ^= 1 << numbers.below(8);
        let damaged = book.clone();
        let stands = raw::is_book(&book);
        let verdict = raw::call(&Request::undo().to_record().unwrap(), &mut book, &[], &mut [], &mut []);
        assert_eq!(stands, verdict != Verdict::Refused(Refusal::NotABook), "{at}");
        assert_eq!(stands, Book::from_bytes(&damaged).is_ok());
        assert!(stands || book == damaged);
        refused += u32::from(!stands);
    }
    assert!(refused > 2_000);
}

/// Where the asks begin, and the bytes of each.
const ASKS_AT: usize = 26_888;
const ASK: usize = 18;

#[test]
fn a_book_has_only_asks_that_would_be_registered() {
    // In hour 1 account 1 has sold 7 and proposed to sell 9 with code 2; it asks for 20 more.
    let mut book = traded();
    assert_eq!(book.submit(&Request::ask(1, 2, sale(3, 20))), Verdict::Accepted { number: 3 });
    let whole = book.as_bytes().to_vec();
    assert_eq!(whole[ASKS_AT..ASKS_AT + ASK], [1, 2, 3, 0, 0, 0, 0, 0, 0, 0, 1, 1, 1, 20, 0, 0, 0, 1]);
    assert!(whole[ASKS_AT + ASK..].iter().all(|byte| *byte == 0));
    let stands_with = |at: usize, put: &[u8]| {
        let mut book = whole.clone();
        book[ASKS_AT + at..ASKS_AT + at + put.len()].copy_from_slice(put);
        raw::is_book(&book)
    };
    assert!(stands_with(0, &[0; ASK]));
    // Another code, other hours, and as many kWh as the margin leaves.
    assert!(stands_with(2, &[9]) && stands_with(11, &[24, 24]) && stands_with(13, &19_984u32.to_le_bytes()));
    let faults: [(usize, &[u8]); 17] = [
        (0, &[0]),
        (0, &[2]),
        (0, &[2, 1]),
        (0, &[3]),
        (1, &[0]),
        (1, &[1]),
        (1, &[3]),
        (2, &[2]),
        (10, &[0]),
        (10, &[2]),
        (11, &[2]),
        (12, &[25]),
        (13, &[0]),
        (13, &[0x11, 0x4E]),
        (17, &[0]),
        (17, &[2]),
        (17, &[3]),
    ];
    for (at, put) in faults {
        assert!(!stands_with(at, put), "{put:?} at {at}");
    }
    // The same in another place, and anything in a place that no account has.
    let row: Vec<u8> = whole[ASKS_AT..ASKS_AT + ASK].to_vec();
    assert!((1..32).all(|place| !stands_with(ASK * place, &row)));
    assert!((ASK..BOOK_SIZE - ASKS_AT).step_by(7).all(|at| !stands_with(at, &[1])));
}

/// Where the first lower margins of accounts 1 and 2 begin, after 5 counts, 24 estimates and 2 operators; the upper ones are 96 bytes on.
const LOWER_AT: [usize; 2] = [5 + 4 * 24 + 2 * 10 + 2, 5 + 4 * 24 + 2 * 10 + 2 + 194];

#[test]
fn a_book_keeps_the_margins_of_each_hour() {
    // In hour 1 account 1 has sold 7 and proposed to sell 9, account 2 has bought 7.
    let whole = traded().as_bytes().to_vec();
    let stands_with = |at: usize, margin: u32| {
        let mut book = whole.clone();
        book[at..at + 4].copy_from_slice(&margin.to_le_bytes());
        raw::is_book(&book)
    };
    for (at, needed) in [(LOWER_AT[0], 16), (LOWER_AT[1] + 96, 7)] {
        assert!(stands_with(at, needed));
        assert!(!stands_with(at, needed - 1));
        assert!(stands_with(at, 10_000_000));
        assert!(!stands_with(at, 10_000_001));
    }
    // No other margin is needed, but each has its range.
    let lists = LOWER_AT.iter().flat_map(|&at| [at, at + 96]);
    let needed = [LOWER_AT[0], LOWER_AT[1] + 96];
    for at in lists.flat_map(|list| (0..24).map(move |hour| list + 4 * hour)).filter(|at| !needed.contains(at)) {
        assert!(stands_with(at, 0), "{at}");
        assert!(!stands_with(at, 10_000_001), "{at}");
    }
}

#[test]
fn a_book_at_any_address() {
    let whole = traded();
    let mut room = vec![MARK; BOOK_SIZE + 16];
    for at in 0..16 {
        room[at..at + BOOK_SIZE].copy_from_slice(whole.as_bytes());
        let book = &mut room[at..at + BOOK_SIZE];
        assert!(raw::is_book(book));
        assert_eq!(raw::call(&[1, 0, 6], book, &[], &mut [], &mut []), Verdict::Accepted { number: 1 });
    }
}

#[test]
fn readings_from_several_threads() {
    let book = traded();
    std::thread::scope(|scope| {
        for _ in 0..4 {
            scope.spawn(|| {
                for _ in 0..200 {
                    assert_eq!((book.net(1, 1), book.net(2, 1), book.exposure(1)), (Ok(-7), Ok(7), Ok(80_000)));
                    assert_eq!((book.hourly_exposure(1, 1), book.hourly_exposure(1, 2)), (Ok(80_000), Ok(0)));
                }
            });
        }
    });
    let moved = std::thread::spawn(move || {
        let mut book = book;
        book.submit(&Request::undo()).ok()
    });
    assert_eq!(moved.join().unwrap(), Ok(1));
}
