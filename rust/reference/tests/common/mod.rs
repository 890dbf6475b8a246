//! What the tests share: the day of the whole case, and short ways to call.
#![allow(dead_code)]

use reference::*;

/// A book, and what it last settled.
pub struct Day {
    pub book: Book,
    pub results: Vec<u8>,
    pub balances: Vec<i64>,
}

impl Day {
    pub fn open(setup: &Setup) -> Self {
        Self {
            book: Book::open(&setup.to_bytes()).expect("a good set-up"),
            results: Vec::new(),
            balances: Vec::new(),
        }
    }

    pub fn call(&mut self, request: Request) -> Verdict {
        self.book.call(&record(&request), &[], &mut [], &mut [])
    }

    pub fn simple(&mut self, kind: u8) -> Verdict {
        self.call(simple(kind))
    }

    pub fn strip(&mut self, rows: &[Request]) -> Verdict {
        self.record(&strip_record(rows))
    }

    /// Hands any bytes over; a refusal is to change nothing.
    pub fn record(&mut self, record: &[u8]) -> Verdict {
        let before = self.book.clone();
        let verdict = self.book.call(record, &[], &mut [], &mut []);
        assert!(verdict.is_accepted() || self.book == before);
        verdict
    }

    /// Registers a trade that `other` then confirms.
    pub fn trade(&mut self, request: Request) {
        assert!(self.call(request).is_accepted());
        assert!(self.call(mirror(request)).is_accepted());
    }

    /// Settles with buffers that just suffice.
    pub fn settle(&mut self, prices: &[u8]) -> Verdict {
        let mut results = vec![9; self.book.schedules().len()];
        let mut balances = vec![9; 8 * self.book.setup().operators.len()];
        let settle = record(&simple(kind::SETTLE));
        let verdict = self.book.call(&settle, prices, &mut results, &mut balances);
        self.results = results;
        self.balances = balances
            .chunks_exact(8)
            .map(|bytes| i64::from_le_bytes(bytes.try_into().unwrap()))
            .collect();
        verdict
    }
}

/// The set-up of the whole case.
pub fn whole_case() -> Setup {
    Setup {
        zones: 1,
        estimates: vec![5_000; 24],
        operators: vec![operator(100_000, 100), operator(0, 0)],
        accounts: vec![
            account(1, Direction::Injection, 20_000, 0),
            account(2, Direction::Withdrawal, 0, 20_000),
        ],
        points: vec![point(1, PointKind::Injection, 15_000, 0)],
    }
}

/// The same with a guarantee that never binds.
pub fn ample() -> Setup {
    let mut setup = whole_case();
    setup.operators[0].guarantee = GREATEST_GUARANTEE;
    setup.operators[1].guarantee = GREATEST_GUARANTEE;
    setup
}

/// Ample, and with wide margins on both sides of both accounts.
pub fn wide() -> Setup {
    let mut setup = ample();
    for account in &mut setup.accounts {
        account.lower_margins.fill(GREATEST_QUANTITY);
        account.upper_margins.fill(GREATEST_QUANTITY);
    }
    setup
}

/// The set-up of the whole case for a day of so many hours.
pub fn whole_case_of(hours: usize) -> Setup {
    let mut setup = whole_case();
    setup.estimates.resize(hours, 5_000);
    for account in &mut setup.accounts {
        let (lower, upper) = (account.lower_margins[0], account.upper_margins[0]);
        account.lower_margins.resize(hours, lower);
        account.upper_margins.resize(hours, upper);
    }
    setup
}

pub fn operator(guarantee: u64, maintenance: u16) -> Operator {
    Operator {
        guarantee,
        maintenance,
    }
}

/// An account with the same margins in each of 24 hours.
pub fn account(operator: u8, kind: Direction, lower: u32, upper: u32) -> Account {
    Account {
        operator,
        kind,
        lower_margins: vec![lower; 24],
        upper_margins: vec![upper; 24],
    }
}

/// A point in zone 1.
pub fn point(account: u8, kind: PointKind, injection: u32, withdrawal: u32) -> Point {
    Point {
        account,
        kind,
        zone: 1,
        greatest_injection: injection,
        greatest_withdrawal: withdrawal,
    }
}

pub fn simple(kind: u8) -> Request {
    Request {
        kind,
        ..Request::default()
    }
}

/// Account 1 sells to account 2 in hour 1, code zeros.
pub fn sell(quantity: u32) -> Request {
    Request {
        kind: kind::REGISTER,
        account: 1,
        other: 2,
        side: 1,
        first: 1,
        last: 1,
        quantity,
        ..Request::default()
    }
}

/// Account 1 buys from account 2 in hour 1, code zeros.
pub fn buy(quantity: u32) -> Request {
    Request {
        side: 2,
        ..sell(quantity)
    }
}

/// The confirmation of a request to register.
pub fn mirror(request: Request) -> Request {
    Request {
        kind: kind::CONFIRM,
        account: request.other,
        other: request.account,
        side: 3 - request.side,
        ..request
    }
}

/// The ask for what a request would register.
pub fn ask(request: Request) -> Request {
    Request {
        kind: kind::ASK,
        ..request
    }
}

/// The commit of what a request would register.
pub fn commit(request: Request) -> Request {
    Request {
        kind: kind::COMMIT,
        ..request
    }
}

pub fn withdraw(account: u8, number: u16) -> Request {
    Request {
        account,
        number,
        ..simple(kind::WITHDRAW)
    }
}

pub fn guarantee(operator: u8, guarantee: u64) -> Request {
    Request {
        operator,
        guarantee,
        ..simple(kind::GUARANTEE)
    }
}

/// A schedule in hour 1.
pub fn schedule(side: u8, point: u8, quantity: u32, price: u32) -> Request {
    Request {
        side,
        first: 1,
        quantity,
        point,
        price,
        ..simple(kind::SCHEDULE)
    }
}

pub fn record(request: &Request) -> Vec<u8> {
    let mut buffer = [0; 20];
    assert!(write(request, &mut buffer).is_accepted());
    let (_, length) = layout(request.kind).unwrap();
    buffer[..length].to_vec()
}

/// A price table for one zone: the prices of hour 1, zeros for the rest.
pub fn hour_1(hours: usize, national: u32, zonal: u32) -> Vec<u8> {
    let mut table = vec![0; 8 * hours];
    table[..4].copy_from_slice(&national.to_le_bytes());
    table[4 * hours..4 * hours + 4].copy_from_slice(&zonal.to_le_bytes());
    table
}

pub fn stream(items: &[Vec<u8>]) -> Vec<u8> {
    let mut stream = Vec::new();
    for item in items {
        stream.extend((item.len() as u16).to_le_bytes());
        stream.extend(item);
    }
    stream
}

pub const fn accepted(first: u16) -> Verdict {
    Verdict::accepted(first)
}

pub const fn refused(number: u8) -> Verdict {
    Verdict::refused(number)
}

pub const fn with(number: u8, first: u16, second: u16) -> Verdict {
    Verdict::refused_with(number, first, second)
}
