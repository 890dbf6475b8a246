//! Set-ups, requests and calls, made from what they say.

use reference::days::Step;
use reference::*;

/// The largest set-up: every count, margin and guarantee the greatest; two points for each account, one of them mixed.
pub fn largest_setup() -> Setup {
    let kind = |account: u8| match account % 2 {
        1 => Direction::Injection,
        _ => Direction::Withdrawal,
    };
    let point = |number: u8| {
        let account = number % 32 + 1;
        let point_kind = match (number < 32, account % 2) {
            (false, _) => PointKind::Mixed,
            (true, 1) => PointKind::Injection,
            (true, _) => PointKind::Withdrawal,
        };
        let most = |allowed: bool| if allowed { GREATEST_QUANTITY } else { 0 };
        Point {
            account,
            kind: point_kind,
            zone: number % 8 + 1,
            greatest_injection: most(point_kind != PointKind::Withdrawal),
            greatest_withdrawal: most(point_kind != PointKind::Injection),
        }
    };
    Setup {
        zones: 8,
        estimates: vec![GREATEST_PRICE; 25],
        operators: vec![Operator { guarantee: GREATEST_GUARANTEE, maintenance: 0 }; 16],
        accounts: (1..=32)
            .map(|account| Account {
                operator: (account - 1) % 16 + 1,
                kind: kind(account),
                lower_margins: vec![GREATEST_QUANTITY; 25],
                upper_margins: vec![GREATEST_QUANTITY; 25],
            })
            .collect(),
        points: (0..64).map(point).collect(),
    }
}

/// Which of the two lists of an account's margins.
#[derive(Clone, Copy, Debug, PartialEq, Eq)]
pub enum Margin {
    Lower,
    Upper,
}

/// The margin of an account in an hour.
pub fn margin(setup: &mut Setup, which: Margin, account: u8, hour: u8) -> &mut u32 {
    let account = &mut setup.accounts[usize::from(account) - 1];
    let margins = match which {
        Margin::Lower => &mut account.lower_margins,
        Margin::Upper => &mut account.upper_margins,
    };
    &mut margins[usize::from(hour) - 1]
}

/// Where the margin of an account in an hour begins in the bytes of a set-up, and of a book.
pub fn margin_at(setup: &Setup, which: Margin, account: u8, hour: u8) -> usize {
    let hours = setup.estimates.len();
    let entry = 5 + 4 * hours + 10 * setup.operators.len() + (2 + 8 * hours) * (usize::from(account) - 1);
    let list = match which {
        Margin::Lower => entry + 2,
        Margin::Upper => entry + 2 + 4 * hours,
    };
    list + 4 * (usize::from(hour) - 1)
}

/// A request to register; `side` 1 sells, 2 buys.
pub fn trade(account: u8, other: u8, side: u8, hours: (u8, u8), quantity: u32, code: u64) -> Request {
    Request { kind: kind::REGISTER, account, other, code, side, first: hours.0, last: hours.1, quantity, ..Request::default() }
}

/// The confirmation of a request to register.
pub fn mirror(request: &Request) -> Request {
    Request { kind: kind::CONFIRM, account: request.other, other: request.account, side: 3 - request.side, ..*request }
}

/// The ask for what a request would register.
pub fn ask(request: &Request) -> Request {
    Request { kind: kind::ASK, ..*request }
}

/// The commit of what a request would register.
pub fn commit(request: &Request) -> Request {
    Request { kind: kind::COMMIT, ..*request }
}

/// A request that is its kind only.
pub fn simple(kind: u8) -> Request {
    Request { kind, ..Request::default() }
}

/// A request to withdraw.
pub fn withdrawal(account: u8, number: u16) -> Request {
    Request { account, number, ..simple(kind::WITHDRAW) }
}

/// A request to replace a guarantee.
pub fn guarantee(operator: u8, guarantee: u64) -> Request {
    Request { operator, guarantee, ..simple(kind::GUARANTEE) }
}

/// A schedule; `side` 1 injects, 2 withdraws.
pub fn schedule(side: u8, point: u8, hour: u8, quantity: u32, price: u32) -> Request {
    Request { side, point, first: hour, quantity, price, ..simple(kind::SCHEDULE) }
}

/// The call of a request, lent nothing.
pub fn call(request: &Request) -> Step {
    lent(request, Vec::new(), 0, 0)
}

/// The call of a strip of these rows, lent nothing.
pub fn strip(rows: &[Request]) -> Step {
    of_record(strip_record(rows))
}

/// The call of any record, lent nothing.
pub fn of_record(record: Vec<u8>) -> Step {
    Step { record, prices: Vec::new(), results: 0, balances: 0 }
}

/// A settle, lent buffers of the greatest length.
pub fn settle(prices: Vec<u8>) -> Step {
    lent(&simple(kind::SETTLE), prices, 256, 128)
}

/// The call of a request, lent a price table and two buffers of these lengths.
pub fn lent(request: &Request, prices: Vec<u8>, results: usize, balances: usize) -> Step {
    let mut record = vec![0; layout(request.kind).map_or(0, |(_, length)| length)];
    write(request, &mut record);
    Step { record, prices, results, balances }
}

/// A price table: PUN and every zone's price, the same in all hours.
pub fn prices(setup: &Setup, national: u32, zonal: u32) -> Vec<u8> {
    price_table(setup, |zone, _| if zone == 0 { national } else { zonal })
}

/// A price table: the price of each zone in each hour, PUN as that of zone 0.
pub fn price_table(setup: &Setup, price: impl Fn(u8, u8) -> u32) -> Vec<u8> {
    let mut table = Vec::with_capacity(setup.price_table_length());
    for zone in 0..=setup.zones {
        for hour in 1..=setup.hours() {
            table.extend(price(zone, hour).to_le_bytes());
        }
    }
    table
}

/// The rows of a full book: 256 over all hours, in turns sales and purchases of 32 accounts.
pub fn rows(count: u16) -> Vec<Request> {
    let row = |number: u16| {
        let account = (number % 32) as u8;
        let other = (account + 1 + (number / 32) as u8) % 32;
        trade(account + 1, other + 1, (number / 32 % 2) as u8 + 1, (1, 25), 100, number.into())
    };
    (0..count).map(row).collect()
}
