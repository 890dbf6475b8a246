//! Exposure by hour: what an operator's accounts expose in one hour, and that
//! its hours total its exposure.

mod common;
use common::*;
use reference::days::day;
use reference::*;

/// Three operators, of which 1 has accounts 1 and 3, 2 has accounts 2 and 4 and
/// 3 has none. The estimate is 10 in hour 1, 20 in hour 2 and so on, but 0 in
/// hour 4.
fn four_accounts() -> Setup {
    let mut setup = ample();
    setup.estimates = (1..=24).map(|hour| 10 * hour).collect();
    setup.estimates[3] = 0;
    setup.operators = vec![
        operator(GREATEST_GUARANTEE, 0),
        operator(GREATEST_GUARANTEE, 300),
        operator(0, 0),
    ];
    setup.accounts = [1, 2, 1, 2]
        .map(|operator| account(operator, Direction::Injection, 1_000, 1_000))
        .to_vec();
    setup
}

/// An account sells to another over some hours.
fn sale(account: u8, other: u8, hours: (u8, u8), quantity: u32) -> Request {
    Request {
        account,
        other,
        first: hours.0,
        last: hours.1,
        ..sell(quantity)
    }
}

/// An account buys from another over some hours.
fn purchase(account: u8, other: u8, hours: (u8, u8), quantity: u32) -> Request {
    Request {
        side: 2,
        ..sale(account, other, hours, quantity)
    }
}

/// The request with another code.
fn coded(code: u64, request: Request) -> Request {
    Request { code, ..request }
}

/// The exposures of an operator in the hours that have any, hour by hour. All
/// hours total its exposure.
fn columns(book: &Book, operator: u8) -> Vec<(u8, u64)> {
    let hours = 1..=book.setup().hours();
    let read = |hour| (hour, book.hourly_exposure(operator, hour).unwrap());
    let columns: Vec<(u8, u64)> = hours.map(read).collect();
    let total = columns.iter().map(|&(_, money)| money).sum();
    assert_eq!(book.exposure(operator), Ok(total));
    columns
        .into_iter()
        .filter(|&(_, money)| money > 0)
        .collect()
}

#[test]
fn a_pending_sale_counts_in_each_of_its_hours_at_the_estimate() {
    let mut day = Day::open(&four_accounts());
    for operator in 1..=3 {
        assert_eq!(columns(&day.book, operator), []);
    }
    assert_eq!(day.call(sale(1, 2, (6, 8), 100)), accepted(1));
    let three = [(6, 6_000), (7, 7_000), (8, 8_000)];
    assert_eq!(columns(&day.book, 1), three);
    assert_eq!(day.book.hourly_exposure(1, 5), Ok(0));
    assert_eq!(day.book.hourly_exposure(1, 9), Ok(0));
    // Not on the operator of the counterparty, nor on one without accounts.
    assert_eq!(columns(&day.book, 2), []);
    assert_eq!(columns(&day.book, 3), []);
    // 7 more of the same account, and 9 of another.
    assert_eq!(day.call(sale(1, 4, (8, 9), 7)), accepted(2));
    assert_eq!(day.call(sale(3, 2, (9, 10), 9)), accepted(3));
    let more = [(6, 6_000), (7, 7_000), (8, 8_560), (9, 1_440), (10, 900)];
    assert_eq!(columns(&day.book, 1), more);
    // Pending purchases do not count.
    assert_eq!(day.call(purchase(1, 2, (1, 24), 500)), refused(14));
    let buys = coded(1, purchase(1, 2, (1, 24), 500));
    assert_eq!(day.call(buys), accepted(4));
    assert_eq!(columns(&day.book, 1), more);
    assert_eq!(columns(&day.book, 2), []);
}

#[test]
fn an_estimate_of_0_exposes_nothing() {
    let mut day = Day::open(&four_accounts());
    assert_eq!(day.call(sale(1, 2, (3, 5), 11)), accepted(1));
    assert_eq!(columns(&day.book, 1), [(3, 330), (5, 550)]);
    day.trade(coded(1, sale(1, 2, (4, 4), 900)));
    assert_eq!(columns(&day.book, 1), [(3, 330), (5, 550)]);
}

#[test]
fn what_one_account_is_long_does_not_ease_another() {
    let mut day = Day::open(&four_accounts());
    day.trade(sale(1, 2, (2, 3), 50));
    day.trade(sale(4, 3, (3, 5), 80));
    // In hour 3 account 1 is short by 50 and account 3 long by 80, account 4
    // short by 80 and account 2 long by 50.
    assert_eq!(columns(&day.book, 1), [(2, 1_000), (3, 1_500)]);
    assert_eq!(columns(&day.book, 2), [(3, 2_400), (5, 4_000)]);
    // Nor does one hour ease another: account 1 is long in hours 5 and 6.
    day.trade(sale(2, 1, (5, 6), 20));
    assert_eq!(columns(&day.book, 1), [(2, 1_000), (3, 1_500)]);
    let other = [(3, 2_400), (5, 5_000), (6, 1_200)];
    assert_eq!(columns(&day.book, 2), other);
    // Two accounts of one operator.
    day.trade(coded(1, sale(1, 3, (20, 20), 10)));
    assert_eq!(day.book.hourly_exposure(1, 20), Ok(2_000));
    day.trade(coded(2, sale(3, 1, (20, 20), 10)));
    assert_eq!(day.book.hourly_exposure(1, 20), Ok(0));
    day.trade(coded(3, sale(3, 1, (20, 20), 1)));
    assert_eq!(day.book.hourly_exposure(1, 20), Ok(200));
}

#[test]
fn a_pending_sale_counts_in_full_whatever_the_net() {
    let mut day = Day::open(&four_accounts());
    day.trade(sale(2, 1, (5, 6), 20));
    day.trade(sale(1, 2, (7, 7), 20));
    assert_eq!(columns(&day.book, 1), [(7, 1_400)]);
    // Net is 20, 20, -20 and 0; then one that is less than net.
    let pending = coded(1, sale(1, 2, (5, 8), 30));
    assert_eq!(day.call(pending), accepted(3));
    let full = [(5, 1_500), (6, 1_800), (7, 3_500), (8, 2_400)];
    assert_eq!(columns(&day.book, 1), full);
    assert_eq!(day.call(sale(1, 4, (6, 6), 19)), accepted(4));
    assert_eq!(day.book.hourly_exposure(1, 6), Ok(49 * 60));
    assert_eq!(day.call(withdraw(1, 4)), accepted(0));
    // Confirmed, it counts with net: -10, -10, -50 and -30.
    assert_eq!(day.call(mirror(pending)), accepted(3));
    let net = [(5, 500), (6, 600), (7, 3_500), (8, 2_400)];
    assert_eq!(columns(&day.book, 1), net);
}

#[test]
fn each_operator_has_its_own_accounts() {
    let mut day = Day::open(&four_accounts());
    assert_eq!(day.call(sale(1, 2, (22, 22), 6)), accepted(1));
    assert_eq!(day.call(sale(2, 1, (22, 22), 4)), accepted(2));
    assert_eq!(day.call(sale(4, 1, (1, 1), 2)), accepted(3));
    assert_eq!(columns(&day.book, 1), [(22, 1_320)]);
    assert_eq!(columns(&day.book, 2), [(1, 20), (22, 880)]);
    assert_eq!(columns(&day.book, 3), []);
    // A guarantee has no part in it.
    assert_eq!(day.call(guarantee(2, 2)), accepted(0));
    assert_eq!(columns(&day.book, 2), [(1, 20), (22, 880)]);
}

#[test]
fn withdrawn_rows_and_undone_batches_do_not_count() {
    let mut day = Day::open(&four_accounts());
    assert_eq!(day.call(sale(1, 2, (1, 3), 40)), accepted(1));
    assert_eq!(columns(&day.book, 1), [(1, 400), (2, 800), (3, 1_200)]);
    assert_eq!(day.call(withdraw(1, 1)), accepted(0));
    assert_eq!(columns(&day.book, 1), []);
    assert_eq!(day.call(sale(1, 2, (2, 3), 6)), accepted(2));
    let before = [(2, 120), (3, 180)];
    let after = [(2, 120), (3, 420), (5, 450)];
    for end in [kind::UNDO, kind::KEEP] {
        // The rows of an open batch count.
        day.simple(kind::OPEN_BATCH);
        assert_eq!(columns(&day.book, 1), before);
        assert_eq!(day.call(sale(3, 2, (3, 3), 8)), accepted(3));
        assert_eq!(columns(&day.book, 1), [(2, 120), (3, 420)]);
        day.trade(purchase(2, 1, (5, 5), 9));
        assert_eq!(day.call(mirror(sale(1, 2, (2, 3), 6))), accepted(2));
        assert_eq!(columns(&day.book, 1), after);
        assert!(day.simple(end).is_accepted());
        let is_undone = end == kind::UNDO;
        let expected: &[_] = if is_undone { &before } else { &after };
        assert_eq!(columns(&day.book, 1), expected);
    }
    // A withdrawal undone.
    day.simple(kind::OPEN_BATCH);
    assert_eq!(day.call(withdraw(3, 3)), accepted(0));
    let without = [(2, 120), (3, 180), (5, 450)];
    assert_eq!(columns(&day.book, 1), without);
    assert_eq!(day.simple(kind::UNDO), accepted(0));
    assert_eq!(columns(&day.book, 1), after);
}

#[test]
fn an_ask_does_not_count_and_a_strip_does() {
    let mut day = Day::open(&four_accounts());
    let request = sale(1, 4, (3, 4), 12);
    assert_eq!(day.call(ask(request)), accepted(1));
    assert_eq!(columns(&day.book, 1), []);
    assert_eq!(day.call(commit(request)), accepted(1));
    assert_eq!(columns(&day.book, 1), [(3, 360)]);
    let rows = [
        sale(3, 2, (10, 11), 2),
        coded(1, purchase(3, 2, (10, 11), 70)),
        sale(3, 4, (11, 11), 3),
    ];
    assert_eq!(day.strip(&rows), accepted(2));
    assert_eq!(columns(&day.book, 1), [(3, 360), (10, 200), (11, 550)]);
}

#[test]
fn after_the_gate_and_after_settlement() {
    let mut setup = four_accounts();
    setup.points = vec![point(1, PointKind::Injection, 50, 0)];
    let mut day = Day::open(&setup);
    day.trade(sale(1, 2, (1, 2), 11));
    assert_eq!(day.call(sale(1, 2, (2, 3), 6)), accepted(2));
    assert_eq!(columns(&day.book, 1), [(1, 110), (2, 340), (3, 180)]);
    // What is pending is gone; schedules and prices change nothing.
    let confirmed = [(1, 110), (2, 220)];
    assert_eq!(day.simple(kind::CLOSE_GATE), accepted(0));
    assert_eq!(columns(&day.book, 1), confirmed);
    assert_eq!(day.call(schedule(1, 1, 11, 0)), accepted(1));
    assert_eq!(columns(&day.book, 1), confirmed);
    assert_eq!(day.settle(&hour_1(24, 7_000, 9_000)), accepted(0));
    assert_eq!(day.results, [0]);
    assert_eq!(columns(&day.book, 1), confirmed);
    assert_eq!(columns(&day.book, 2), []);
    assert_eq!(day.book.hourly_exposure(1, 25), Err(with(6, 5, 0)));
    assert_eq!(day.book.hourly_exposure(4, 24), Err(with(6, 9, 0)));
}

#[test]
fn hours_and_operators_out_of_range() {
    for hours in [23, 24, 25] {
        let mut setup = whole_case_of(hours.into());
        let last = usize::from(hours) - 1;
        setup.estimates[0] = 7;
        setup.estimates[last] = 9;
        let mut day = Day::open(&setup);
        assert_eq!(day.call(sale(1, 2, (1, hours), 6)), accepted(1));
        let book = &day.book;
        assert_eq!(book.hourly_exposure(1, 1), Ok(42));
        assert_eq!(book.hourly_exposure(1, hours), Ok(54));
        assert_eq!(book.hourly_exposure(2, hours), Ok(0));
        let (hour_fault, operator_fault) = (with(6, 5, 0), with(6, 9, 0));
        for hour in [0].into_iter().chain(hours + 1..=255) {
            // Whatever the operator.
            for operator in [0, 1, 2, 3, 255] {
                let read = book.hourly_exposure(operator, hour);
                assert_eq!(read, Err(hour_fault));
            }
        }
        for hour in 1..=hours {
            for operator in [0].into_iter().chain(3..=255) {
                let read = book.hourly_exposure(operator, hour);
                assert_eq!(read, Err(operator_fault));
            }
        }
    }
}

#[test]
fn the_greatest_figures() {
    let mut setup = whole_case_of(25);
    setup.estimates = vec![GREATEST_PRICE; 25];
    setup.operators = vec![operator(GREATEST_GUARANTEE, 0)];
    setup.points = Vec::new();
    let most = vec![GREATEST_QUANTITY; 25];
    setup.accounts = vec![
        Account {
            lower_margins: most.clone(),
            upper_margins: most,
            ..account(1, Direction::Injection, 0, 0)
        };
        32
    ];
    let mut day = Day::open(&setup);
    // 16 accounts short and 16 long by the greatest quantity in hours 1 to 5.
    let per_account = 4_000_000_000_000;
    for seller in 1..=16 {
        day.trade(sale(seller, 16 + seller, (1, 5), GREATEST_QUANTITY));
        let column = u64::from(seller) * per_account;
        assert_eq!(day.book.hourly_exposure(1, 5), Ok(column));
        assert_eq!(day.book.hourly_exposure(1, 6), Ok(0));
    }
    // Each of the long ones proposes to sell all that it has and as much again.
    for seller in 17..=32 {
        for code in [1, 2] {
            let proposal = coded(code, sale(seller, 1, (1, 5), GREATEST_QUANTITY));
            assert!(day.call(proposal).is_accepted());
        }
    }
    for hour in 1..=5 {
        assert_eq!(day.book.hourly_exposure(1, hour), Ok(48 * per_account));
    }
    // The rest of the guarantee in the last hour, in 208 rows.
    for seller in 1..=10 {
        let count = if seller <= 8 { 21 } else { 20 };
        for code in 1..=count {
            let quantity = match (count, code) {
                (20, _) => 500_000,
                (_, 21) => 476_200,
                _ => 476_190,
            };
            let proposal = coded(code, sale(seller, 32, (25, 25), quantity));
            assert!(day.call(proposal).is_accepted());
        }
        let column = u64::from(seller) * per_account;
        assert_eq!(day.book.hourly_exposure(1, 25), Ok(column));
    }
    assert_eq!(day.book.rows().len(), MOST_ROWS);
    let expected: Vec<(u8, u64)> = (1..=5)
        .map(|hour| (hour, 48 * per_account))
        .chain([(25, 10 * per_account)])
        .collect();
    assert_eq!(columns(&day.book, 1), expected);
    assert_eq!(day.book.exposure(1), Ok(1_000_000_000_000_000));
    assert_eq!(day.book.available(1), day.book.exposure(1));
}

/// What one account hour exposes in thousandths of a cent, from the rows.
fn amount(book: &Book, account: u8, hour: u8) -> u64 {
    let (mut bought, mut sold, mut pending) = (0, 0, 0);
    for row in book.rows() {
        if hour < row.first || row.last < hour {
            continue;
        }
        let quantity = u64::from(row.quantity);
        let (seller, buyer) = match row.side {
            Side::Sell => (row.account, row.counterparty),
            Side::Buy => (row.counterparty, row.account),
        };
        match row.status {
            Status::Confirmed if seller == account => sold += quantity,
            Status::Confirmed if buyer == account => bought += quantity,
            // A seller that is the counterparty has not proposed it.
            Status::Pending if seller == account && seller == row.account => pending += quantity,
            _ => {}
        }
    }
    let estimate = book.setup().estimates[usize::from(hour) - 1];
    u64::from(estimate) * (u64::saturating_sub(sold, bought) + pending)
}

/// What the columns of generated days had.
#[derive(Debug, Default)]
struct Seen {
    /// By phase.
    books: [u32; 3],
    /// Columns that are not 0, and those of them to which several accounts add.
    exposed: u32,
    several: u32,
    /// Columns that would be less if one account's net eased another's.
    not_eased: u32,
    /// Account hours with pending sales and a net above zero.
    in_full: u32,
    /// Columns that are 0 for their estimate alone.
    free: u32,
}

impl Seen {
    fn count(&mut self, book: &Book) {
        let setup = book.setup();
        self.books[book.phase() as usize - 1] += 1;
        for operator in 1..=setup.operators.len() as u8 {
            let is_own = |account: &u8| setup.account(*account).operator == operator;
            let accounts: Vec<u8> = (1..=setup.accounts.len() as u8).filter(is_own).collect();
            for hour in 1..=setup.hours() {
                let position = |&account| book.position(account, hour).unwrap();
                let positions: Vec<Position> = accounts.iter().map(position).collect();
                let exposing = positions.iter().filter(|p| p.exposed() > 0).count();
                let column = book.hourly_exposure(operator, hour).unwrap();
                self.exposed += u32::from(column > 0);
                self.several += u32::from(column > 0 && exposing > 1);
                self.free += u32::from(column == 0 && exposing > 0);
                let is_short = positions.iter().any(|p| p.net < 0);
                let is_long = positions.iter().any(|p| p.net > 0);
                self.not_eased += u32::from(column > 0 && is_short && is_long);
                let in_full = |p: &&Position| p.net > 0 && p.pending_sales > 0;
                self.in_full += positions.iter().filter(in_full).count() as u32;
            }
        }
    }
}

#[test]
fn columns_of_generated_days_total_the_exposures() {
    let mut seen = Seen::default();
    for seed in 94_000..94_150 {
        let (setup, steps) = day(seed);
        let Ok(mut book) = Book::open(&setup) else {
            continue;
        };
        for (step, number) in steps.iter().zip(1..) {
            let (mut results, mut balances) = (vec![0; step.results], vec![0; step.balances]);
            book.call(&step.record, &step.prices, &mut results, &mut balances);
            if number % 10 == 0 || number == steps.len() {
                check(&book);
                seen.count(&book);
            }
        }
    }
    println!("{seen:?}");
    let Seen {
        books,
        exposed,
        several,
        not_eased,
        in_full,
        free,
    } = seen;
    assert!(books.iter().all(|&count| count > 50));
    assert!(exposed > 5_000 && several > 1_000 && not_eased > 1_000);
    assert!(in_full > 1_000 && free > 1_000);
}

/// Checks the columns of every operator against its account hours, drawn from
/// the rows; and these, added by hour, by account and in yet another order,
/// against its exposure.
fn check(book: &Book) {
    let setup = book.setup();
    for operator in 1..=setup.operators.len() as u8 {
        let is_own = |account: &u8| setup.account(*account).operator == operator;
        let accounts: Vec<u8> = (1..=setup.accounts.len() as u8).filter(is_own).collect();
        let amounts: Vec<Vec<u64>> = accounts
            .iter()
            .map(|&account| {
                let amount = |hour| amount(book, account, hour);
                (1..=setup.hours()).map(amount).collect()
            })
            .collect();
        let mut by_hour = 0;
        for hour in 1..=setup.hours() {
            let at = usize::from(hour) - 1;
            let column = amounts.iter().map(|hours| hours[at]).sum();
            assert_eq!(book.hourly_exposure(operator, hour), Ok(column));
            by_hour += column;
        }
        let by_account: u64 = amounts.iter().map(|hours| hours.iter().sum::<u64>()).sum();
        let mut in_order = amounts.concat();
        in_order.sort_unstable();
        let sorted: u64 = in_order.iter().sum();
        let exposure = book.exposure(operator).unwrap();
        assert_eq!([by_hour, by_account, sorted], [exposure; 3]);
    }
}
