//! The valuing of account hours: each figure by itself, the figures of whole
//! days, and that an operator's hourly amounts total its balance.

mod common;
use common::*;
use reference::days::day;
use reference::valuation::*;
use reference::*;

fn registered(direction: Direction, point_kind: PointKind) -> impl Fn(u32, u32) -> Registered {
    move |quantity, zonal| Registered {
        direction,
        point_kind,
        quantity,
        zonal,
    }
}

#[test]
fn a_physical_balance_is_net_plus_injections_less_withdrawals() {
    let injected = registered(Direction::Injection, PointKind::Injection);
    let injected_mixed = registered(Direction::Injection, PointKind::Mixed);
    let withdrawn = registered(Direction::Withdrawal, PointKind::Withdrawal);
    let withdrawn_mixed = registered(Direction::Withdrawal, PointKind::Mixed);
    assert_eq!(physical_balance(0, &[]), 0);
    assert_eq!(physical_balance(-18_000, &[]), -18_000);
    assert_eq!(physical_balance(-18_000, &[injected(15_000, 7)]), -3_000);
    let injections = [injected(15_000, 7), injected_mixed(3_000, 8)];
    assert_eq!(physical_balance(-18_000, &injections), 0);
    assert_eq!(physical_balance(-18_001, &injections), -1);
    let withdrawals = [withdrawn(400, 7), withdrawn_mixed(30, 7), withdrawn(1, 8)];
    assert_eq!(physical_balance(20_000, &[]), 20_000);
    assert_eq!(physical_balance(20_000, &withdrawals), 19_569);
    assert_eq!(physical_balance(431, &withdrawals), 0);
    let greatest = GREATEST_QUANTITY as i32;
    let all = [injected(GREATEST_QUANTITY, 0)];
    assert_eq!(physical_balance(-greatest, &all), 0);
    let all = [withdrawn_mixed(GREATEST_QUANTITY, 0)];
    assert_eq!(physical_balance(greatest, &all), 0);
}

#[test]
fn a_purchase_is_what_lies_below_zero_at_the_national_price() {
    assert_eq!(purchase(-3_000, 6_000), 18_000_000);
    assert_eq!(purchase(-1, 6_000), 6_000);
    assert_eq!(purchase(0, 6_000), 0);
    assert_eq!(purchase(1, 6_000), 0);
    assert_eq!(purchase(18_000, 6_000), 0);
    assert_eq!(purchase(-3_000, 0), 0);
    assert_eq!(purchase(-10_000_000, 400_000), 4_000_000_000_000);
    assert_eq!(purchase(10_000_000, 400_000), 0);
}

#[test]
fn a_sale_is_what_lies_above_zero_at_the_national_price() {
    assert_eq!(sale(18_000, 6_000), 108_000_000);
    assert_eq!(sale(1, 6_000), 6_000);
    assert_eq!(sale(0, 6_000), 0);
    assert_eq!(sale(-1, 6_000), 0);
    assert_eq!(sale(-3_000, 6_000), 0);
    assert_eq!(sale(18_000, 0), 0);
    assert_eq!(sale(10_000_000, 400_000), 4_000_000_000_000);
    assert_eq!(sale(-10_000_000, 400_000), 0);
}

#[test]
fn cct_is_of_injections_and_of_withdrawals_on_mixed_points() {
    assert_eq!(cct(&[], 6_000), 0);
    // An injection, on either kind of point, with its zone on each side.
    for kind in [PointKind::Injection, PointKind::Mixed] {
        let injected = registered(Direction::Injection, kind);
        assert_eq!(cct(&[injected(15_000, 5_500)], 6_000), -7_500_000);
        assert_eq!(cct(&[injected(15_000, 6_500)], 6_000), 7_500_000);
        assert_eq!(cct(&[injected(15_000, 6_000)], 6_000), 0);
        assert_eq!(cct(&[injected(15_000, 70)], 0), 1_050_000);
        let dearest = [injected(10_000_000, 0)];
        assert_eq!(cct(&dearest, 400_000), -4_000_000_000_000);
    }
    // A withdrawal on a mixed point, the other way round.
    let mixed = registered(Direction::Withdrawal, PointKind::Mixed);
    assert_eq!(cct(&[mixed(15_000, 5_500)], 6_000), 7_500_000);
    assert_eq!(cct(&[mixed(15_000, 6_500)], 6_000), -7_500_000);
    assert_eq!(cct(&[mixed(15_000, 6_000)], 6_000), 0);
    assert_eq!(cct(&[mixed(15_000, 70)], 0), -1_050_000);
    // On a point that only withdraws: none.
    let withdrawn = registered(Direction::Withdrawal, PointKind::Withdrawal);
    assert_eq!(cct(&[withdrawn(15_000, 5_500)], 6_000), 0);
    assert_eq!(cct(&[withdrawn(15_000, 6_500)], 6_000), 0);
    // Of several each at its own zone's price.
    let several = [mixed(30, 70), withdrawn(1_000, 70), mixed(20, 45)];
    assert_eq!(cct(&several, 60), -300 + 300);
    assert_eq!(cct(&several, 50), -600 + 100);
}

#[test]
fn an_hourly_amount_is_sale_less_purchase_plus_cct() {
    assert_eq!(hourly_amount(0, 0, 0), 0);
    assert_eq!(hourly_amount(18_000_000, 0, -7_500_000), -25_500_000);
    assert_eq!(hourly_amount(18_000_000, 0, 7_500_000), -10_500_000);
    assert_eq!(hourly_amount(0, 108_000_000, 0), 108_000_000);
    assert_eq!(hourly_amount(0, 108_000_000, 1), 108_000_001);
    assert_eq!(hourly_amount(0, 5, -7), -2);
    assert_eq!(hourly_amount(0, 0, -7), -7);
}

#[test]
fn the_figures_of_an_account_hour_go_together() {
    let injected = registered(Direction::Injection, PointKind::Injection);
    let found = figures(-18_000, &[injected(15_000, 5_500)], 6_000);
    assert_eq!(found, bought(3_000, 18_000_000, -7_500_000));
    let mixed = registered(Direction::Withdrawal, PointKind::Mixed);
    let found = figures(18_000, &[mixed(15_000, 5_500)], 6_000);
    assert_eq!(found, sold(3_000, 18_000_000, 7_500_000));
    assert_eq!(figures(0, &[], 400_000), Figures::default());
}

/// The figures of an account hour that lacks some energy.
fn bought(lacking: i64, purchase: i64, cct: i64) -> Figures {
    Figures {
        physical_balance: -lacking,
        purchase,
        sale: 0,
        cct,
        amount: cct - purchase,
    }
}

/// The figures of an account hour that has some energy over.
fn sold(over: i64, sale: i64, cct: i64) -> Figures {
    Figures {
        physical_balance: over,
        purchase: 0,
        sale,
        cct,
        amount: cct + sale,
    }
}

/// The totals of amounts that are not figures of any day.
#[test]
fn totals_are_by_operator() {
    let mut setup = whole_case();
    setup.operators = vec![operator(0, 0); 4];
    setup.accounts = [2, 4, 2]
        .map(|operator| account(operator, Direction::Injection, 0, 0))
        .to_vec();
    let hours = |amounts: [i64; 3]| {
        amounts
            .map(|amount| Figures {
                amount,
                ..Figures::default()
            })
            .to_vec()
    };
    let figures = [hours([1, 20, -300]), hours([7, 0, 0]), hours([0, 4_000, 0])];
    assert_eq!(totals(&setup, &figures), [0, 3_721, 0, 7]);
}

/// Settles, and gives the figures of the account hours, which are the same
/// before and after; checks what must hold of them.
fn settled(day: &mut Day, prices: &[u8]) -> Vec<Vec<Figures>> {
    let before = day.book.figures(prices);
    assert_eq!(day.settle(prices), accepted(0));
    let figures = day.book.figures(prices).unwrap();
    assert_eq!(before, Ok(figures.clone()));
    check(&day.book, prices, &figures, &day.balances);
    figures
}

/// Checks the figures of a settled book against each other, against its net
/// positions and against the balances.
fn check(book: &Book, prices: &[u8], figures: &[Vec<Figures>], balances: &[i64]) {
    let setup = book.setup();
    assert_eq!(figures.len(), setup.accounts.len());
    for (hours, account) in figures.iter().zip(1..) {
        assert_eq!(hours.len(), setup.estimates.len());
        for (figures, hour) in hours.iter().zip(1..) {
            let Figures {
                physical_balance,
                purchase,
                sale,
                cct,
                amount,
            } = *figures;
            assert!(purchase >= 0 && sale >= 0);
            assert!(purchase == 0 || sale == 0);
            assert_eq!(amount, sale - purchase + cct);
            let national = price(setup, prices, 0, hour);
            assert_eq!(sale - purchase, physical_balance * national);
            // What is registered is at most what the net position has for it.
            let net = book.net(account, hour).unwrap();
            assert!((net.min(0)..=net.max(0)).contains(&physical_balance));
        }
    }
    assert_eq!(totals(setup, figures), balances);
}

/// The price of a zone in an hour; of zone 0 the national one.
fn price(setup: &Setup, prices: &[u8], zone: u8, hour: u8) -> i64 {
    let at = usize::from(setup.hours()) * usize::from(zone) + usize::from(hour) - 1;
    let bytes = prices[4 * at..4 * at + 4].try_into().unwrap();
    u32::from_le_bytes(bytes).into()
}

#[test]
fn whole_case_hour_by_hour() {
    let mut day = Day::open(&whole_case());
    day.trade(sell(18_000));
    day.simple(kind::CLOSE_GATE);
    assert_eq!(day.call(schedule(1, 1, 15_000, 3_000)), accepted(1));
    let found = settled(&mut day, &hour_1(24, 6_000, 5_500));
    let hour_1_of_account_1 = Figures {
        physical_balance: -3_000,
        purchase: 18_000_000,
        sale: 0,
        cct: -7_500_000,
        amount: -25_500_000,
    };
    let hour_1_of_account_2 = Figures {
        physical_balance: 18_000,
        purchase: 0,
        sale: 108_000_000,
        cct: 0,
        amount: 108_000_000,
    };
    assert_eq!(found[0][0], hour_1_of_account_1);
    assert_eq!(found[1][0], hour_1_of_account_2);
    for hours in &found {
        assert_eq!(hours[1..], [Figures::default(); 23]);
    }
    assert_eq!(day.balances, [-25_500_000, 108_000_000]);
}

#[test]
fn a_price_table_at_fault_values_nothing() {
    let book = Day::open(&whole_case()).book;
    let good = hour_1(24, 400_000, 400_000);
    assert!(book.figures(&good).is_ok());
    for length in [0, 96, 191, 193] {
        let mut table = good.clone();
        table.resize(length, 0);
        assert_eq!(book.figures(&table).err(), Some(refused(5)));
    }
    for at in [0, 96, 188] {
        let mut dear = good.clone();
        dear[at..at + 4].copy_from_slice(&400_001u32.to_le_bytes());
        assert_eq!(book.figures(&dear).err(), Some(with(6, 12, 0)));
    }
}

#[test]
fn what_is_pending_or_withdrawn_is_not_valued() {
    let prices = hour_1(24, 60, 60);
    let mut day = Day::open(&wide());
    day.trade(sell(10));
    assert_eq!(day.call(sell(7)), accepted(2));
    let pending = day.book.figures(&prices).unwrap();
    assert_eq!(pending[0][0], bought(10, 600, 0));
    assert_eq!(pending[1][0], sold(10, 600, 0));
    day.simple(kind::CLOSE_GATE);
    assert_eq!(settled(&mut day, &prices), pending);
}

/// Three operators, of which 1 has accounts 1 and 3, 2 has account 2 and 3 has
/// none; three zones. Each account has in each zone a point of its own kind and
/// a mixed one.
fn three_zones(hours: usize) -> Setup {
    let kinds = [
        Direction::Injection,
        Direction::Withdrawal,
        Direction::Withdrawal,
    ];
    let mut setup = Setup {
        zones: 3,
        estimates: vec![0; hours],
        operators: vec![operator(0, 0); 3],
        accounts: Vec::new(),
        points: Vec::new(),
    };
    for ((operator, kind), number) in [1, 2, 1].into_iter().zip(kinds).zip(1..) {
        setup.accounts.push(Account {
            lower_margins: vec![GREATEST_QUANTITY; hours],
            upper_margins: vec![GREATEST_QUANTITY; hours],
            ..account(operator, kind, 0, 0)
        });
        let own = match kind {
            Direction::Injection => point(number, PointKind::Injection, GREATEST_QUANTITY, 0),
            Direction::Withdrawal => point(number, PointKind::Withdrawal, 0, GREATEST_QUANTITY),
        };
        let mixed = point(
            number,
            PointKind::Mixed,
            GREATEST_QUANTITY,
            GREATEST_QUANTITY,
        );
        for zone in 1..=3 {
            for point in [&own, &mixed] {
                setup.points.push(Point {
                    zone,
                    ..point.clone()
                });
            }
        }
    }
    setup
}

/// The number of an account's point of its own kind in a zone.
fn own(account: u8, zone: u8) -> u8 {
    6 * (account - 1) + 2 * (zone - 1) + 1
}

/// The number of an account's mixed point in a zone.
fn mixed(account: u8, zone: u8) -> u8 {
    own(account, zone) + 1
}

/// Account 1 sells to another over some hours.
fn sell_to(other: u8, hours: (u8, u8), quantity: u32) -> Request {
    Request {
        other,
        first: hours.0,
        last: hours.1,
        ..sell(quantity)
    }
}

/// An injection at any price; it is registered where the limits allow it.
fn inject(point: u8, hour: u8, quantity: u32) -> Request {
    Request {
        first: hour,
        ..schedule(1, point, quantity, 0)
    }
}

/// A withdrawal at any price; it is registered where the limits allow it.
fn withdraw_at(point: u8, hour: u8, quantity: u32) -> Request {
    Request {
        first: hour,
        ..schedule(2, point, quantity, GREATEST_PRICE)
    }
}

/// A price table: the price of each zone and hour, the national one as zone 0's.
fn table(setup: &Setup, price: impl Fn(u8, u8) -> u32) -> Vec<u8> {
    let mut table = Vec::new();
    for zone in 0..=setup.zones {
        for hour in 1..=setup.hours() {
            table.extend(price(zone, hour).to_le_bytes());
        }
    }
    table
}

/// The prices of three zones, on each side of the national one and equal to it.
fn around(zone: u8, _hour: u8) -> u32 {
    [6_000, 5_500, 6_700, 6_000][usize::from(zone)]
}

/// The figures of a day of three zones, all of whose schedules are registered.
fn all_registered(
    setup: &Setup,
    trades: &[Request],
    schedules: &[Request],
    price: impl Fn(u8, u8) -> u32,
) -> Vec<Vec<Figures>> {
    let mut day = Day::open(setup);
    for trade in trades {
        day.trade(*trade);
    }
    day.simple(kind::CLOSE_GATE);
    for schedule in schedules {
        assert!(day.call(*schedule).is_accepted());
    }
    let figures = settled(&mut day, &table(setup, price));
    assert_eq!(day.results, vec![0; schedules.len()]);
    figures
}

#[test]
fn schedules_that_are_not_registered_add_nothing() {
    let mut setup = wide();
    setup.points = vec![
        point(1, PointKind::Injection, 70, 0),
        point(1, PointKind::Mixed, 1_000, 0),
    ];
    let mut day = Day::open(&setup);
    day.trade(sell(100));
    day.simple(kind::CLOSE_GATE);
    day.call(schedule(1, 1, 71, 0));
    day.call(schedule(1, 1, 60, 50));
    day.call(schedule(1, 1, 10, 51));
    day.call(schedule(1, 2, 31, 60));
    let found = settled(&mut day, &hour_1(24, 60, 50));
    assert_eq!(day.results, [1, 0, 3, 2]);
    assert_eq!(found[0][0], bought(40, 2_400, -600));
    assert_eq!(found[1][0], sold(100, 6_000, 0));
}

#[test]
fn a_physical_balance_of_zero_buys_and_sells_nothing() {
    let setup = three_zones(24);
    let trades = [sell_to(2, (1, 4), 15_000)];
    let schedules = [
        inject(own(1, 1), 1, 15_000),
        withdraw_at(own(2, 1), 1, 15_000),
        inject(own(1, 2), 2, 14_999),
        withdraw_at(own(2, 2), 2, 14_999),
        inject(own(1, 1), 3, 10_000),
        inject(mixed(1, 2), 3, 5_000),
        withdraw_at(mixed(2, 2), 3, 7_000),
        withdraw_at(own(2, 1), 3, 8_000),
        inject(mixed(1, 3), 4, 15_000),
        withdraw_at(mixed(2, 1), 4, 14_999),
    ];
    let found = all_registered(&setup, &trades, &schedules, around);
    // Whole: the hour comes to its CCT.
    assert_eq!(found[0][0], bought(0, 0, 15_000 * -500));
    assert_eq!(found[1][0], Figures::default());
    // All but a kWh.
    assert_eq!(found[0][1], bought(1, 6_000, 14_999 * 700));
    assert_eq!(found[1][1], sold(1, 6_000, 0));
    // Whole, of two schedules.
    let cct = 10_000 * -500 + 5_000 * 700;
    assert_eq!(found[0][2], bought(0, 0, cct));
    assert_eq!(found[1][2], sold(0, 0, -7_000 * 700));
    // In a zone at the national price, and on a mixed point all but a kWh.
    assert_eq!(found[0][3], Figures::default());
    assert_eq!(found[1][3], sold(1, 6_000, 14_999 * 500));
    assert_eq!(found[0][4], Figures::default());
}

#[test]
fn the_least_and_the_greatest_national_price() {
    let setup = three_zones(24);
    let trades = [sell_to(2, (1, 2), 1_000)];
    let mut schedules = Vec::new();
    for hour in [1, 2] {
        schedules.extend([
            inject(own(1, 1), hour, 300),
            inject(mixed(1, 2), hour, 200),
            inject(own(1, 3), hour, 100),
            withdraw_at(mixed(2, 1), hour, 30),
            withdraw_at(mixed(2, 2), hour, 20),
            withdraw_at(own(2, 2), hour, 10),
        ]);
    }
    // Hour 1 at 0, hour 2 at the greatest price; zone 1 at 0, zone 2 at the
    // greatest, zone 3 at the national one.
    let found = all_registered(&setup, &trades, &schedules, |zone, hour| {
        let national = if hour == 1 { 0 } else { 400_000 };
        [national, 0, 400_000, national][usize::from(zone)]
    });
    assert_eq!(found[0][0], bought(400, 0, 200 * 400_000));
    assert_eq!(found[1][0], sold(940, 0, -20 * 400_000));
    assert_eq!(found[0][1], bought(400, 160_000_000, 300 * -400_000));
    assert_eq!(found[1][1], sold(940, 376_000_000, 30 * 400_000));
}

#[test]
fn a_net_purchase_withdraws_at_mixed_points_of_two_zones() {
    let setup = three_zones(24);
    let trades = [sell_to(2, (7, 7), 1_000)];
    let schedules = [
        withdraw_at(mixed(2, 1), 7, 300),
        withdraw_at(mixed(2, 2), 7, 200),
        withdraw_at(own(2, 2), 7, 50),
    ];
    let found = all_registered(&setup, &trades, &schedules, around);
    let cct = 300 * 500 - 200 * 700;
    assert_eq!(found[1][6], sold(450, 450 * 6_000, cct));
    assert_eq!(found[0][6], bought(1_000, 6_000_000, 0));
}

#[test]
fn a_net_sale_injects_in_two_zones() {
    let setup = three_zones(24);
    // Account 1 on its own points and mixed ones; account 2, which has bought
    // in hour 7 and sold in hour 8, on mixed ones.
    let back = Request {
        side: 2,
        ..sell_to(2, (8, 8), 1_000)
    };
    let trades = [sell_to(2, (7, 7), 1_000), back];
    let schedules = [
        inject(own(1, 1), 7, 300),
        inject(own(1, 2), 7, 200),
        inject(mixed(1, 2), 7, 50),
        inject(mixed(2, 1), 8, 400),
        inject(mixed(2, 2), 8, 500),
    ];
    let found = all_registered(&setup, &trades, &schedules, around);
    let cct = 300 * -500 + 250 * 700;
    assert_eq!(found[0][6], bought(450, 450 * 6_000, cct));
    assert_eq!(found[1][6], sold(1_000, 6_000_000, 0));
    let cct = 400 * -500 + 500 * 700;
    assert_eq!(found[1][7], bought(100, 600_000, cct));
    assert_eq!(found[0][7], sold(1_000, 6_000_000, 0));
}

#[test]
fn accounts_of_one_operator_are_valued_apart() {
    let setup = three_zones(24);
    // Operator 1 sells to itself: what one account lacks the other has over.
    let trades = [sell_to(3, (5, 5), 100), sell_to(2, (5, 5), 10)];
    let schedules = [
        inject(own(1, 2), 5, 40),
        withdraw_at(mixed(3, 2), 5, 30),
        withdraw_at(own(2, 2), 5, 3),
    ];
    let found = all_registered(&setup, &trades, &schedules, around);
    assert_eq!(found[0][4], bought(70, 70 * 6_000, 40 * 700));
    assert_eq!(found[1][4], sold(7, 7 * 6_000, 0));
    assert_eq!(found[2][4], sold(70, 70 * 6_000, -30 * 700));
    assert_eq!(totals(&setup, &found), [7_000, 42_000, 0]);
}

#[test]
fn the_last_hour_has_its_own_prices() {
    for hours in [23, 24, 25] {
        let setup = three_zones(hours);
        let last = hours as u8;
        let trades = [sell_to(2, (1, last), 100), sell_to(3, (last, last), 50)];
        let schedules = [
            inject(own(1, 1), last - 1, 60),
            inject(own(1, 3), last, 80),
            withdraw_at(mixed(2, 3), last, 30),
            withdraw_at(mixed(3, 1), last, 20),
            withdraw_at(mixed(2, 2), 1, 10),
        ];
        // All prices differ.
        let price = |zone: u8, hour: u8| 1_000 * u32::from(hour) + [0, 7, 30, 500][zone as usize];
        let found = all_registered(&setup, &trades, &schedules, price);
        let national = 1_000 * i64::from(last);
        assert_eq!(found[0][hours - 1], bought(70, 70 * national, 80 * 500));
        assert_eq!(found[1][hours - 1], sold(70, 70 * national, -30 * 500));
        assert_eq!(found[2][hours - 1], sold(30, 30 * national, -20 * 7));
        let before = national - 1_000;
        assert_eq!(found[0][hours - 2], bought(40, 40 * before, 60 * 7));
        assert_eq!(found[1][hours - 2], sold(100, 100 * before, 0));
        assert_eq!(found[0][0], bought(100, 100_000, 0));
        assert_eq!(found[1][0], sold(90, 90_000, -10 * 30));
    }
}

/// What the settled account hours of generated days had.
#[derive(Debug, Default)]
struct Seen {
    settled: u32,
    /// Injections, withdrawals and withdrawals on mixed points, registered.
    registered: [u32; 3],
    /// Account hours with a purchase, with a sale, and with a physical balance
    /// that schedules brought to zero.
    bought: u32,
    sold: u32,
    evened: u32,
    /// Account hours with a CCT below and above zero.
    paid: u32,
    received: u32,
    /// Account hours with schedules in zones on both sides of the national
    /// price: injections, and withdrawals on mixed points.
    both_sides: [u32; 2],
}

impl Seen {
    fn count(&mut self, book: &Book, prices: &[u8], results: &[u8], figures: &[Vec<Figures>]) {
        let setup = book.setup();
        self.settled += 1;
        // By account hour: injections, then withdrawals on mixed points, in
        // zones below and above the national price.
        let mut sides = vec![[[false; 2]; 2]; 32 * 25];
        let mut scheduled = vec![false; 32 * 25];
        for (schedule, &result) in book.schedules().iter().zip(results) {
            if result != 0 {
                continue;
            }
            let point = setup.point(schedule.point);
            let account_hour = 25 * usize::from(point.account - 1) + usize::from(schedule.hour - 1);
            scheduled[account_hour] = true;
            let sort = match (schedule.direction, point.kind) {
                (Direction::Injection, _) => 0,
                (_, PointKind::Mixed) => 1,
                _ => {
                    self.registered[1] += 1;
                    continue;
                }
            };
            self.registered[2 * sort] += 1;
            let zonal = price(setup, prices, point.zone, schedule.hour);
            let national = price(setup, prices, 0, schedule.hour);
            sides[account_hour][sort][0] |= zonal < national;
            sides[account_hour][sort][1] |= zonal > national;
        }
        for account_hour in &sides {
            for (both, side) in self.both_sides.iter_mut().zip(account_hour) {
                *both += u32::from(*side == [true; 2]);
            }
        }
        for (account, hours) in figures.iter().enumerate() {
            for (hour, figures) in hours.iter().enumerate() {
                let is_scheduled = scheduled[25 * account + hour];
                self.bought += u32::from(figures.purchase > 0);
                self.sold += u32::from(figures.sale > 0);
                self.evened += u32::from(is_scheduled && figures.physical_balance == 0);
                self.paid += u32::from(figures.cct < 0);
                self.received += u32::from(figures.cct > 0);
            }
        }
    }
}

#[test]
fn hourly_amounts_of_generated_days_total_the_balances() {
    let mut seen = Seen::default();
    for seed in 90_000..93_000 {
        let (setup, steps) = day(seed);
        let Ok(mut book) = Book::open(&setup) else {
            continue;
        };
        for step in steps {
            let phase = book.phase();
            let mut results = vec![0; step.results];
            let mut balances = vec![0; step.balances];
            book.call(&step.record, &step.prices, &mut results, &mut balances);
            if phase == Phase::Settled || book.phase() != Phase::Settled {
                continue;
            }
            let figures = book.figures(&step.prices).unwrap();
            let written: Vec<i64> = balances[..8 * book.setup().operators.len()]
                .chunks_exact(8)
                .map(|bytes| i64::from_le_bytes(bytes.try_into().unwrap()))
                .collect();
            check(&book, &step.prices, &figures, &written);
            seen.count(&book, &step.prices, &results, &figures);
        }
    }
    println!("{seen:?}");
    let Seen {
        settled,
        registered,
        bought,
        sold,
        evened,
        paid,
        received,
        both_sides,
    } = seen;
    assert!(settled > 2_000);
    assert!(bought > 1_000 && sold > 1_000 && evened > 1_000);
    assert!(paid > 1_000 && received > 1_000);
    assert!(registered.iter().all(|&count| count > 1_000));
    assert!(both_sides.iter().all(|&count| count > 40));
}
