//! Set-ups: mostly good ones, some damaged.

use super::random::Random;
use crate::{Account, Direction, Operator, Point, PointKind, Setup};
use crate::{GREATEST_GUARANTEE, GREATEST_PRICE, GREATEST_QUANTITY};

/// A set-up; `roomy` leaves wide margins, so that many trades fit.
pub(crate) fn setup(random: &mut Random, roomy: bool) -> Setup {
    let mut hours = random.within(23..=25) as usize;
    let mut operators = random.weighted(&[(60, 2), (20, 3), (10, 1), (5, 5), (5, 16)]);
    let mut accounts = random.weighted(&[(30, 2), (30, 3), (20, 5), (15, 8), (3, 32), (2, 1)]);
    let mut points = random.weighted(&[(30, 2), (30, 4), (20, 7), (10, 16), (5, 64), (5, 0)]);
    let mut zones = random.weighted(&[(50, 1), (30, 2), (20, 8)]);
    if random.chance(1) {
        // The largest set-up.
        (hours, operators, accounts, points, zones) = (25, 16, 32, 64, 8);
    }
    let dear = random.pick(&[100, 5_000, 50_000, GREATEST_PRICE]);
    let mut setup = Setup {
        zones,
        estimates: (0..hours).map(|_| estimate(random, dear)).collect(),
        operators: (0..operators).map(|_| operator(random)).collect(),
        accounts: Vec::new(),
        points: Vec::new(),
    };
    for _ in 0..accounts {
        let operator = random.one_of(operators);
        setup.accounts.push(account(random, operator, hours, roomy));
    }
    if !roomy && random.chance(15) {
        even_out(random, &mut setup);
    }
    for _ in 0..points {
        let account = random.one_of(setup.accounts.len());
        let point = point(random, &setup, account);
        setup.points.push(point);
    }
    if random.chance(25) {
        spread_out(random, &mut setup);
    }
    setup
}

fn estimate(random: &mut Random, dear: u32) -> u32 {
    match random.within(0..=9) {
        0 => 0,
        1..=5 => dear,
        _ => random.within(0..=u64::from(dear)) as u32,
    }
}

fn operator(random: &mut Random) -> Operator {
    let scale = random.weighted(&[
        (5, 0),
        (15, 100_000),
        (25, 10_000_000),
        (25, 1_000_000_000),
        (30, GREATEST_GUARANTEE),
    ]);
    let guarantee = if random.chance(50) {
        scale
    } else {
        random.within(0..=scale)
    };
    let maintenance = match random.within(0..=9) {
        0..=3 => 0,
        4..=5 => 100,
        6 => random.pick(&[999, 1000]),
        _ => random.within(0..=1000) as u16,
    };
    Operator {
        guarantee,
        maintenance,
    }
}

fn account(random: &mut Random, operator: u8, hours: usize, roomy: bool) -> Account {
    Account {
        operator,
        kind: random.pick(&[Direction::Injection, Direction::Withdrawal]),
        lower_margins: margins(random, hours, roomy),
        upper_margins: margins(random, hours, roomy),
    }
}

/// The lower or the upper margins of an account: the same in every hour, or
/// with hours that differ by little or by much.
fn margins(random: &mut Random, hours: usize, roomy: bool) -> Vec<u32> {
    let usual = margin(random, roomy);
    let mut margins = vec![usual; hours];
    match random.within(0..=9) {
        0..=2 => {}
        // An outage, of the whole or of a part.
        3..=4 => some_hours(random, &mut margins).fill(0),
        5 => {
            let less = random.within(0..=u64::from(usual)) as u32;
            some_hours(random, &mut margins).fill(less);
        }
        6 => {
            let hour = random.one_of(hours);
            margins[usize::from(hour) - 1] = usual.saturating_sub(1);
        }
        7..=8 => {
            for margin in &mut margins {
                *margin = usual.saturating_sub(random.within(0..=3) as u32);
            }
        }
        _ => margins.fill_with(|| margin(random, roomy)),
    }
    margins
}

/// Gives all accounts about the same least margins, each in an hour of its own,
/// so that both parties of a trade can reach their limits, in different hours.
fn even_out(random: &mut Random, setup: &mut Setup) {
    let hours = setup.estimates.len();
    let least = random.within(2..=20_000) as u32;
    for account in &mut setup.accounts {
        for margins in [&mut account.lower_margins, &mut account.upper_margins] {
            let more = random.within(1..=u64::from(least)) as u32;
            margins.fill(least + more);
            margins[usize::from(random.one_of(hours)) - 1] = least - random.pick(&[0, 0, 1]);
        }
    }
}

/// The margins of a run of hours; at times of the first or the last hours.
fn some_hours<'a>(random: &mut Random, margins: &'a mut [u32]) -> &'a mut [u32] {
    let some = random.within(2..=5) as usize;
    let length = random.weighted(&[(30, 1), (50, some), (20, margins.len() / 2)]);
    let latest = margins.len() - length;
    let any = random.within(0..=latest as u64) as usize;
    let first = random.pick(&[0, any, any, latest]);
    &mut margins[first..][..length]
}

fn margin(random: &mut Random, roomy: bool) -> u32 {
    if roomy || random.chance(20) {
        return GREATEST_QUANTITY;
    }
    match random.within(0..=9) {
        0 => 0,
        1..=3 => 20_000,
        4..=5 => random.within(1..=1_000) as u32,
        6 => GREATEST_QUANTITY,
        _ => random.within(0..=2_000_000) as u32,
    }
}

/// Gives each of the first accounts a point more in two zones, where there is
/// place for them; often both are mixed.
fn spread_out(random: &mut Random, setup: &mut Setup) {
    setup.zones = setup.zones.max(3);
    for account in 1..=setup.accounts.len().min(4) as u8 {
        let mixed = random.chance(50);
        let zone = random.one_of(setup.zones.into());
        for zone in [zone, zone % setup.zones + 1] {
            if setup.points.len() < 64 {
                let mut point = point(random, setup, account);
                point.zone = zone;
                if mixed {
                    point.kind = PointKind::Mixed;
                }
                setup.points.push(point);
            }
        }
    }
}

fn point(random: &mut Random, setup: &Setup, account: u8) -> Point {
    let kind = match setup.account(account).kind {
        _ if random.chance(45) => PointKind::Mixed,
        Direction::Injection => PointKind::Injection,
        Direction::Withdrawal => PointKind::Withdrawal,
    };
    let mut greatest = || match random.within(0..=9) {
        0 => 0,
        1..=2 => random.within(1..=100) as u32,
        3..=5 => 15_000,
        6..=7 => GREATEST_QUANTITY,
        _ => random.within(1..=1_000_000) as u32,
    };
    let (injection, withdrawal) = (greatest(), greatest());
    Point {
        account,
        kind,
        zone: random.one_of(usize::from(setup.zones)),
        greatest_injection: match kind {
            PointKind::Withdrawal => 0,
            _ => injection,
        },
        greatest_withdrawal: match kind {
            PointKind::Injection => 0,
            _ => withdrawal,
        },
    }
}

/// Damages the bytes of a set-up in one way or another; not always so that it
/// is refused.
pub(crate) fn damage(random: &mut Random, setup: &Setup) -> Vec<u8> {
    let mut setup = setup.clone();
    match random.within(0..=5) {
        0 => {
            let mut bytes = setup.to_bytes();
            let length = random.within(0..=bytes.len() as u64 + 3) as usize;
            bytes.resize(length, 0);
            bytes
        }
        1 => {
            let mut bytes = setup.to_bytes();
            let offset = random.within(0..=4) as usize;
            bytes[offset] = random.pick(&[0, 1, 8, 9, 16, 17, 22, 26, 32, 33, 64, 65, 255]);
            bytes
        }
        2 => {
            let mut bytes = setup.to_bytes();
            for _ in 0..random.within(1..=2) {
                let offset = random.within(5..=bytes.len() as u64 - 1) as usize;
                bytes[offset] = random.pick(&[0, 1, 2, 3, 4, 255]);
            }
            bytes
        }
        3 => {
            put_margins_beyond(random, &mut setup);
            setup.to_bytes()
        }
        4 => {
            put_margins_off(random, &mut setup);
            setup.to_bytes()
        }
        _ => {
            put_one_value_beyond(random, &mut setup);
            setup.to_bytes()
        }
    }
}

/// Puts one margin beyond its range, at times two of the same account.
fn put_margins_beyond(random: &mut Random, setup: &mut Setup) {
    let account = often_last(random, setup.accounts.len());
    for _ in 0..random.pick(&[1, 1, 2]) {
        let hour = often_last(random, setup.estimates.len());
        let account = &mut setup.accounts[account];
        let margins = match random.within(0..=1) {
            0 => &mut account.lower_margins,
            _ => &mut account.upper_margins,
        };
        margins[hour] = random.pick(&[GREATEST_QUANTITY + 1, u32::MAX]);
    }
}

/// Gives an account margins for other hours than those of the day, or gives
/// every account one of each kind only.
fn put_margins_off(random: &mut Random, setup: &mut Setup) {
    let account = often_last(random, setup.accounts.len());
    match random.within(0..=3) {
        0 => setup.accounts[account].lower_margins.push(0),
        1 => setup.accounts[account].upper_margins.truncate(22),
        2 => setup.estimates.push(0),
        _ => {
            for account in &mut setup.accounts {
                account.lower_margins.truncate(1);
                account.upper_margins.truncate(1);
            }
        }
    }
}

/// Where one of `count` things lies, often the last.
fn often_last(random: &mut Random, count: usize) -> usize {
    if random.chance(40) {
        count - 1
    } else {
        usize::from(random.one_of(count)) - 1
    }
}

/// Puts a value just beyond its range, or at odds with another.
fn put_one_value_beyond(random: &mut Random, setup: &mut Setup) {
    let hour = random.one_of(setup.estimates.len());
    let operator = random.one_of(setup.operators.len());
    let account = random.one_of(setup.accounts.len());
    let operators = setup.operators.len() as u8;
    let accounts = setup.accounts.len() as u8;
    let zones = setup.zones;
    let holder = &mut setup.accounts[usize::from(account) - 1];
    match random.within(0..=7) {
        0 => setup.estimates[usize::from(hour) - 1] = GREATEST_PRICE + 1,
        1 => setup.operators[usize::from(operator) - 1].guarantee = GREATEST_GUARANTEE + 1,
        2 => setup.operators[usize::from(operator) - 1].maintenance = 1001,
        3 => holder.operator = random.pick(&[0, operators + 1]),
        fault => {
            let number = random.one_of(setup.points.len());
            let Some(point) = setup.points.get_mut(usize::from(number) - 1) else {
                return;
            };
            match fault {
                4 => point.account = random.pick(&[0, accounts + 1]),
                5 => point.zone = random.pick(&[0, zones + 1]),
                6 => point.kind = random.pick(&[PointKind::Injection, PointKind::Withdrawal]),
                _ => {
                    let amount = random.pick(&[1, GREATEST_QUANTITY + 1]);
                    point.greatest_injection = amount;
                    point.greatest_withdrawal = amount;
                }
            }
        }
    }
}
