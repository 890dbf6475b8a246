//! Whether a set-up is one that opening accepts.

use super::{Account, Operator, Point, PointKind, Setup};
use crate::book::counts;
use crate::{Direction, GREATEST_GUARANTEE, GREATEST_PRICE, GREATEST_QUANTITY};

impl Setup {
    /// Whether opening accepts a set-up that says this.
    pub(crate) fn is_allowed(&self) -> bool {
        (23..=25).contains(&self.estimates.len())
            && (1..=16).contains(&self.operators.len())
            && (1..=32).contains(&self.accounts.len())
            && self.points.len() <= 64
            && (1..=8).contains(&self.zones)
            && self.estimates.iter().all(|&price| price <= GREATEST_PRICE)
            && self.operators.iter().all(Operator::is_allowed)
            && self.accounts.iter().all(|account| self.allows(account))
            && self.points.iter().all(|point| self.allows_point(point))
    }

    fn allows(&self, account: &Account) -> bool {
        counts(account.operator, self.operators.len())
            && self.allows_margins(&account.lower_margins)
            && self.allows_margins(&account.upper_margins)
    }

    /// Whether there is a margin for each hour, and each is in range.
    fn allows_margins(&self, margins: &[u32]) -> bool {
        margins.len() == self.estimates.len()
            && margins.iter().all(|&margin| margin <= GREATEST_QUANTITY)
    }

    fn allows_point(&self, point: &Point) -> bool {
        if !counts(point.account, self.accounts.len()) || !counts(point.zone, self.zones.into()) {
            return false;
        }
        let account = self.account(point.account).kind;
        let (is_of_account, most_injected, most_withdrawn) = match point.kind {
            PointKind::Injection => (account == Direction::Injection, GREATEST_QUANTITY, 0),
            PointKind::Withdrawal => (account == Direction::Withdrawal, 0, GREATEST_QUANTITY),
            PointKind::Mixed => (true, GREATEST_QUANTITY, GREATEST_QUANTITY),
        };
        is_of_account
            && point.greatest_injection <= most_injected
            && point.greatest_withdrawal <= most_withdrawn
    }
}

impl Operator {
    fn is_allowed(&self) -> bool {
        self.guarantee <= GREATEST_GUARANTEE && self.maintenance <= 1000
    }
}

#[cfg(test)]
mod tests {
    use super::*;
    use crate::days::day;

    /// A change that opening refuses, and its name.
    type Fault = (&'static str, fn(&mut Setup));

    /// On a set-up with point 1 of kind 1, point 2 of kind 2 and point 3 mixed.
    const FAULTS: [Fault; 33] = [
        ("22 hours", |setup| put_hours(setup, 22)),
        ("26 hours", |setup| put_hours(setup, 26)),
        ("an hour without margins", |setup| setup.estimates.push(0)),
        ("no operator", |setup| setup.operators.clear()),
        ("17 operators", |setup| {
            setup.operators = vec![setup.operators[0].clone(); 17];
        }),
        ("no account", |setup| setup.accounts.clear()),
        ("33 accounts", |setup| {
            setup.accounts.resize(33, setup.accounts[1].clone());
        }),
        ("65 points", |setup| {
            setup.points = vec![setup.points[0].clone(); 65];
        }),
        ("no zone", |setup| setup.zones = 0),
        ("9 zones", |setup| setup.zones = 9),
        ("estimate", |setup| setup.estimates[22] = 400_001),
        ("guarantee", |setup| {
            setup.operators[1].guarantee = 1_000_000_000_001;
        }),
        ("maintenance", |setup| {
            setup.operators[1].maintenance = 1_001
        }),
        ("operator 0", |setup| setup.accounts[1].operator = 0),
        ("operator 3", |setup| setup.accounts[1].operator = 3),
        ("first lower margin", |setup| {
            setup.accounts[0].lower_margins[0] = 10_000_001;
        }),
        ("lower margin", |setup| {
            setup.accounts[1].lower_margins[11] = 10_000_001;
        }),
        ("last lower margin", |setup| {
            setup.accounts[1].lower_margins[22] = 10_000_001;
        }),
        ("first upper margin", |setup| {
            setup.accounts[1].upper_margins[0] = 10_000_001;
        }),
        ("last upper margin", |setup| {
            setup.accounts[1].upper_margins[22] = 10_000_001;
        }),
        ("a lower margin too few", |setup| {
            setup.accounts[0].lower_margins.truncate(22);
        }),
        ("an upper margin too many", |setup| {
            setup.accounts[1].upper_margins.push(0);
        }),
        ("account 0", |setup| setup.points[2].account = 0),
        ("account 3", |setup| setup.points[2].account = 3),
        ("zone 0", |setup| setup.points[2].zone = 0),
        ("zone 3", |setup| setup.points[2].zone = 3),
        ("injection, account of kind 2", |setup| {
            setup.points[0].account = 2;
        }),
        ("withdrawal, account of kind 1", |setup| {
            setup.points[1].account = 1;
        }),
        ("withdrawal on kind 1", |setup| {
            setup.points[0].greatest_withdrawal = 1;
        }),
        ("injection on kind 2", |setup| {
            setup.points[1].greatest_injection = 1;
        }),
        ("injection", |setup| {
            setup.points[0].greatest_injection = 10_000_001;
        }),
        ("withdrawal", |setup| {
            setup.points[1].greatest_withdrawal = 10_000_001;
        }),
        ("withdrawal, mixed", |setup| {
            setup.points[2].greatest_withdrawal = 10_000_001;
        }),
    ];

    /// Gives the day so many hours, and each account margins for them.
    fn put_hours(setup: &mut Setup, hours: usize) {
        setup.estimates.resize(hours, 0);
        for account in &mut setup.accounts {
            account.lower_margins.resize(hours, 0);
            account.upper_margins.resize(hours, 0);
        }
    }

    fn setup() -> Setup {
        let account = |operator, kind| Account {
            operator,
            kind,
            lower_margins: vec![GREATEST_QUANTITY; 23],
            upper_margins: vec![0; 23],
        };
        let point = |account, kind, greatest_injection, greatest_withdrawal| Point {
            account,
            kind,
            zone: 2,
            greatest_injection,
            greatest_withdrawal,
        };
        Setup {
            zones: 2,
            estimates: vec![GREATEST_PRICE; 23],
            operators: vec![
                Operator {
                    guarantee: GREATEST_GUARANTEE,
                    maintenance: 1000,
                };
                2
            ],
            accounts: vec![
                account(1, Direction::Injection),
                account(2, Direction::Withdrawal),
            ],
            points: vec![
                point(1, PointKind::Injection, GREATEST_QUANTITY, 0),
                point(2, PointKind::Withdrawal, 0, GREATEST_QUANTITY),
                point(2, PointKind::Mixed, GREATEST_QUANTITY, GREATEST_QUANTITY),
            ],
        }
    }

    #[test]
    fn what_opening_refuses_is_not_allowed() {
        assert!(setup().is_allowed());
        assert_eq!(Setup::read(&setup().to_bytes()), Ok(setup()));
        for (fault, make) in FAULTS {
            let mut setup = setup();
            make(&mut setup);
            assert!(Setup::read(&setup.to_bytes()).is_err(), "{fault}");
            assert!(!setup.is_allowed(), "{fault}");
        }
    }

    #[test]
    fn margins_of_another_hour_are_not_allowed() {
        // As many margins as there should be, but not as many of each.
        let mut setup = setup();
        setup.accounts[0].lower_margins.push(0);
        setup.accounts[0].upper_margins.pop();
        assert!(!setup.is_allowed());
    }

    #[test]
    fn what_opening_accepts_is_allowed() {
        for seed in 0..300 {
            if let Ok(setup) = Setup::read(&day(seed).0) {
                assert!(setup.is_allowed());
            }
        }
    }
}
