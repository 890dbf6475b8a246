//! The set-up of a day: its hours, operators, accounts, points and zones.

mod allowed;

use crate::bytes::number;
use crate::{refusal, Verdict, GREATEST_GUARANTEE, GREATEST_PRICE, GREATEST_QUANTITY};
use std::ops::{Range, RangeInclusive};

/// Whether energy goes into the grid or out of it.
#[derive(Clone, Copy, Debug, PartialEq, Eq, PartialOrd, Ord)]
pub enum Direction {
    Injection = 1,
    Withdrawal = 2,
}

/// What a point is for.
#[derive(Clone, Copy, Debug, PartialEq, Eq)]
pub enum PointKind {
    Injection = 1,
    Withdrawal = 2,
    Mixed = 3,
}

/// An operator as set up.
#[derive(Clone, Debug, PartialEq, Eq)]
pub struct Operator {
    /// Its guarantee at the opening, in cents.
    pub guarantee: u64,
    /// Its maintenance margin, per thousand.
    pub maintenance: u16,
}

/// An energy account.
#[derive(Clone, Debug, PartialEq, Eq)]
pub struct Account {
    /// The operator that holds it.
    pub operator: u8,
    pub kind: Direction,
    /// How far below zero it may go, in kWh, hour by hour.
    pub lower_margins: Vec<u32>,
    /// How far above zero it may go, in kWh, hour by hour.
    pub upper_margins: Vec<u32>,
}

impl Account {
    /// The lower and the upper margin of each of some hours, which are given by
    /// where they lie among those of the day.
    pub(crate) fn margins(&self, hours: Range<usize>) -> impl Iterator<Item = (u32, u32)> + '_ {
        let lower = self.lower_margins[hours.clone()].iter().copied();
        lower.zip(self.upper_margins[hours].iter().copied())
    }
}

/// A point of injection or withdrawal.
#[derive(Clone, Debug, PartialEq, Eq)]
pub struct Point {
    /// The account whose energy is scheduled here.
    pub account: u8,
    pub kind: PointKind,
    pub zone: u8,
    /// kWh in an hour.
    pub greatest_injection: u32,
    /// kWh in an hour.
    pub greatest_withdrawal: u32,
}

/// All that is fixed when the day opens.
#[derive(Clone, Debug, PartialEq, Eq)]
pub struct Setup {
    /// The number of zones.
    pub zones: u8,
    /// The estimated price of each hour; there are as many hours.
    pub estimates: Vec<u32>,
    pub operators: Vec<Operator>,
    pub accounts: Vec<Account>,
    pub points: Vec<Point>,
}

impl Setup {
    /// Reads set-up bytes. Refusals 8 and 9.
    pub fn read(bytes: &[u8]) -> Result<Self, Verdict> {
        let malformed = Verdict::refused(refusal::SETUP);
        let &[hours, operators, accounts, points, zones, ..] = bytes else {
            return Err(malformed);
        };
        let counts_allowed = (23..=25).contains(&hours)
            && (1..=16).contains(&operators)
            && (1..=32).contains(&accounts)
            && points <= 64
            && (1..=8).contains(&zones);
        let [h, o, a, p] = [hours, operators, accounts, points].map(usize::from);
        if !counts_allowed || bytes.len() != 5 + 4 * h + 10 * o + (2 + 8 * h) * a + 11 * p {
            return Err(malformed);
        }

        // Values are read in the order of their offsets, so that the first
        // fault met is the lowest.
        let mut values = Values { bytes, offset: 5 };
        let mut setup = Self {
            zones,
            estimates: Vec::with_capacity(h),
            operators: Vec::with_capacity(o),
            accounts: Vec::with_capacity(a),
            points: Vec::with_capacity(p),
        };
        for _ in 0..h {
            setup.estimates.push(values.price()?);
        }
        for _ in 0..o {
            setup.operators.push(Operator {
                guarantee: values.next(8, 0..=GREATEST_GUARANTEE)?,
                maintenance: values.next(2, 0..=1000)? as u16,
            });
        }
        for _ in 0..a {
            setup.accounts.push(Account {
                operator: values.count(operators)?,
                kind: match values.next(1, 1..=2)? {
                    1 => Direction::Injection,
                    _ => Direction::Withdrawal,
                },
                lower_margins: values.quantities(h)?,
                upper_margins: values.quantities(h)?,
            });
        }
        for _ in 0..p {
            let point = setup.read_point(&mut values)?;
            setup.points.push(point);
        }
        Ok(setup)
    }

    /// Reads a point, once the accounts are known.
    fn read_point(&self, values: &mut Values) -> Result<Point, Verdict> {
        let account = values.count(self.accounts.len() as u8)?;
        // A point of one direction needs an account of the same.
        let allowed = |kind| kind == 3 || kind == self.account(account).kind as u64;
        let kind_offset = values.offset;
        let kind = match values.next(1, 1..=3)? {
            kind if !allowed(kind) => return Err(value_at_fault(kind_offset)),
            1 => PointKind::Injection,
            2 => PointKind::Withdrawal,
            _ => PointKind::Mixed,
        };
        let zone = values.count(self.zones)?;
        let greatest_injection = match kind {
            PointKind::Withdrawal => values.zero()?,
            _ => values.quantity()?,
        };
        let greatest_withdrawal = match kind {
            PointKind::Injection => values.zero()?,
            _ => values.quantity()?,
        };
        Ok(Point {
            account,
            kind,
            zone,
            greatest_injection,
            greatest_withdrawal,
        })
    }

    /// The set-up bytes that say this.
    pub fn to_bytes(&self) -> Vec<u8> {
        let mut bytes = vec![
            self.hours(),
            self.operators.len() as u8,
            self.accounts.len() as u8,
            self.points.len() as u8,
            self.zones,
        ];
        for estimate in &self.estimates {
            bytes.extend(estimate.to_le_bytes());
        }
        for operator in &self.operators {
            bytes.extend(operator.guarantee.to_le_bytes());
            bytes.extend(operator.maintenance.to_le_bytes());
        }
        for account in &self.accounts {
            bytes.extend([account.operator, account.kind as u8]);
            for margin in account.lower_margins.iter().chain(&account.upper_margins) {
                bytes.extend(margin.to_le_bytes());
            }
        }
        for point in &self.points {
            bytes.extend([point.account, point.kind as u8, point.zone]);
            bytes.extend(point.greatest_injection.to_le_bytes());
            bytes.extend(point.greatest_withdrawal.to_le_bytes());
        }
        bytes
    }

    /// The number of hours.
    pub fn hours(&self) -> u8 {
        self.estimates.len() as u8
    }

    /// The account of a number.
    pub fn account(&self, account: u8) -> &Account {
        &self.accounts[usize::from(account) - 1]
    }

    /// The operator of a number.
    pub fn operator(&self, operator: u8) -> &Operator {
        &self.operators[usize::from(operator) - 1]
    }

    /// The point of a number.
    pub fn point(&self, point: u8) -> &Point {
        &self.points[usize::from(point) - 1]
    }

    /// The length of the price table that settlement takes, in bytes.
    pub fn price_table_length(&self) -> usize {
        4 * self.estimates.len() * (1 + usize::from(self.zones))
    }
}

/// The values of the set-up, one after another.
struct Values<'a> {
    bytes: &'a [u8],
    offset: usize,
}

impl Values<'_> {
    /// The next value, which must lie in a range.
    fn next(&mut self, width: usize, range: RangeInclusive<u64>) -> Result<u64, Verdict> {
        let value = number(&self.bytes[self.offset..self.offset + width]);
        if !range.contains(&value) {
            return Err(value_at_fault(self.offset));
        }
        self.offset += width;
        Ok(value)
    }

    /// The number of one of `count` things.
    fn count(&mut self, count: u8) -> Result<u8, Verdict> {
        Ok(self.next(1, 1..=u64::from(count))? as u8)
    }

    fn price(&mut self) -> Result<u32, Verdict> {
        Ok(self.next(4, 0..=u64::from(GREATEST_PRICE))? as u32)
    }

    fn quantity(&mut self) -> Result<u32, Verdict> {
        Ok(self.next(4, 0..=u64::from(GREATEST_QUANTITY))? as u32)
    }

    /// So many quantities, one after another.
    fn quantities(&mut self, count: usize) -> Result<Vec<u32>, Verdict> {
        (0..count).map(|_| self.quantity()).collect()
    }

    /// A quantity that must be zero.
    fn zero(&mut self) -> Result<u32, Verdict> {
        Ok(self.next(4, 0..=0)? as u32)
    }
}

fn value_at_fault(offset: usize) -> Verdict {
    Verdict::refused_with(refusal::SETUP_VALUE, offset as u16, 0)
}
