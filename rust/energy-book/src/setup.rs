//! The set-up of a day.

/// An operator.
#[derive(Clone, Copy, Debug, PartialEq, Eq, Hash)]
pub struct Operator {
    /// In cents.
    pub guarantee: u64,
    /// Per thousand of the guarantee.
    pub maintenance: u16,
}

/// An account. It has a lower and an upper margin for each hour; [`Account::same_all_day`] makes one with the same two in every hour.
#[derive(Clone, Debug, PartialEq, Eq, Hash)]
pub struct Account {
    pub operator: u8,
    /// 1 injection, 2 withdrawal.
    pub kind: u8,
    /// The lower margin of each hour, in kWh: as many as the day has hours.
    pub lower: Vec<u32>,
    /// The upper margin of each hour, in kWh: as many as the day has hours.
    pub upper: Vec<u32>,
}

impl Account {
    /// An account with the same lower and the same upper margin, in kWh, in every hour of a day of so many hours.
    ///
    /// ```
    /// use energy_book::Account;
    ///
    /// let mut account = Account::same_all_day(1, 1, 20_000, 0, 24);
    /// assert_eq!(account, Account { operator: 1, kind: 1, lower: vec![20_000; 24], upper: vec![0; 24] });
    ///
    /// // An outage in hours 5 to 8.
    /// account.lower[4..8].fill(0);
    /// ```
    pub fn same_all_day(operator: u8, kind: u8, lower: u32, upper: u32, hours: usize) -> Account {
        Account { operator, kind, lower: vec![lower; hours], upper: vec![upper; hours] }
    }
}

/// A point.
#[derive(Clone, Copy, Debug, PartialEq, Eq, Hash)]
pub struct Point {
    pub account: u8,
    /// 1 injection, 2 withdrawal, 3 mixed.
    pub kind: u8,
    pub zone: u8,
    /// The greatest injection per hour, in kWh.
    pub injection: u32,
    /// The greatest withdrawal per hour, in kWh.
    pub withdrawal: u32,
}

/// What a day begins with. Operators, accounts, points, zones and hours count from 1.
#[derive(Clone, Debug, Default, PartialEq, Eq, Hash)]
pub struct Setup {
    /// The estimated price of each hour, in cents per MWh: 23 to 25 of them.
    pub estimates: Vec<u32>,
    pub operators: Vec<Operator>,
    pub accounts: Vec<Account>,
    pub points: Vec<Point>,
    pub zones: u8,
}

/// A count in one byte. More than fits becomes 255, which is out of range of every count, so that opening refuses it.
fn count(n: usize) -> u8 {
    u8::try_from(n).unwrap_or(u8::MAX)
}

impl Setup {
    /// The bytes that [`crate::Book::open`] takes. Any values may stand here; opening refuses those out of range, and, by 8, an account
    /// that has not one lower and one upper margin for each hour.
    pub fn to_bytes(&self) -> Vec<u8> {
        let mut bytes =
            vec![self.hours(), count(self.operators.len()), count(self.accounts.len()), count(self.points.len()), self.zones];
        for estimate in &self.estimates {
            bytes.extend(estimate.to_le_bytes());
        }
        for operator in &self.operators {
            bytes.extend(operator.guarantee.to_le_bytes());
            bytes.extend(operator.maintenance.to_le_bytes());
        }
        for account in &self.accounts {
            bytes.extend([account.operator, account.kind]);
            for margin in account.lower.iter().chain(&account.upper) {
                bytes.extend(margin.to_le_bytes());
            }
        }
        for point in &self.points {
            bytes.extend([point.account, point.kind, point.zone]);
            bytes.extend(point.injection.to_le_bytes());
            bytes.extend(point.withdrawal.to_le_bytes());
        }
        bytes
    }

    /// The count of hours. Where an account has not as many margins of both kinds it becomes 255, so that opening refuses it: lists of
    /// other lengths could together be as long as they should, and would be read as other margins.
    fn hours(&self) -> u8 {
        let hours = self.estimates.len();
        let fits = |account: &Account| account.lower.len() == hours && account.upper.len() == hours;
        if self.accounts.iter().all(fits) {
            count(hours)
        } else {
            u8::MAX
        }
    }
}
