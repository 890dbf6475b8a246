//! Whether a ledger is what its rows make of it, within all limits.

use super::{Ledger, MOST_ROWS};
use crate::book::counts;
use crate::{Position, Row, Setup, Side, Status};
use crate::{GREATEST_GUARANTEE, GREATEST_QUANTITY};

impl Ledger {
    /// Whether every value is in range, no two pending rows are alike,
    /// positions and exposures are those that the rows make, and margins and
    /// guarantees are kept. The set-up is an allowed one.
    pub fn stands(&self, setup: &Setup) -> bool {
        self.rows.len() <= MOST_ROWS
            && self.positions.len() == setup.accounts.len() * setup.estimates.len()
            && self.guarantees.len() == setup.operators.len()
            && self.guarantees.iter().all(|&g| g <= GREATEST_GUARANTEE)
            && self.rows.iter().all(|row| is_allowed(row, setup))
            && self.pending_rows_differ()
            && self.sums_stand(setup)
    }

    /// Whether a batch that was opened on `saved` can have led here: the rows
    /// are still there, and none has changed but pending ones in status.
    pub fn continues(&self, saved: &Ledger) -> bool {
        self.rows.len() >= saved.rows.len()
            && self.rows.iter().zip(&saved.rows).all(|(row, saved)| {
                let status = match saved.status {
                    Status::Pending => row.status,
                    ended => ended,
                };
                *row == Row { status, ..*saved }
            })
    }

    pub fn has_pending(&self) -> bool {
        self.rows.iter().any(|row| row.status == Status::Pending)
    }

    /// Whether no two pending rows have the same proposer, counterparty and
    /// code: in order, two that are alike stand side by side. The code comes
    /// first, since it tells most rows apart.
    fn pending_rows_differ(&self) -> bool {
        let pending = self.rows.iter().filter(|row| row.status == Status::Pending);
        let mut keys: Vec<_> = pending
            .map(|row| (row.code, row.account, row.counterparty))
            .collect();
        keys.sort_unstable();
        keys.windows(2).all(|pair| pair[0] != pair[1])
    }

    /// Whether positions and exposures are the sums of the rows, and keep the
    /// margins and guarantees.
    fn sums_stand(&self, setup: &Setup) -> bool {
        let hours = setup.estimates.len();
        let changes = changes(&self.rows, setup);
        let positions = self.positions.chunks_exact(hours);
        let by_account = positions.zip(changes.chunks_exact(hours + 1));
        let mut exposures = vec![0; setup.operators.len()];
        for (account, (positions, changes)) in setup.accounts.iter().zip(by_account) {
            let exposure = &mut exposures[usize::from(account.operator) - 1];
            let limits = account.margins(0..hours).zip(&setup.estimates);
            let by_hour = positions.iter().zip(changes).zip(limits);
            let mut sum = Sum::default();
            for ((position, &change), (margins, &estimate)) in by_hour {
                sum.add(change, 1);
                if !sum.is(position) || !sum.keeps(margins) {
                    return false;
                }
                *exposure += u64::from(estimate) * sum.exposed();
            }
        }
        let stand = exposures == self.exposures
            && (1..)
                .zip(exposures)
                .all(|(operator, exposure)| exposure <= self.available(setup, operator));
        debug_assert!(!stand || self.hours_total(setup));
        stand
    }

    /// Whether the hourly exposures of each operator total its exposure. They are
    /// not kept, so that no ledger can be at fault for it.
    fn hours_total(&self, setup: &Setup) -> bool {
        (1..).zip(&self.exposures).all(|(operator, &exposure)| {
            let hourly = |hour| self.hourly_exposure(setup, operator, hour);
            (1..=setup.hours()).map(hourly).sum::<u64>() == exposure
        })
    }
}

/// Whether the fields of a row are in range, and its accounts two.
pub(crate) fn is_allowed(row: &Row, setup: &Setup) -> bool {
    counts(row.account, setup.accounts.len())
        && counts(row.counterparty, setup.accounts.len())
        && row.account != row.counterparty
        && 0 < row.first
        && row.first <= row.last
        && row.last <= setup.hours()
        && (1..=GREATEST_QUANTITY).contains(&row.quantity)
}

/// What rows make of an account hour, or by how much one differs from the hour
/// before. Wider than a [`Position`], so that no rows are too many.
#[derive(Clone, Copy, Default)]
struct Sum {
    net: i64,
    pending_sales: i64,
    pending_purchases: i64,
}

impl Sum {
    fn net(net: i64) -> Self {
        Self {
            net,
            ..Self::default()
        }
    }

    fn sale(pending_sales: i64) -> Self {
        Self {
            pending_sales,
            ..Self::default()
        }
    }

    fn purchase(pending_purchases: i64) -> Self {
        Self {
            pending_purchases,
            ..Self::default()
        }
    }

    /// Adds another, so many times.
    fn add(&mut self, other: Sum, times: i64) {
        self.net += times * other.net;
        self.pending_sales += times * other.pending_sales;
        self.pending_purchases += times * other.pending_purchases;
    }

    fn is(&self, position: &Position) -> bool {
        self.net == i64::from(position.net)
            && self.pending_sales == i64::from(position.pending_sales)
            && self.pending_purchases == i64::from(position.pending_purchases)
    }

    /// Whether the lower and the upper margin of the hour are kept.
    fn keeps(&self, (lower, upper): (u32, u32)) -> bool {
        -i64::from(lower) <= self.net - self.pending_sales
            && self.net + self.pending_purchases <= i64::from(upper)
    }

    fn exposed(&self) -> u64 {
        ((-self.net).max(0) + self.pending_sales) as u64
    }
}

/// By how much the rows raise each hour of an account above the hour before,
/// account by account, with one hour more for what ends with the last. So a
/// row is entered where it begins and where it has ended, not in every hour.
fn changes(rows: &[Row], setup: &Setup) -> Vec<Sum> {
    let hours = setup.estimates.len() + 1;
    let mut changes = vec![Sum::default(); setup.accounts.len() * hours];
    for row in rows {
        let mut enter = |account: u8, sum: Sum| {
            let day = &mut changes[hours * (usize::from(account) - 1)..][..hours];
            day[usize::from(row.first) - 1].add(sum, 1);
            day[usize::from(row.last)].add(sum, -1);
        };
        let quantity = i64::from(row.quantity);
        match (row.status, row.side) {
            (Status::Pending, Side::Sell) => enter(row.account, Sum::sale(quantity)),
            (Status::Pending, Side::Buy) => enter(row.account, Sum::purchase(quantity)),
            (Status::Confirmed, Side::Sell) => {
                enter(row.account, Sum::net(-quantity));
                enter(row.counterparty, Sum::net(quantity));
            }
            (Status::Confirmed, Side::Buy) => {
                enter(row.account, Sum::net(quantity));
                enter(row.counterparty, Sum::net(-quantity));
            }
            (Status::Withdrawn, _) => {}
        }
    }
    changes
}
