//! Whether a book is one that the paper calls a book.

#[cfg(test)]
mod tests;

use super::{counts, Book, Phase};
use crate::ledger::stands::is_allowed;
use crate::settlement::{Schedule, MOST_SCHEDULES};
use crate::{Row, Setup, Status, GREATEST_PRICE, GREATEST_QUANTITY};

impl Book {
    /// Whether all that the book holds is as it must be: the set-up one that
    /// opening accepts, every value in range, positions and exposures those
    /// that the rows make, margins and guarantees kept, at present and as
    /// saved by an open batch, and asks only that a register would be accepted
    /// for. Nothing is believed: all is summed anew.
    ///
    /// Every call leaves a book that stands, and none asks. This is the work
    /// of one who is handed a book by somebody else.
    pub fn stands(&self) -> bool {
        self.setup.is_allowed()
            && self.ledger.stands(&self.setup)
            && self.schedules.len() <= MOST_SCHEDULES
            && self.schedules.iter().all(|schedule| self.allows(schedule))
            && self.asks.len() == self.setup.accounts.len()
            && (1..)
                .zip(&self.asks)
                .all(|(account, ask)| ask.is_none_or(|row| self.bears_ask(account, &row)))
            && match self.phase {
                Phase::Registration => self.schedules.is_empty() && self.batch_stands(),
                Phase::Schedules | Phase::Settled => {
                    self.saved.is_none() && !self.ledger.has_pending()
                }
            }
    }

    /// Whether the book would stand with another set-up in place of its own.
    pub fn stands_with(&self, setup: &Setup) -> bool {
        let book = Self {
            setup: setup.clone(),
            ..self.clone()
        };
        book.stands()
    }

    /// The book with this in the place of an account's ask, if it stands. A number
    /// that no account has has none.
    pub fn with_ask(&self, place: u8, ask: Option<Row>) -> Option<Self> {
        let mut book = self.clone();
        match book.asks.get_mut(usize::from(place).wrapping_sub(1)) {
            Some(stood) => *stood = ask,
            None if ask.is_some() => return None,
            None => {}
        }
        book.stands().then_some(book)
    }

    /// The exposure of an operator, in thousandths of a cent, summed from the
    /// net positions and the pending rows; 0 if there is no such operator.
    pub fn exposure_from_rows(&self, operator: u8) -> u64 {
        self.ledger.exposure_from_rows(&self.setup, operator)
    }

    /// Whether what an open batch has saved stands, and can have led here.
    fn batch_stands(&self) -> bool {
        self.saved
            .as_ref()
            .is_none_or(|saved| saved.stands(&self.setup) && self.ledger.continues(saved))
    }

    /// Whether an ask can stand for an account: it is the account's own, and a
    /// register would be accepted for it now. All else of the book stands.
    fn bears_ask(&self, account: u8, row: &Row) -> bool {
        row.account == account
            && row.status == Status::Pending
            && self.phase == Phase::Registration
            && is_allowed(row, &self.setup)
            && self.ledger.proposal(&self.setup, row).is_accepted()
    }

    fn allows(&self, schedule: &Schedule) -> bool {
        counts(schedule.point, self.setup.points.len())
            && counts(schedule.hour, self.setup.estimates.len())
            && (1..=GREATEST_QUANTITY).contains(&schedule.quantity)
            && schedule.price <= GREATEST_PRICE
    }
}
