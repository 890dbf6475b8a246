//! Asks: what a register would be answered, and its commit thereafter.

use super::Book;
use crate::{refusal, Request, Row, Verdict};

impl Book {
    /// The ask that stands for each account, by number: the row that would be
    /// registered.
    pub fn asks(&self) -> &[Option<Row>] {
        &self.asks
    }

    /// Answers as a register would. An accepted ask takes the place of the one
    /// that stood for the account.
    pub(super) fn ask(&mut self, request: &Request) -> Verdict {
        let row = Row::proposed(request);
        let verdict = self.ledger.proposal(&self.setup, &row);
        if verdict.is_accepted() {
            self.asks[usize::from(row.account) - 1] = Some(row);
        }
        verdict
    }

    /// Registers what the account has asked about.
    pub(super) fn commit(&mut self, request: &Request) -> Verdict {
        if self.asks[usize::from(request.account) - 1] != Some(Row::proposed(request)) {
            return Verdict::refused(refusal::NO_ASK);
        }
        self.ledger.register(&self.setup, request)
    }

    /// Every accepted call but an ask does this.
    pub(super) fn clear_asks(&mut self) {
        self.asks.fill(None);
    }
}
