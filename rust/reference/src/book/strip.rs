//! Strips: up to 24 registers of one proposer, all or none.

use super::{out_of_range, Book};
use crate::strip::{of_rows, read_strip};
use crate::{bit, kind, Request, Verdict};

impl Book {
    /// Takes a strip. Every number is looked for in all rows before the next.
    pub(super) fn strip(&mut self, record: &[u8]) -> Result<Verdict, Verdict> {
        let rows = read_strip(record)?;
        let proposer = rows[0].account;
        of_rows(rows.iter().map(|row| self.check_row(row, proposer)))?;
        self.check_stage(kind::STRIP)?;
        Ok(self.ledger.register_strip(&self.setup, &rows))
    }

    /// What the set-up refuses of a row: 6 and 7. A proposer other than that of
    /// the first row is out of range, and no field comes before it.
    fn check_row(&self, row: &Request, proposer: u8) -> Result<(), Verdict> {
        if row.account != proposer {
            return Err(out_of_range(bit::ACCOUNT));
        }
        self.check_fields(row)
    }
}
