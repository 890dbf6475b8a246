//! Several rows of one proposer, all or none.

use super::{Ledger, MOST_ROWS};
use crate::trade::Span;
use crate::{refusal, Position, Request, Row, Setup, Verdict};

impl Ledger {
    /// Adds the rows of a strip, which has some and all of one proposer, and
    /// gives the number of the first. Margins and guarantee are read with every
    /// row in.
    pub fn register_strip(&mut self, setup: &Setup, requests: &[Request]) -> Verdict {
        let rows: Vec<Row> = requests.iter().map(Row::proposed).collect();
        let is_pending = |row: &Row| {
            self.find_pending(row.account, row.counterparty, row.code)
                .is_some()
        };
        if rows.iter().any(is_pending) {
            return Verdict::refused(refusal::ALREADY_PENDING);
        }
        if has_twins(&rows) {
            return Verdict::refused(refusal::STRIP_TWINS);
        }
        if rows.len() > MOST_ROWS - self.rows.len() {
            return Verdict::refused(refusal::ROWS_FULL);
        }
        let account = rows[0].account;
        let before = self.positions(setup, account);
        let after = with_proposals(before, &rows);
        if let Some(hour) = broken_hour(setup, account, &after) {
            return Verdict::refused_with(refusal::MARGIN, hour, 0);
        }
        let rise = rise_of_exposure(setup, before, &after);
        let operator = setup.account(account).operator;
        if !self.bears(setup, operator, rise) {
            return Verdict::refused(refusal::GUARANTEE);
        }
        let first = self.rows.len() + 1;
        let exposure = &mut self.exposures[usize::from(operator) - 1];
        *exposure = exposure.saturating_add_signed(rise);
        let start = after.len() * (usize::from(account) - 1);
        self.positions[start..][..after.len()].copy_from_slice(&after);
        self.rows.extend(rows);
        Verdict::accepted(first as u16)
    }
}

/// Whether two rows have the same counterparty and code.
fn has_twins(rows: &[Row]) -> bool {
    let alike = |a: &Row, b: &Row| a.counterparty == b.counterparty && a.code == b.code;
    (1..rows.len()).any(|at| rows[..at].iter().any(|row| alike(row, &rows[at])))
}

/// The hours of a proposer with every row in.
fn with_proposals(before: &[Position], rows: &[Row]) -> Vec<Position> {
    let mut after = before.to_vec();
    for row in rows {
        for position in &mut after[Span::of(row, row.account).hours()] {
            *position = position.with_proposal(row.side, row.quantity as i32);
        }
    }
    after
}

/// The lowest hour of the day in which a margin of the account is broken.
fn broken_hour(setup: &Setup, account: u8, hours: &[Position]) -> Option<u16> {
    let margins = setup.account(account).margins(0..hours.len());
    let broken = |(position, (lower, upper)): (&Position, (u32, u32))| {
        position.low() < -(lower as i32) || position.high() > upper as i32
    };
    let index = hours.iter().zip(margins).position(broken)?;
    Some(index as u16 + 1)
}

/// By how much the hours of an account raise the exposure of its operator.
fn rise_of_exposure(setup: &Setup, before: &[Position], after: &[Position]) -> i64 {
    let hours = before.iter().zip(after).zip(&setup.estimates);
    hours
        .map(|((before, after), &estimate)| {
            i64::from(estimate) * i64::from(after.exposed() - before.exposed())
        })
        .sum()
}
