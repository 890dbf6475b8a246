//! The trades of the day: rows, positions, guarantees and exposures.
//!
//! Positions and exposures are kept up to date with every change of a row.
//! Between calls every margin and every guarantee is kept. A change can
//! therefore break a margin only in its own hours, and these alone are
//! searched; and it can raise the exposure of the calling account's operator
//! only, since to be confirmed never weighs more on a proposer than to wait.

#[cfg(test)]
pub(crate) mod damages;
pub(crate) mod stands;
mod strip;

use crate::trade::Span;
use crate::{refusal, Position, Request, Row, Setup, Side, Status, Verdict};

/// The most rows that a day numbers.
pub const MOST_ROWS: usize = 256;

/// All that a batch may change.
#[derive(Clone, Debug, PartialEq, Eq)]
pub(crate) struct Ledger {
    rows: Vec<Row>,
    /// One for each hour of each account, account by account.
    positions: Vec<Position>,
    /// Cents, by operator.
    guarantees: Vec<u64>,
    /// Thousandths of a cent, by operator.
    exposures: Vec<u64>,
}

impl Ledger {
    /// The empty ledger of a day.
    pub fn new(setup: &Setup) -> Self {
        Self {
            rows: Vec::new(),
            positions: vec![Position::default(); setup.accounts.len() * setup.estimates.len()],
            guarantees: setup.operators.iter().map(|o| o.guarantee).collect(),
            exposures: vec![0; setup.operators.len()],
        }
    }

    pub fn rows(&self) -> &[Row] {
        &self.rows
    }

    /// The positions of an account, hour by hour.
    pub fn positions(&self, setup: &Setup, account: u8) -> &[Position] {
        let hours = setup.estimates.len();
        &self.positions[hours * (usize::from(account) - 1)..][..hours]
    }

    pub fn exposure(&self, operator: u8) -> u64 {
        self.exposures[usize::from(operator) - 1]
    }

    /// The exposure of an operator, summed from the net positions and the
    /// pending rows, as it must be where neither it nor what pends is kept.
    pub fn exposure_from_rows(&self, setup: &Setup, operator: u8) -> u64 {
        let mut exposure = 0;
        for (account, number) in setup.accounts.iter().zip(1..) {
            if account.operator != operator {
                continue;
            }
            let positions = self.positions(setup, number);
            for (position, &estimate) in positions.iter().zip(&setup.estimates) {
                exposure += u64::from(estimate) * (-position.net).max(0) as u64;
            }
        }
        for row in &self.rows {
            if row.status == Status::Pending
                && row.side == Side::Sell
                && setup.account(row.account).operator == operator
            {
                let hours = Span::of(row, row.account).hours();
                let estimates = setup.estimates[hours].iter().copied();
                exposure += u64::from(row.quantity) * estimates.map(u64::from).sum::<u64>();
            }
        }
        exposure
    }

    /// What an operator's accounts expose in an hour, account by account, at the
    /// estimate of the hour. The exposure that is kept has no part in it.
    pub fn hourly_exposure(&self, setup: &Setup, operator: u8, hour: u8) -> u64 {
        let at = usize::from(hour) - 1;
        let by_account = self.positions.chunks_exact(setup.estimates.len());
        let energy: u64 = setup
            .accounts
            .iter()
            .zip(by_account)
            .filter(|(account, _)| account.operator == operator)
            .map(|(_, positions)| positions[at].exposed() as u64)
            .sum();
        u64::from(setup.estimates[at]) * energy
    }

    /// What an operator's guarantee covers, in thousandths of a cent.
    pub fn available(&self, setup: &Setup, operator: u8) -> u64 {
        let guarantee = self.guarantees[usize::from(operator) - 1];
        covered(setup, operator, guarantee)
    }

    /// Adds a pending row.
    pub fn register(&mut self, setup: &Setup, request: &Request) -> Verdict {
        let row = Row::proposed(request);
        let verdict = self.proposal(setup, &row);
        if verdict.is_accepted() {
            let propose = |p: Position| p.with_proposal(row.side, row.quantity as i32);
            self.apply(setup, Span::of(&row, row.account), propose);
            self.rows.push(row);
        }
        verdict
    }

    /// What the proposal of a row is answered, with the number that the row has
    /// or would have.
    pub fn proposal(&self, setup: &Setup, row: &Row) -> Verdict {
        if self
            .find_pending(row.account, row.counterparty, row.code)
            .is_some()
        {
            return Verdict::refused(refusal::ALREADY_PENDING);
        }
        if self.rows.len() == MOST_ROWS {
            return Verdict::refused(refusal::ROWS_FULL);
        }
        let span = Span::of(row, row.account);
        let propose = |p: Position| p.with_proposal(row.side, row.quantity as i32);
        if let Some(hour) = self.broken_margin(setup, span, propose) {
            return Verdict::refused_with(refusal::MARGIN, hour, 0);
        }
        let rise = self.exposure_change(setup, span, propose);
        if !self.bears(setup, setup.account(row.account).operator, rise) {
            return Verdict::refused(refusal::GUARANTEE);
        }
        Verdict::accepted(self.rows.len() as u16 + 1)
    }

    /// Confirms the pending row that the other party proposed.
    pub fn confirm(&mut self, setup: &Setup, request: &Request) -> Verdict {
        let Some(index) = self.find_pending(request.other, request.account, request.code) else {
            return Verdict::refused(refusal::NOT_PENDING);
        };
        let row = self.rows[index];
        if !row.is_mirrored_by(request) {
            return Verdict::refused(refusal::NOT_MIRRORED);
        }
        let quantity = row.quantity as i32;
        let caller = Span::of(&row, row.counterparty);
        let proposer = Span::of(&row, row.account);
        let trade = |p: Position| p.with_trade(Side::of(request), quantity);
        let fulfil = |p: Position| {
            p.with_proposal(row.side, -quantity)
                .with_trade(row.side, quantity)
        };
        if let Some(hour) = self.broken_margin(setup, caller, trade) {
            return Verdict::refused_with(refusal::MARGIN, hour, 0);
        }
        let operator = setup.account(caller.account).operator;
        let mut rise = self.exposure_change(setup, caller, trade);
        if operator == setup.account(proposer.account).operator {
            rise += self.exposure_change(setup, proposer, fulfil);
        }
        if !self.bears(setup, operator, rise) {
            return Verdict::refused(refusal::GUARANTEE);
        }
        self.apply(setup, caller, trade);
        self.apply(setup, proposer, fulfil);
        self.rows[index].status = Status::Confirmed;
        Verdict::accepted(index as u16 + 1)
    }

    /// Ends a pending row of the calling account.
    pub fn withdraw(&mut self, setup: &Setup, request: &Request) -> Verdict {
        let index = usize::from(request.number) - 1;
        let row = match self.rows.get_mut(index) {
            Some(row) if row.status == Status::Pending && row.account == request.account => row,
            _ => return Verdict::refused(refusal::NOT_PENDING),
        };
        row.status = Status::Withdrawn;
        let row = *row;
        let span = Span::of(&row, row.account);
        self.apply(setup, span, |p| {
            p.with_proposal(row.side, -(row.quantity as i32))
        });
        Verdict::accepted(0)
    }

    /// Replaces an operator's guarantee.
    pub fn replace_guarantee(&mut self, setup: &Setup, request: &Request) -> Verdict {
        let Request {
            operator,
            guarantee,
            ..
        } = *request;
        if covered(setup, operator, guarantee) < self.exposure(operator) {
            return Verdict::refused(refusal::GUARANTEE);
        }
        self.guarantees[usize::from(operator) - 1] = guarantee;
        Verdict::accepted(0)
    }

    /// Ends every pending row.
    pub fn withdraw_all(&mut self, setup: &Setup) {
        for row in &mut self.rows {
            if row.status == Status::Pending {
                row.status = Status::Withdrawn;
            }
        }
        self.exposures.fill(0);
        let by_account = self.positions.chunks_exact_mut(setup.estimates.len());
        for (account, positions) in setup.accounts.iter().zip(by_account) {
            let exposure = &mut self.exposures[usize::from(account.operator) - 1];
            for (position, &estimate) in positions.iter_mut().zip(&setup.estimates) {
                position.pending_sales = 0;
                position.pending_purchases = 0;
                *exposure += u64::from(estimate) * position.exposed() as u64;
            }
        }
    }

    /// Where the pending row of a proposer, counterparty and code stands.
    /// There is at most one.
    fn find_pending(&self, account: u8, counterparty: u8, code: u64) -> Option<usize> {
        self.rows.iter().position(|row| {
            row.code == code
                && row.account == account
                && row.counterparty == counterparty
                && row.status == Status::Pending
        })
    }

    /// The lowest hour in which a change would break a margin of the account.
    fn broken_margin(
        &self,
        setup: &Setup,
        span: Span,
        change: impl Fn(Position) -> Position,
    ) -> Option<u16> {
        self.positions(setup, span.account)[span.hours()]
            .iter()
            .map(|&position| change(position))
            .zip(setup.account(span.account).margins(span.hours()))
            .position(|(position, (lower, upper))| {
                position.low() < -(lower as i32) || position.high() > upper as i32
            })
            .map(|hours_before| u16::from(span.first) + hours_before as u16)
    }

    /// By how much a change would raise the exposure of the account's operator.
    fn exposure_change(
        &self,
        setup: &Setup,
        span: Span,
        change: impl Fn(Position) -> Position,
    ) -> i64 {
        self.positions(setup, span.account)[span.hours()]
            .iter()
            .zip(&setup.estimates[span.hours()])
            .map(|(&position, &estimate)| {
                i64::from(estimate) * i64::from(change(position).exposed() - position.exposed())
            })
            .sum()
    }

    /// Whether an operator's guarantee covers a rise of its exposure.
    fn bears(&self, setup: &Setup, operator: u8, rise: i64) -> bool {
        self.exposure(operator).saturating_add_signed(rise) <= self.available(setup, operator)
    }

    /// Makes a change, and brings the exposure of the operator up to date.
    fn apply(&mut self, setup: &Setup, span: Span, change: impl Fn(Position) -> Position) {
        let operator = usize::from(setup.account(span.account).operator) - 1;
        let rise = self.exposure_change(setup, span, &change);
        self.exposures[operator] = self.exposures[operator].saturating_add_signed(rise);
        let start = setup.estimates.len() * (usize::from(span.account) - 1);
        for position in &mut self.positions[start..][span.hours()] {
            *position = change(*position);
        }
    }
}

/// What a guarantee covers after maintenance, in thousandths of a cent.
fn covered(setup: &Setup, operator: u8, guarantee: u64) -> u64 {
    guarantee * u64::from(1000 - setup.operator(operator).maintenance)
}
