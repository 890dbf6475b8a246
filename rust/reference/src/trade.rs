//! Trades as rows, and what they make of an account's hours.

use crate::Request;
use std::ops::Range;

/// The side that an account takes in a trade.
#[derive(Clone, Copy, Debug, PartialEq, Eq)]
pub enum Side {
    Sell = 1,
    Buy = 2,
}

impl Side {
    /// The side of a request whose side is in range.
    pub(crate) fn of(request: &Request) -> Self {
        if request.side == Side::Sell as u8 {
            Side::Sell
        } else {
            Side::Buy
        }
    }
}

/// What has become of a row.
#[derive(Clone, Copy, Debug, PartialEq, Eq)]
pub enum Status {
    Pending,
    Confirmed,
    Withdrawn,
}

/// A registered trade, from the side of its proposer.
#[derive(Clone, Copy, Debug, PartialEq, Eq)]
pub struct Row {
    /// The proposer.
    pub account: u8,
    pub counterparty: u8,
    pub code: u64,
    pub side: Side,
    pub first: u8,
    pub last: u8,
    /// kWh in each hour.
    pub quantity: u32,
    pub status: Status,
}

impl Row {
    /// The row that a request to register proposes.
    pub(crate) fn proposed(request: &Request) -> Self {
        Self {
            account: request.account,
            counterparty: request.other,
            code: request.code,
            side: Side::of(request),
            first: request.first,
            last: request.last,
            quantity: request.quantity,
            status: Status::Pending,
        }
    }

    /// Whether a request to confirm has the opposite side and equal terms.
    pub(crate) fn is_mirrored_by(&self, request: &Request) -> bool {
        self.side != Side::of(request)
            && self.first == request.first
            && self.last == request.last
            && self.quantity == request.quantity
    }
}

/// Where an account stands in an hour, in kWh.
#[derive(Clone, Copy, Debug, Default, PartialEq, Eq)]
pub struct Position {
    /// Confirmed purchases less confirmed sales.
    pub net: i32,
    /// Sales that the account has proposed and that are pending.
    pub pending_sales: i32,
    /// Purchases that the account has proposed and that are pending.
    pub pending_purchases: i32,
}

impl Position {
    /// The lowest that the net can become through the account's proposals.
    pub fn low(self) -> i32 {
        self.net - self.pending_sales
    }

    /// The highest that the net can become through the account's proposals.
    pub fn high(self) -> i32 {
        self.net + self.pending_purchases
    }

    /// The energy for which the operator must have a guarantee.
    pub fn exposed(self) -> i32 {
        (-self.net).max(0) + self.pending_sales
    }

    /// The position with one more proposal; a negative quantity takes it away.
    pub(crate) fn with_proposal(mut self, side: Side, quantity: i32) -> Self {
        match side {
            Side::Sell => self.pending_sales += quantity,
            Side::Buy => self.pending_purchases += quantity,
        }
        self
    }

    /// The position with one more confirmed trade.
    pub(crate) fn with_trade(mut self, side: Side, quantity: i32) -> Self {
        match side {
            Side::Sell => self.net -= quantity,
            Side::Buy => self.net += quantity,
        }
        self
    }
}

/// The hours of one account that a row touches.
#[derive(Clone, Copy)]
pub(crate) struct Span {
    pub account: u8,
    pub first: u8,
    pub last: u8,
}

impl Span {
    /// The hours of a row, on the account of its proposer or its counterparty.
    pub fn of(row: &Row, account: u8) -> Self {
        Self {
            account,
            first: row.first,
            last: row.last,
        }
    }

    /// Where the hours lie among those of the day.
    pub fn hours(self) -> Range<usize> {
        usize::from(self.first) - 1..usize::from(self.last)
    }
}
