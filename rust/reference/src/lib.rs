//! A plain reference implementation of the energy account book.
//!
//! A [`Book`] holds one flow day: it is opened from set-up bytes and then
//! takes requests, each a short record. Trades are registered by one account,
//! alone or in a strip of several, all or none, and confirmed by its
//! counterparty while the gate is open; an account may first ask what a register
//! would be answered, and then commit to it; schedules are taken after the gate
//! closes; settlement judges the schedules and draws up
//! each operator's balance. Every call answers with a [`Verdict`]. Calls trust
//! what the book holds; [`Book::stands`] checks it, for one who does not.
//! [`Book::hourly_exposure`] says what an operator's accounts expose in one hour,
//! [`Book::exposure`] what they expose in all. [`Book::figures`] says what each
//! account hour comes to, article by article ([`valuation`]).
//!
//! Energy is whole kWh, prices are euro cents per MWh and money is
//! thousandths of a cent, so energy times price is money without rounding.
//! Operators, accounts, points, zones and hours are numbered from 1.

#![forbid(unsafe_code)]

mod book;
mod bytes;
pub mod days;
mod ledger;
mod replay;
mod request;
mod settlement;
mod setup;
mod strip;
mod trade;
pub mod valuation;
mod verdict;

pub use book::{Book, Phase};
pub use ledger::MOST_ROWS;
pub use replay::{replay, LONGEST_STREAM};
pub use request::{bit, kind, layout, read, write, Request};
pub use settlement::{Schedule, MOST_SCHEDULES};
pub use setup::{Account, Direction, Operator, Point, PointKind, Setup};
pub use strip::{strip_record, MOST_STRIP_ROWS};
pub use trade::{Position, Row, Side, Status};
pub use verdict::{refusal, Verdict};

/// The greatest quantity of a request, margin or point, in kWh.
pub const GREATEST_QUANTITY: u32 = 10_000_000;
/// The greatest price, in cents per MWh.
pub const GREATEST_PRICE: u32 = 400_000;
/// The greatest guarantee, in cents.
pub const GREATEST_GUARANTEE: u64 = 1_000_000_000_000;
