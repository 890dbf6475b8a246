//! The energy account book: one flow day of forward energy accounts in 49,152 bytes.
//!
//! Trades are registered by one party, alone or in strips, or asked for first and then committed, and confirmed by the other, guarantees
//! cover exposure, batches may be kept or undone, and after the gate schedules are taken and the day is settled. Net positions are read by
//! account and hour, exposures by operator or by operator and hour, in every phase. The work is done by a library whose every function
//! is proved; this crate hands it slices, and turns its answers into types.
//!
//! ```
//! use energy_book::{Account, Book, Operator, Point, Refusal, Request, Setup, Side, Terms, Verdict};
//!
//! let setup = Setup {
//!     estimates: vec![5_000; 24],
//!     operators: vec![Operator { guarantee: 100_000, maintenance: 100 }, Operator { guarantee: 0, maintenance: 0 }],
//!     accounts: vec![
//!         Account { operator: 1, kind: 1, lower: vec![20_000; 24], upper: vec![0; 24] },
//!         Account { operator: 2, kind: 2, lower: vec![0; 24], upper: vec![20_000; 24] },
//!     ],
//!     points: vec![Point { account: 1, kind: 1, zone: 1, injection: 15_000, withdrawal: 0 }],
//!     zones: 1,
//! };
//! let mut book = Book::open(&setup.to_bytes())?;
//!
//! // Account 1 sells 18,000 kWh in hour 1 to account 2, which confirms.
//! let terms = Terms { code: 7, side: Side::Sells, first: 1, last: 1, quantity: 18_000 };
//! assert_eq!(book.submit(&Request::register(1, 2, terms)), Verdict::Accepted { number: 1 });
//! assert_eq!(book.submit(&Request::confirm(2, 1, terms.mirrored())), Verdict::Accepted { number: 1 });
//! assert_eq!(book.net(1, 1)?, -18_000);
//! assert_eq!(book.net(2, 1)?, 18_000);
//! assert_eq!(book.exposure(1)?, 90_000_000);
//! assert_eq!(book.hourly_exposure(1, 1)?, 90_000_000);
//!
//! // A kWh more would not be covered.
//! let more = Terms { code: 8, quantity: 1, ..terms };
//! assert_eq!(book.submit(&Request::register(1, 2, more)), Verdict::Refused(Refusal::Uncovered));
//! # Ok::<(), Refusal>(())
//! ```
//!
//! A [`Book`] always is a book: it is opened or checked, and every call leaves one. [`raw`] has the same functions on any bytes.

mod book;
mod inner;
pub mod raw;
mod request;
mod setup;
mod strip;
mod verdict;

pub use book::{price_table, Book, Settlement};
pub use request::{Request, Side, Terms};
pub use setup::{Account, Operator, Point, Setup};
pub use strip::Strip;
pub use verdict::{Refusal, Verdict};

/// The bytes of a book.
pub const BOOK_SIZE: usize = 49_152;
/// The bytes of a figure: a net position, an exposure, an hourly exposure or a balance.
pub const FIGURE_SIZE: usize = 8;
/// The bytes of a request's fields.
pub const FIELDS_SIZE: usize = 34;
/// The bytes of the longest single record: of any kind but a strip.
pub const RECORD_MOST: usize = 20;
/// The bytes of the longest strip, and so of the longest record that a call takes.
pub const STRIP_MOST: usize = 484;
/// The most rows of a strip.
pub const STRIP_ROWS_MOST: usize = 24;
/// Room for the results of any settle.
pub const RESULTS_MOST: usize = 256;
/// Room for the balances of any settle.
pub const BALANCES_MOST: usize = 128;
