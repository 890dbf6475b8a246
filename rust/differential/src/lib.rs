//! The proved book and the reference implementation, held against each other.
//!
//! A day is played on both ([`play`]): after every call the verdict, its details and both lent buffers are equal, and of each operator of
//! the proved book the hourly exposures sum to the exposure. Some readings are compared at every fourth call, all at the day's end. With
//! another margin in its set-up, the one is a book exactly if the other is. The balances that the proved book writes are also the totals
//! of the reference's hourly amounts. A strip of one row answers as its register, and an accepted one of any length leaves what its
//! registers in turn leave, in both. An ask answers as its register on a copy, and an accepted commit as its ask; with other bytes in the
//! place of an ask, the one is a book exactly if the other is. A day on which they differ is cut down to the calls that it takes
//! ([`shrink`]) and stored ([`Day`]).

#![forbid(unsafe_code)]

mod amounts;
mod asked;
mod asks;
mod counts;
mod damaged;
mod day;
pub mod directed;
pub mod made;
mod margins;
mod ours;
mod play;
pub mod replay;
mod shaped;
mod shrink;
mod strips;

pub use counts::Counts;
pub use day::Day;
pub use play::play;
pub use shrink::shrink;
