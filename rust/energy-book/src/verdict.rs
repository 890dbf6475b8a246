//! Verdicts: accepted with a number, or refused with the details that go with it.

use std::error::Error;
use std::fmt;

/// The answer of a call.
#[derive(Clone, Copy, Debug, PartialEq, Eq, Hash)]
#[must_use]
pub enum Verdict {
    /// The number is the row of register, confirm and commit, the row that an ask would get, the first row of a strip, the place of
    /// schedule, the rows that undo struck; else 0.
    Accepted { number: u16 },
    /// No lent byte was changed.
    Refused(Refusal),
}

/// Why a call was refused, in the order of the numbers 1 to 23. Of several that apply the lowest is given, but that
/// [`Refusal::StripCount`] comes after 5 and before 6, [`Refusal::StripTwins`] after 14 and before 15, and
/// [`Refusal::NoStandingAsk`] after 13 and before 14.
#[derive(Clone, Copy, Debug, PartialEq, Eq, Hash)]
pub enum Refusal {
    /// Not a book, or not 49,152 bytes.
    NotABook,
    /// A record under 3 bytes, with no kind, or with a bit past the fields.
    Unreadable,
    /// The kind is not 1 to 13; of a single record that is read or written, 11 too; of a row of a strip, any but 1.
    UnknownKind,
    /// How many wanted fields are missing, and how many stand unwanted.
    WrongMap { missing: u16, unwanted: u16 },
    /// Of the record, the price table or the fields.
    WrongLength,
    /// The lowest bit at fault; 12 for the price table.
    OutOfRange { bit: u16 },
    /// Both accounts are the same.
    SameAccount,
    /// A set-up under 5 bytes, with a count out of range, or of the wrong length.
    SetupShape,
    /// The lowest offset of a value at fault in the set-up.
    SetupValue { offset: u16 },
    /// A buffer is shorter than what is written.
    BufferShort,
    /// Not the phase of this kind.
    WrongPhase,
    /// A batch is open.
    BatchOpen,
    /// No batch is open.
    NoBatch,
    /// A pending row has this proposer, counterparty and code.
    AlreadyPending,
    /// 256 rows have numbers; for a strip, fewer are left than it has.
    RowsFull,
    /// There is no such pending row.
    NoSuchRow,
    /// The terms of a confirm do not mirror those of the row.
    NotMirrored,
    /// A margin of the calling account would be broken; the lowest hour.
    MarginBroken { hour: u16 },
    /// Exposure would be above what is available.
    Uncovered,
    /// 256 schedules stand.
    SchedulesFull,
    /// A strip has not 1 to 24 rows.
    StripCount,
    /// Two rows of a strip are alike in counterparty and code.
    StripTwins,
    /// No ask with the fields of this commit stands for its account.
    NoStandingAsk,
}

impl Refusal {
    /// The number and the two details; details that the refusal has not are 0.
    pub fn numbers(self) -> (u8, u16, u16) {
        match self {
            Refusal::NotABook => (1, 0, 0),
            Refusal::Unreadable => (2, 0, 0),
            Refusal::UnknownKind => (3, 0, 0),
            Refusal::WrongMap { missing, unwanted } => (4, missing, unwanted),
            Refusal::WrongLength => (5, 0, 0),
            Refusal::OutOfRange { bit } => (6, bit, 0),
            Refusal::SameAccount => (7, 0, 0),
            Refusal::SetupShape => (8, 0, 0),
            Refusal::SetupValue { offset } => (9, offset, 0),
            Refusal::BufferShort => (10, 0, 0),
            Refusal::WrongPhase => (11, 0, 0),
            Refusal::BatchOpen => (12, 0, 0),
            Refusal::NoBatch => (13, 0, 0),
            Refusal::AlreadyPending => (14, 0, 0),
            Refusal::RowsFull => (15, 0, 0),
            Refusal::NoSuchRow => (16, 0, 0),
            Refusal::NotMirrored => (17, 0, 0),
            Refusal::MarginBroken { hour } => (18, hour, 0),
            Refusal::Uncovered => (19, 0, 0),
            Refusal::SchedulesFull => (20, 0, 0),
            Refusal::StripCount => (21, 0, 0),
            Refusal::StripTwins => (22, 0, 0),
            Refusal::NoStandingAsk => (23, 0, 0),
        }
    }

    fn of_numbers(number: u8, first: u16, second: u16) -> Refusal {
        match number {
            1 => Refusal::NotABook,
            2 => Refusal::Unreadable,
            3 => Refusal::UnknownKind,
            4 => Refusal::WrongMap { missing: first, unwanted: second },
            5 => Refusal::WrongLength,
            6 => Refusal::OutOfRange { bit: first },
            7 => Refusal::SameAccount,
            8 => Refusal::SetupShape,
            9 => Refusal::SetupValue { offset: first },
            10 => Refusal::BufferShort,
            11 => Refusal::WrongPhase,
            12 => Refusal::BatchOpen,
            13 => Refusal::NoBatch,
            14 => Refusal::AlreadyPending,
            15 => Refusal::RowsFull,
            16 => Refusal::NoSuchRow,
            17 => Refusal::NotMirrored,
            18 => Refusal::MarginBroken { hour: first },
            19 => Refusal::Uncovered,
            20 => Refusal::SchedulesFull,
            21 => Refusal::StripCount,
            22 => Refusal::StripTwins,
            23 => Refusal::NoStandingAsk,
            _ => panic!("verdict {number} is unknown: the library is of another version"),
        }
    }

    fn in_words(self) -> &'static str {
        match self {
            Refusal::NotABook => "not a book",
            Refusal::Unreadable => "record is unreadable",
            Refusal::UnknownKind => "unknown kind",
            Refusal::WrongMap { .. } => "map is not that of the kind",
            Refusal::WrongLength => "wrong length",
            Refusal::OutOfRange { .. } => "field out of range",
            Refusal::SameAccount => "both accounts are the same",
            Refusal::SetupShape => "set-up has the wrong shape",
            Refusal::SetupValue { .. } => "set-up value at fault",
            Refusal::BufferShort => "buffer is too short",
            Refusal::WrongPhase => "wrong phase",
            Refusal::BatchOpen => "a batch is open",
            Refusal::NoBatch => "no batch is open",
            Refusal::AlreadyPending => "already pending",
            Refusal::RowsFull => "no row is left",
            Refusal::NoSuchRow => "no such pending row",
            Refusal::NotMirrored => "terms do not mirror",
            Refusal::MarginBroken { .. } => "margin would be broken",
            Refusal::Uncovered => "guarantee does not cover the exposure",
            Refusal::SchedulesFull => "no schedule is left",
            Refusal::StripCount => "strip has not 1 to 24 rows",
            Refusal::StripTwins => "two rows of the strip are alike",
            Refusal::NoStandingAsk => "no ask with these fields stands",
        }
    }
}

impl fmt::Display for Refusal {
    fn fmt(&self, f: &mut fmt::Formatter<'_>) -> fmt::Result {
        let (number, first, second) = self.numbers();
        write!(f, "refused by {number} ({}), details {first} and {second}", self.in_words())
    }
}

impl Error for Refusal {}

impl Verdict {
    /// The number and the two details: 0 is acceptance.
    pub fn numbers(self) -> (u8, u16, u16) {
        match self {
            Verdict::Accepted { number } => (0, number, 0),
            Verdict::Refused(refusal) => refusal.numbers(),
        }
    }

    /// The number of an acceptance, or the refusal.
    ///
    /// ```
    /// use energy_book::{Refusal, Verdict};
    ///
    /// assert_eq!(Verdict::Accepted { number: 3 }.ok(), Ok(3));
    /// assert_eq!(Verdict::Refused(Refusal::NoBatch).ok(), Err(Refusal::NoBatch));
    /// ```
    pub fn ok(self) -> Result<u16, Refusal> {
        match self {
            Verdict::Accepted { number } => Ok(number),
            Verdict::Refused(refusal) => Err(refusal),
        }
    }

    /// An outcome is one number: the verdict's in the low byte, then the details in 2 bytes each.
    pub(crate) fn unpacked(outcome: u64) -> Verdict {
        let [number, first_low, first_high, second_low, second_high, ..] = outcome.to_le_bytes();
        let first = u16::from_le_bytes([first_low, first_high]);
        match number {
            0 => Verdict::Accepted { number: first },
            _ => Verdict::Refused(Refusal::of_numbers(number, first, u16::from_le_bytes([second_low, second_high]))),
        }
    }
}
