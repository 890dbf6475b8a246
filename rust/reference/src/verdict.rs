//! The answer to a call.

/// What a call answers: a number, 0 for acceptance, and up to two details.
/// Details that the number does not name are 0.
#[derive(Clone, Copy, Debug, PartialEq, Eq, Hash, PartialOrd, Ord)]
pub struct Verdict {
    /// 0 for acceptance, else one of the numbers in [`refusal`].
    pub number: u8,
    /// The first detail: a row number (of a strip its first, of an ask the one
    /// that its row would get), place, hour, field bit, offset or count.
    pub first: u16,
    /// The second detail: the count of unwanted fields, at [`refusal::MAP`].
    pub second: u16,
}

impl Verdict {
    /// An acceptance with its detail.
    pub const fn accepted(first: u16) -> Self {
        Self {
            number: 0,
            first,
            second: 0,
        }
    }

    /// A refusal without details.
    pub const fn refused(number: u8) -> Self {
        Self::refused_with(number, 0, 0)
    }

    /// A refusal with its details.
    pub const fn refused_with(number: u8, first: u16, second: u16) -> Self {
        Self {
            number,
            first,
            second,
        }
    }

    /// Whether the call was accepted.
    pub const fn is_accepted(self) -> bool {
        self.number == 0
    }
}

/// The numbers of the refusals. Of several that apply the lowest is given, but
/// that 21 comes after 5 and before 6, 22 after 14 and before 15, and 23 after 13
/// and before 14.
pub mod refusal {
    /// Record under 3 bytes, without a kind, or with an unknown field.
    pub const RECORD: u8 = 2;
    /// The kind is not 1 to 13; of a record read or written by itself, 11 too;
    /// of a row of a strip, any but 1.
    pub const KIND: u8 = 3;
    /// The map is not the kind's: wanted fields missing, fields unwanted.
    pub const MAP: u8 = 4;
    /// Wrong length of the record or the price table.
    pub const LENGTH: u8 = 5;
    /// A field is out of range: its bit.
    pub const FIELD: u8 = 6;
    /// Both accounts are the same.
    pub const SAME_ACCOUNT: u8 = 7;
    /// Set-up under 5 bytes, a count out of range, or of a wrong length.
    pub const SETUP: u8 = 8;
    /// A value of the set-up is at fault: its offset.
    pub const SETUP_VALUE: u8 = 9;
    /// An output buffer is too short.
    pub const BUFFER: u8 = 10;
    /// The call belongs to another phase.
    pub const PHASE: u8 = 11;
    /// A batch is open.
    pub const BATCH_OPEN: u8 = 12;
    /// No batch is open.
    pub const NO_BATCH: u8 = 13;
    /// A pending row has this proposer, counterparty and code.
    pub const ALREADY_PENDING: u8 = 14;
    /// Not as many row numbers of the day are left as are needed.
    pub const ROWS_FULL: u8 = 15;
    /// There is no such pending row.
    pub const NOT_PENDING: u8 = 16;
    /// The confirmation does not mirror the row.
    pub const NOT_MIRRORED: u8 = 17;
    /// A margin of the calling account would be broken: the lowest hour.
    pub const MARGIN: u8 = 18;
    /// Exposure would exceed the available guarantee.
    pub const GUARANTEE: u8 = 19;
    /// All places for schedules are used.
    pub const SCHEDULES_FULL: u8 = 20;
    /// A strip has not 1 to 24 rows.
    pub const STRIP_COUNT: u8 = 21;
    /// Two rows of a strip have the same counterparty and code.
    pub const STRIP_TWINS: u8 = 22;
    /// No ask with these fields stands for the account.
    pub const NO_ASK: u8 = 23;
}
