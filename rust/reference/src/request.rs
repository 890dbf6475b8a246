//! Requests and the records that carry them.
//!
//! A record is a two-byte map of the fields that follow, then those fields in
//! bit order. Each kind of request has one map and so one length. A strip is no
//! single record: it is neither read nor written here, but in `strip`.

use crate::bytes::{u16_at, u32_at, u64_at};
use crate::{refusal, Verdict};

/// The kinds of request.
pub mod kind {
    /// Propose a trade.
    pub const REGISTER: u8 = 1;
    /// Confirm a trade that the other party proposed.
    pub const CONFIRM: u8 = 2;
    /// Withdraw a proposal of one's own.
    pub const WITHDRAW: u8 = 3;
    /// Replace an operator's guarantee.
    pub const GUARANTEE: u8 = 4;
    /// Open a batch.
    pub const OPEN_BATCH: u8 = 5;
    /// Undo the open batch.
    pub const UNDO: u8 = 6;
    /// Keep the open batch.
    pub const KEEP: u8 = 7;
    /// Close the gate: end registration.
    pub const CLOSE_GATE: u8 = 8;
    /// Submit a schedule.
    pub const SCHEDULE: u8 = 9;
    /// Settle the day.
    pub const SETTLE: u8 = 10;
    /// Propose several trades of one account, all or none.
    pub const STRIP: u8 = 11;
    /// Ask what a proposal would be answered.
    pub const ASK: u8 = 12;
    /// Propose the trade that the account has asked about.
    pub const COMMIT: u8 = 13;
}

/// The bits of the map, one for each field.
pub mod bit {
    pub const KIND: u8 = 0;
    pub const ACCOUNT: u8 = 1;
    pub const OTHER: u8 = 2;
    pub const CODE: u8 = 3;
    pub const SIDE: u8 = 4;
    pub const FIRST: u8 = 5;
    pub const LAST: u8 = 6;
    pub const QUANTITY: u8 = 7;
    pub const NUMBER: u8 = 8;
    pub const OPERATOR: u8 = 9;
    pub const GUARANTEE: u8 = 10;
    pub const POINT: u8 = 11;
    pub const PRICE: u8 = 12;
}

/// Bits of the map that stand for no field.
const UNKNOWN_FIELDS: u16 = 0xE000;

/// A request. Fields that its kind has not are 0.
#[derive(Clone, Copy, Debug, Default, PartialEq, Eq, Hash)]
pub struct Request {
    /// One of the numbers in [`kind`].
    pub kind: u8,
    /// The calling account.
    pub account: u8,
    /// Its counterparty.
    pub other: u8,
    /// The matching code on which the parties agreed.
    pub code: u64,
    /// 1 sells or injects, 2 buys or withdraws.
    pub side: u8,
    /// The first hour of a trade, or the hour of a schedule.
    pub first: u8,
    /// The last hour of a trade.
    pub last: u8,
    /// kWh in each hour.
    pub quantity: u32,
    /// The number of a row.
    pub number: u16,
    /// An operator.
    pub operator: u8,
    /// Its new guarantee, in cents.
    pub guarantee: u64,
    /// A point of injection or withdrawal.
    pub point: u8,
    /// Cents per MWh.
    pub price: u32,
}

/// Whether a kind has the fields of a trade: two accounts, a code and terms.
pub(crate) const fn is_trade(kind: u8) -> bool {
    matches!(
        kind,
        kind::REGISTER | kind::CONFIRM | kind::ASK | kind::COMMIT
    )
}

/// The map and the length of a kind's record, if the kind has single records.
pub const fn layout(kind: u8) -> Option<(u16, usize)> {
    match kind {
        _ if is_trade(kind) => Some((0x00FF, 20)),
        kind::WITHDRAW => Some((0x0103, 6)),
        kind::GUARANTEE => Some((0x0601, 12)),
        kind::OPEN_BATCH..=kind::CLOSE_GATE | kind::SETTLE => Some((0x0001, 3)),
        kind::SCHEDULE => Some((0x18B1, 14)),
        _ => None,
    }
}

/// The map and the kind of a record. Refusal 2.
pub(crate) fn read_head(record: &[u8]) -> Result<(u16, u8), Verdict> {
    if record.len() < 3 {
        return Err(Verdict::refused(refusal::RECORD));
    }
    let map = u16_at(record, 0);
    if map & 1 == 0 || map & UNKNOWN_FIELDS != 0 {
        return Err(Verdict::refused(refusal::RECORD));
    }
    Ok((map, record[2]))
}

/// Whether a map is the one that is wanted. Refusal 4.
pub(crate) fn check_map(map: u16, wanted: u16) -> Result<(), Verdict> {
    if map == wanted {
        return Ok(());
    }
    let missing = (wanted & !map).count_ones() as u16;
    let unwanted = (map & !wanted).count_ones() as u16;
    Err(Verdict::refused_with(refusal::MAP, missing, unwanted))
}

/// Reads a record. Refusals 2 to 5; ranges are the book's to check.
pub fn read(record: &[u8]) -> Result<Request, Verdict> {
    let (map, kind) = read_head(record)?;
    let Some((wanted, length)) = layout(kind) else {
        return Err(Verdict::refused(refusal::KIND));
    };
    check_map(map, wanted)?;
    if record.len() != length {
        return Err(Verdict::refused(refusal::LENGTH));
    }
    let mut request = Request {
        kind,
        ..Request::default()
    };
    match kind {
        _ if is_trade(kind) => {
            request.account = record[3];
            request.other = record[4];
            request.code = u64_at(record, 5);
            request.side = record[13];
            request.first = record[14];
            request.last = record[15];
            request.quantity = u32_at(record, 16);
        }
        kind::WITHDRAW => {
            request.account = record[3];
            request.number = u16_at(record, 4);
        }
        kind::GUARANTEE => {
            request.operator = record[3];
            request.guarantee = u64_at(record, 4);
        }
        kind::SCHEDULE => {
            request.side = record[3];
            request.first = record[4];
            request.quantity = u32_at(record, 5);
            request.point = record[9];
            request.price = u32_at(record, 10);
        }
        _ => {}
    }
    Ok(request)
}

/// Writes a request's record into the first bytes of `buffer`, whatever the
/// values of its fields. Fields that the kind has not are left out. Refusals 3
/// and 10.
pub fn write(request: &Request, buffer: &mut [u8]) -> Verdict {
    let Some((map, length)) = layout(request.kind) else {
        return Verdict::refused(refusal::KIND);
    };
    let Some(record) = buffer.get_mut(..length) else {
        return Verdict::refused(refusal::BUFFER);
    };
    record[..2].copy_from_slice(&map.to_le_bytes());
    record[2] = request.kind;
    match request.kind {
        kind if is_trade(kind) => {
            record[3] = request.account;
            record[4] = request.other;
            record[5..13].copy_from_slice(&request.code.to_le_bytes());
            record[13] = request.side;
            record[14] = request.first;
            record[15] = request.last;
            record[16..].copy_from_slice(&request.quantity.to_le_bytes());
        }
        kind::WITHDRAW => {
            record[3] = request.account;
            record[4..].copy_from_slice(&request.number.to_le_bytes());
        }
        kind::GUARANTEE => {
            record[3] = request.operator;
            record[4..].copy_from_slice(&request.guarantee.to_le_bytes());
        }
        kind::SCHEDULE => {
            record[3] = request.side;
            record[4] = request.first;
            record[5..9].copy_from_slice(&request.quantity.to_le_bytes());
            record[9] = request.point;
            record[10..].copy_from_slice(&request.price.to_le_bytes());
        }
        _ => {}
    }
    Verdict::accepted(0)
}
