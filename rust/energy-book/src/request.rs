//! Requests, and the records that say them.

use crate::{raw, Refusal, FIELDS_SIZE, RECORD_MOST};

/// The lengths of single records by kind. No kind is 0, and a strip (11) is no single record.
const LENGTHS: [usize; 14] = [0, 20, 20, 6, 12, 3, 3, 3, 3, 14, 3, 0, 20, 20];

/// The side of a trade or a schedule.
#[derive(Clone, Copy, Debug, PartialEq, Eq, Hash)]
#[repr(u8)]
pub enum Side {
    /// Sells, or injects.
    Sells = 1,
    /// Buys, or withdraws.
    Buys = 2,
}

/// The terms of a trade, as the calling account sees them.
#[derive(Clone, Copy, Debug, PartialEq, Eq, Hash)]
pub struct Terms {
    pub code: u64,
    pub side: Side,
    pub first: u8,
    pub last: u8,
    /// In kWh.
    pub quantity: u32,
}

impl Terms {
    /// The same trade as the other party sees it.
    pub fn mirrored(self) -> Terms {
        let side = match self.side {
            Side::Sells => Side::Buys,
            Side::Buys => Side::Sells,
        };
        Terms { side, ..self }
    }
}

/// A request: its kind, and the field of each bit. A field that the kind has not is 0. Any numbers may stand here; a call refuses
/// those out of range.
#[derive(Clone, Copy, Debug, Default, PartialEq, Eq, Hash)]
pub struct Request {
    pub kind: u8,
    pub account: u8,
    pub other: u8,
    pub code: u64,
    pub side: u8,
    pub first: u8,
    pub last: u8,
    /// In kWh.
    pub quantity: u32,
    pub number: u16,
    pub operator: u8,
    /// In cents.
    pub guarantee: u64,
    pub point: u8,
    /// In cents per MWh.
    pub price: u32,
}

impl Request {
    fn of_kind(kind: u8) -> Request {
        Request { kind, ..Request::default() }
    }

    fn trade(kind: u8, account: u8, other: u8, terms: Terms) -> Request {
        Request {
            account,
            other,
            code: terms.code,
            side: terms.side as u8,
            first: terms.first,
            last: terms.last,
            quantity: terms.quantity,
            ..Request::of_kind(kind)
        }
    }

    /// Kind 1: the account proposes a trade to the other.
    pub fn register(account: u8, other: u8, terms: Terms) -> Request {
        Request::trade(1, account, other, terms)
    }

    /// Kind 2: the account confirms a trade that the other proposed.
    pub fn confirm(account: u8, other: u8, terms: Terms) -> Request {
        Request::trade(2, account, other, terms)
    }

    /// Kind 3: the account withdraws its pending row.
    pub fn withdraw(account: u8, number: u16) -> Request {
        Request { account, number, ..Request::of_kind(3) }
    }

    /// Kind 4: a new guarantee of an operator, in cents.
    pub fn guarantee(operator: u8, guarantee: u64) -> Request {
        Request { operator, guarantee, ..Request::of_kind(4) }
    }

    /// Kind 5.
    pub fn open_batch() -> Request {
        Request::of_kind(5)
    }

    /// Kind 6: restores everything as at the opening of the batch.
    pub fn undo() -> Request {
        Request::of_kind(6)
    }

    /// Kind 7: ends the batch and keeps what was done in it.
    pub fn keep() -> Request {
        Request::of_kind(7)
    }

    /// Kind 8: ends registration; pending rows are withdrawn.
    pub fn close_gate() -> Request {
        Request::of_kind(8)
    }

    /// Kind 9: a schedule of a point in an hour, in kWh at cents per MWh.
    pub fn schedule(point: u8, side: Side, hour: u8, quantity: u32, price: u32) -> Request {
        Request { point, side: side as u8, first: hour, quantity, price, ..Request::of_kind(9) }
    }

    /// Kind 10. [`crate::Book::settle`] lends it what it needs.
    pub fn settle() -> Request {
        Request::of_kind(10)
    }

    /// Kind 12: the account asks what a register would be answered, with the number that the row would get. An accepted ask stands for the
    /// account, in place of its earlier one, until a call other than an ask is accepted; nothing else is changed.
    pub fn ask(account: u8, other: u8, terms: Terms) -> Request {
        Request::trade(12, account, other, terms)
    }

    /// Kind 13: the account proposes the trade of the ask that stands for it, with all its fields, and is answered as the ask was.
    ///
    /// ```
    /// use energy_book::{Account, Book, Operator, Refusal, Request, Setup, Side, Terms, Verdict};
    ///
    /// let setup = Setup {
    ///     estimates: vec![5_000; 24],
    ///     operators: vec![Operator { guarantee: 1_000_000, maintenance: 0 }],
    ///     accounts: vec![Account::same_all_day(1, 1, 20_000, 0, 24), Account::same_all_day(1, 2, 0, 20_000, 24)],
    ///     points: vec![],
    ///     zones: 1,
    /// };
    /// let mut book = Book::open(&setup.to_bytes())?;
    /// let sale = |quantity| Terms { code: 1, side: Side::Sells, first: 9, last: 9, quantity };
    ///
    /// assert_eq!(book.submit(&Request::ask(1, 2, sale(20_001))), Verdict::Refused(Refusal::MarginBroken { hour: 9 }));
    /// assert_eq!(book.submit(&Request::ask(1, 2, sale(20_000))), Verdict::Accepted { number: 1 });
    /// assert_eq!(book.submit(&Request::commit(1, 2, sale(19_999))), Verdict::Refused(Refusal::NoStandingAsk));
    /// assert_eq!(book.submit(&Request::commit(1, 2, sale(20_000))), Verdict::Accepted { number: 1 });
    /// # Ok::<(), Refusal>(())
    /// ```
    pub fn commit(account: u8, other: u8, terms: Terms) -> Request {
        Request::trade(13, account, other, terms)
    }

    /// The record that says this request; refused by 3 where its kind is none, or that of a strip. Fields that the kind has not are left out.
    ///
    /// ```
    /// use energy_book::Request;
    ///
    /// assert_eq!(Request::withdraw(2, 258).to_record().unwrap(), [0x03, 0x01, 3, 2, 2, 1]);
    /// ```
    pub fn to_record(&self) -> Result<Vec<u8>, Refusal> {
        let mut record = [0; RECORD_MOST];
        raw::write(&self.to_fields(), &mut record).ok()?;
        Ok(record[..LENGTHS[usize::from(self.kind)]].to_vec())
    }

    /// The request that a single record says; refused by 2, 3, 4 or 5, a strip by 3.
    ///
    /// ```
    /// use energy_book::{Refusal, Request};
    ///
    /// assert_eq!(Request::from_record(&[0x01, 0x00, 6]), Ok(Request::undo()));
    /// assert_eq!(Request::from_record(&[0x01, 0x00, 11]), Err(Refusal::UnknownKind));
    /// ```
    pub fn from_record(record: &[u8]) -> Result<Request, Refusal> {
        let mut fields = [0; FIELDS_SIZE];
        raw::read(record, &mut fields).ok()?;
        Ok(Request::from_fields(&fields))
    }

    /// The fields in bit order, each in its full width, low byte first.
    pub fn to_fields(&self) -> [u8; FIELDS_SIZE] {
        let mut fields = [0; FIELDS_SIZE];
        fields[0] = self.kind;
        fields[1] = self.account;
        fields[2] = self.other;
        fields[3..11].copy_from_slice(&self.code.to_le_bytes());
        fields[11] = self.side;
        fields[12] = self.first;
        fields[13] = self.last;
        fields[14..18].copy_from_slice(&self.quantity.to_le_bytes());
        fields[18..20].copy_from_slice(&self.number.to_le_bytes());
        fields[20] = self.operator;
        fields[21..29].copy_from_slice(&self.guarantee.to_le_bytes());
        fields[29] = self.point;
        fields[30..34].copy_from_slice(&self.price.to_le_bytes());
        fields
    }

    /// The request that these fields say.
    pub fn from_fields(fields: &[u8; FIELDS_SIZE]) -> Request {
        let eight = |at: usize| u64::from_le_bytes(fields[at..at + 8].try_into().unwrap());
        let four = |at: usize| u32::from_le_bytes(fields[at..at + 4].try_into().unwrap());
        Request {
            kind: fields[0],
            account: fields[1],
            other: fields[2],
            code: eight(3),
            side: fields[11],
            first: fields[12],
            last: fields[13],
            quantity: four(14),
            number: u16::from_le_bytes([fields[18], fields[19]]),
            operator: fields[20],
            guarantee: eight(21),
            point: fields[29],
            price: four(30),
        }
    }
}
