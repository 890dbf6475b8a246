//! A book that this crate owns.

use std::fmt;

use crate::{inner, raw, Refusal, Request, Strip, Verdict, BALANCES_MOST, BOOK_SIZE, FIGURE_SIZE, RESULTS_MOST};

/// Where the bytes of a book say how many operators it has and how many schedules stand (docs/LAYOUT.md).
const OPERATORS_AT: usize = 1;
const SCHEDULES_AT: usize = 8_194;

/// A book of one day. Its bytes are those of a book at all times: it is opened or checked, nobody else can write them, and the contract
/// of the inner call says that it leaves a book. So calls and readings go by the functions for a known book, which do not check the bytes again.
#[derive(Clone, PartialEq, Eq)]
pub struct Book {
    bytes: Box<[u8; BOOK_SIZE]>,
}

/// What an accepted settle gives.
#[derive(Clone, Debug, PartialEq, Eq)]
pub struct Settlement {
    /// By place: 0 registered, 1 over the point's greatest amount, 2 over the account's, 3 not at its price.
    pub results: Vec<u8>,
    /// By operator, in thousandths of a cent.
    pub balances: Vec<i64>,
}

/// The price table of a settle: PUN for each hour, then each zone's prices, zone by zone, in cents per MWh.
pub fn price_table(pun: &[u32], zones: &[&[u32]]) -> Vec<u8> {
    let zones = zones.iter().flat_map(|prices| prices.iter());
    pun.iter().chain(zones).flat_map(|price| price.to_le_bytes()).collect()
}

impl Book {
    /// Opens a book from the bytes of a set-up, or is refused by 8 or 9.
    ///
    /// ```
    /// use energy_book::{Book, Refusal};
    ///
    /// assert_eq!(Book::open(&[24, 1, 1, 0]), Err(Refusal::SetupShape));
    /// ```
    pub fn open(setup: &[u8]) -> Result<Book, Refusal> {
        let mut bytes = zeros();
        raw::open(setup, &mut bytes[..]).ok()?;
        Ok(Book { bytes })
    }

    /// The book that these bytes are, or 1.
    pub fn from_bytes(bytes: &[u8]) -> Result<Book, Refusal> {
        if !raw::is_book(bytes) {
            return Err(Refusal::NotABook);
        }
        let mut own = zeros();
        own.copy_from_slice(bytes);
        Ok(Book { bytes: own })
    }

    /// All bytes of the book, to be stored or sent; [`Book::from_bytes`] takes them back.
    pub fn as_bytes(&self) -> &[u8; BOOK_SIZE] {
        &self.bytes
    }

    /// A request of any kind but settle and strip: lent no price table and no buffers, so that a settle is refused. A strip has
    /// [`Book::submit_strip`].
    pub fn submit(&mut self, request: &Request) -> Verdict {
        match request.to_record() {
            Ok(record) => self.call(&record, &[], &mut [], &mut []),
            Err(refusal) => Verdict::Refused(refusal),
        }
    }

    /// A strip: all its rows are registered, with consecutive numbers of which the first is given, or none is.
    ///
    /// ```
    /// use energy_book::{Account, Book, Operator, Refusal, Request, Setup, Side, Strip, Terms, Verdict};
    ///
    /// let setup = Setup {
    ///     estimates: vec![5_000; 24],
    ///     operators: vec![Operator { guarantee: 1_000_000, maintenance: 0 }],
    ///     accounts: vec![Account::same_all_day(1, 1, 20_000, 0, 24), Account::same_all_day(1, 2, 0, 20_000, 24)],
    ///     points: vec![],
    ///     zones: 1,
    /// };
    /// let mut book = Book::open(&setup.to_bytes())?;
    /// let sale = |code, hour, quantity| Request::register(1, 2, Terms { code, side: Side::Sells, first: hour, last: hour, quantity });
    ///
    /// let strip = Strip::new().with(sale(1, 8, 12_000)).with(sale(2, 9, 15_000));
    /// assert_eq!(book.submit_strip(&strip), Verdict::Accepted { number: 1 });
    ///
    /// // 5,000 kWh are left in hour 9. Half a strip is not taken.
    /// let more = Strip::new().with(sale(3, 10, 1)).with(sale(4, 9, 5_001));
    /// assert_eq!(book.submit_strip(&more), Verdict::Refused(Refusal::MarginBroken { hour: 9 }));
    /// assert_eq!(book.submit(&sale(3, 10, 1)), Verdict::Accepted { number: 3 });
    /// # Ok::<(), Refusal>(())
    /// ```
    pub fn submit_strip(&mut self, strip: &Strip) -> Verdict {
        self.call(&strip.to_record(), &[], &mut [], &mut [])
    }

    /// The request that a record says; the longest that is taken is a strip of [`crate::STRIP_MOST`] bytes. Only settle looks at the
    /// price table and fills the two buffers.
    pub fn call(&mut self, record: &[u8], prices: &[u8], results: &mut [u8], balances: &mut [u8]) -> Verdict {
        // SAFETY: the bytes are a book.
        unsafe { inner::call(record, &mut self.bytes, prices, results, balances) }
    }

    /// Settles the day at a price table ([`price_table`]).
    pub fn settle(&mut self, prices: &[u8]) -> Result<Settlement, Refusal> {
        let record = Request::settle().to_record()?;
        let mut results = [0; RESULTS_MOST];
        let mut balances = [0; BALANCES_MOST];
        self.call(&record, prices, &mut results, &mut balances).ok()?;
        let schedules = u16::from_le_bytes([self.bytes[SCHEDULES_AT], self.bytes[SCHEDULES_AT + 1]]);
        let operators = usize::from(self.bytes[OPERATORS_AT]);
        Ok(Settlement {
            results: results[..usize::from(schedules)].to_vec(),
            balances: balances.chunks_exact(FIGURE_SIZE).take(operators).map(figure).collect(),
        })
    }

    /// The net position of an account in an hour, in kWh, bought less sold; or 6.
    pub fn net(&self, account: u8, hour: u8) -> Result<i64, Refusal> {
        let mut bytes = [0; FIGURE_SIZE];
        // SAFETY: the bytes are a book.
        unsafe { inner::net(&self.bytes, account, hour, &mut bytes) }.ok()?;
        Ok(i64::from_le_bytes(bytes))
    }

    /// The exposure of an operator, in thousandths of a cent; or 6.
    pub fn exposure(&self, operator: u8) -> Result<u64, Refusal> {
        let mut bytes = [0; FIGURE_SIZE];
        // SAFETY: the bytes are a book.
        unsafe { inner::exposure(&self.bytes, operator, &mut bytes) }.ok()?;
        Ok(u64::from_le_bytes(bytes))
    }

    /// The exposure of an operator in an hour, in thousandths of a cent; or 6. The figures of all hours sum to its exposure.
    ///
    /// ```
    /// use energy_book::{Account, Book, Operator, Refusal, Request, Setup, Side, Terms};
    ///
    /// let setup = Setup {
    ///     estimates: (1..=24).map(|hour| 1_000 * hour).collect(),
    ///     operators: vec![Operator { guarantee: 1_000_000, maintenance: 0 }],
    ///     accounts: vec![Account::same_all_day(1, 1, 20_000, 0, 24), Account::same_all_day(1, 2, 0, 20_000, 24)],
    ///     points: vec![],
    ///     zones: 1,
    /// };
    /// let mut book = Book::open(&setup.to_bytes())?;
    /// let terms = Terms { code: 1, side: Side::Sells, first: 8, last: 9, quantity: 500 };
    /// book.submit(&Request::register(1, 2, terms)).ok()?;
    ///
    /// assert_eq!(book.hourly_exposure(1, 8)?, 4_000_000);
    /// assert_eq!(book.hourly_exposure(1, 9)?, 4_500_000);
    /// let sum: u64 = (1..=24).map(|hour| book.hourly_exposure(1, hour)).sum::<Result<_, _>>()?;
    /// assert_eq!(sum, book.exposure(1)?);
    /// # Ok::<(), Refusal>(())
    /// ```
    pub fn hourly_exposure(&self, operator: u8, hour: u8) -> Result<u64, Refusal> {
        let mut bytes = [0; FIGURE_SIZE];
        // SAFETY: the bytes are a book.
        unsafe { inner::hourly_exposure(&self.bytes, operator, hour, &mut bytes) }.ok()?;
        Ok(u64::from_le_bytes(bytes))
    }
}

impl fmt::Debug for Book {
    fn fmt(&self, f: &mut fmt::Formatter<'_>) -> fmt::Result {
        f.debug_struct("Book").finish_non_exhaustive()
    }
}

fn zeros() -> Box<[u8; BOOK_SIZE]> {
    vec![0; BOOK_SIZE].into_boxed_slice().try_into().expect("as many bytes as a book has")
}

fn figure(bytes: &[u8]) -> i64 {
    i64::from_le_bytes(bytes.try_into().expect("8 bytes"))
}
