//! The proved book in both of its forms, on any bytes and on a known book, which are to agree on everything.

use energy_book::{raw, Book, Refusal, BOOK_SIZE, FIELDS_SIZE, FIGURE_SIZE};
use reference::days::Step;
use reference::{Request, Verdict};

/// What lent bytes hold before a call.
pub const UNWRITTEN: u8 = 0xA5;

/// The answer to a call: the verdict, and the buffers for results and balances thereafter.
#[derive(Clone, Debug, PartialEq, Eq)]
pub struct Answer {
    pub verdict: Verdict,
    pub results: Vec<u8>,
    pub balances: Vec<u8>,
}

impl Answer {
    /// What stands before a call: the lent buffers.
    pub fn lent(call: &Step) -> Self {
        Self { verdict: Verdict::accepted(0), results: vec![UNWRITTEN; call.results], balances: vec![UNWRITTEN; call.balances] }
    }

    /// The balances that an accepted settle wrote, by operator; after the last one, what else the buffer holds.
    pub fn written(&self) -> impl Iterator<Item = i64> + '_ {
        self.balances.chunks_exact(FIGURE_SIZE).map(|bytes| {
            let mut figure = [0; FIGURE_SIZE];
            figure.copy_from_slice(bytes);
            i64::from_le_bytes(figure)
        })
    }
}

/// Refused by 1.
const NO_BOOK: energy_book::Verdict = energy_book::Verdict::Refused(Refusal::NotABook);

/// A book as bytes for the public calls, and again for the inner ones, which the owner of a book goes by.
#[derive(Clone)]
pub struct Ours {
    public: Vec<u8>,
    owned: Book,
}

impl Ours {
    /// Opens a day; or the verdict of its refusal. The outer error says in what the forms differ.
    pub fn open(setup: &[u8]) -> Result<Result<Self, Verdict>, String> {
        let mut public = vec![UNWRITTEN; BOOK_SIZE];
        let verdict = verdict(raw::open(setup, &mut public));
        if !verdict.is_accepted() && public.iter().any(|&byte| byte != UNWRITTEN) {
            return Err(String::from("a refused opening changed the book"));
        }
        let mut short = vec![UNWRITTEN; BOOK_SIZE - 1];
        let refused = raw::open(setup, &mut short);
        if refused != NO_BOOK || short.iter().any(|&byte| byte != UNWRITTEN) {
            return Err(String::from("opening in too few bytes is not 1, or changed them"));
        }
        match Book::open(setup) {
            Ok(owned) if verdict.is_accepted() && owned.as_bytes()[..] == public[..] => Ok(Ok(Self { public, owned })),
            Err(_) if !verdict.is_accepted() => Ok(Err(verdict)),
            _ => Err(String::from("opening depends on what the bytes were")),
        }
    }

    pub fn bytes(&self) -> &[u8] {
        &self.public
    }

    /// A call in both forms. A refused one changes no lent byte.
    pub fn call(&mut self, call: &Step) -> Result<Answer, String> {
        let before = self.public.clone();
        let (mut public, mut inner) = (Answer::lent(call), Answer::lent(call));
        let outcome = raw::call(&call.record, &mut self.public, &call.prices, &mut public.results, &mut public.balances);
        public.verdict = verdict(outcome);
        let outcome = self.owned.call(&call.record, &call.prices, &mut inner.results, &mut inner.balances);
        inner.verdict = verdict(outcome);
        if public != inner {
            return Err(format!("the public call answers {public:?}, the inner one {inner:?}"));
        }
        if self.public[..] != self.owned.as_bytes()[..] {
            return Err(String::from("the two forms leave different books"));
        }
        if !public.verdict.is_accepted() {
            if self.public != before {
                return Err(String::from("a refused call changed the book"));
            }
            let mut unchanged = Answer::lent(call);
            unchanged.verdict = public.verdict;
            if public != unchanged {
                return Err(String::from("a refused call changed a buffer"));
            }
        }
        Ok(public)
    }

    /// A net position in both forms.
    pub fn net(&self, account: u8, hour: u8) -> Result<Result<i64, Verdict>, String> {
        let mut figure = [UNWRITTEN; FIGURE_SIZE];
        let outcome = raw::net(&self.public, account, hour, &mut figure);
        let public = read_figure(outcome, figure)?;
        if self.owned.net(account, hour).map_err(refusal) != public {
            return Err(String::from("the two forms read different net positions"));
        }
        Ok(public)
    }

    /// An exposure in both forms.
    pub fn exposure(&self, operator: u8) -> Result<Result<u64, Verdict>, String> {
        let mut figure = [UNWRITTEN; FIGURE_SIZE];
        let outcome = raw::exposure(&self.public, operator, &mut figure);
        let public = read_figure(outcome, figure)?.map(|figure| figure as u64);
        if self.owned.exposure(operator).map_err(refusal) != public {
            return Err(String::from("the two forms read different exposures"));
        }
        Ok(public)
    }

    /// An hourly exposure in both forms.
    pub fn hourly_exposure(&self, operator: u8, hour: u8) -> Result<Result<u64, Verdict>, String> {
        let mut figure = [UNWRITTEN; FIGURE_SIZE];
        let outcome = raw::hourly_exposure(&self.public, operator, hour, &mut figure);
        let public = read_figure(outcome, figure)?.map(|figure| figure as u64);
        if self.owned.hourly_exposure(operator, hour).map_err(refusal) != public {
            return Err(String::from("the two forms read different hourly exposures"));
        }
        Ok(public)
    }

    /// An operator's exposure, and its hourly exposures in so many hours, by the inner form alone, which does not check the book.
    pub fn exposure_by_hour(&self, operator: u8, hours: u8) -> Result<(u64, Vec<u64>), Verdict> {
        let exposure = self.owned.exposure(operator).map_err(refusal)?;
        let by_hour: Result<Vec<u64>, Refusal> = (1..=hours).map(|hour| self.owned.hourly_exposure(operator, hour)).collect();
        Ok((exposure, by_hour.map_err(refusal)?))
    }

    /// The call on this book with other bytes put at an offset: where the bytes are no book it is 1, as are the readings, and changes
    /// nothing; where they still are one, both forms agree. Says whether they are one.
    pub fn damaged(&self, call: &Step, at: usize, put: &[u8]) -> Result<bool, String> {
        match self.with(call, at, put)? {
            Some(mut other) => other.call(call).map(|_| true),
            None => Ok(false),
        }
    }

    /// This book with other bytes put at an offset. Where they are no book the call is 1, as are the readings, and changes nothing.
    pub fn with(&self, call: &Step, at: usize, put: &[u8]) -> Result<Option<Self>, String> {
        let mut bytes = self.public.clone();
        bytes[at..at + put.len()].copy_from_slice(put);
        if let Ok(owned) = Book::from_bytes(&bytes) {
            return Ok(Some(Self { public: bytes, owned }));
        }
        let before = bytes.clone();
        let mut answer = Answer::lent(call);
        let outcome = raw::call(&call.record, &mut bytes, &call.prices, &mut answer.results, &mut answer.balances);
        let mut figure = [UNWRITTEN; FIGURE_SIZE];
        let outcomes = [
            outcome,
            raw::net(&bytes, 1, 1, &mut figure),
            raw::exposure(&bytes, 1, &mut figure),
            raw::hourly_exposure(&bytes, 1, 1, &mut figure),
        ];
        if outcomes != [NO_BOOK; 4] || answer != Answer::lent(call) || bytes != before || figure != [UNWRITTEN; FIGURE_SIZE] {
            return Err(format!("{put:?} put at {at}: no book, but not refused by 1 with all as it was"));
        }
        Ok(None)
    }
}

/// The figure of a reading, or its refusal, which leaves the buffer as it was.
fn read_figure(outcome: energy_book::Verdict, figure: [u8; FIGURE_SIZE]) -> Result<Result<i64, Verdict>, String> {
    match outcome.ok() {
        Ok(_) => Ok(Ok(i64::from_le_bytes(figure))),
        Err(refused) if figure == [UNWRITTEN; FIGURE_SIZE] => Ok(Err(refusal(refused))),
        Err(_) => Err(String::from("a refused reading changed its buffer")),
    }
}

/// The record reader's answer.
pub fn read(record: &[u8]) -> Result<[u8; FIELDS_SIZE], Verdict> {
    let mut fields = [UNWRITTEN; FIELDS_SIZE];
    match raw::read(record, &mut fields).ok() {
        Ok(_) => Ok(fields),
        Err(refused) => Err(refusal(refused)),
    }
}

/// The record writer's answer, and its buffer thereafter.
pub fn write(fields: &[u8], length: usize) -> (Verdict, Vec<u8>) {
    let mut buffer = vec![UNWRITTEN; length];
    let outcome = raw::write(fields, &mut buffer);
    (verdict(outcome), buffer)
}

/// A request's fields in 34 bytes.
pub fn fields(request: &Request) -> [u8; FIELDS_SIZE] {
    let mut fields = [0; FIELDS_SIZE];
    fields[0] = request.kind;
    fields[1] = request.account;
    fields[2] = request.other;
    fields[3..11].copy_from_slice(&request.code.to_le_bytes());
    fields[11] = request.side;
    fields[12] = request.first;
    fields[13] = request.last;
    fields[14..18].copy_from_slice(&request.quantity.to_le_bytes());
    fields[18..20].copy_from_slice(&request.number.to_le_bytes());
    fields[20] = request.operator;
    fields[21..29].copy_from_slice(&request.guarantee.to_le_bytes());
    fields[29] = request.point;
    fields[30..34].copy_from_slice(&request.price.to_le_bytes());
    fields
}

fn verdict(outcome: energy_book::Verdict) -> Verdict {
    let (number, first, second) = outcome.numbers();
    Verdict { number, first, second }
}

fn refusal(refused: Refusal) -> Verdict {
    verdict(energy_book::Verdict::Refused(refused))
}
