//! Days made from a seed, to try a book with.
//!
//! A day is a set-up and a list of calls. The calls come close to what limits
//! them, which takes a book that has followed the day so far: many just pass,
//! and many are refused by one unit. The same seed makes the same day.

mod asks;
mod damage;
mod random;
mod schedules;
mod setups;
mod strips;
mod trades;

use crate::{kind, layout, write, Book, Phase, Request, Row, Status};
use random::Random;

/// One call: its record, the price table and the lengths of the two buffers
/// that are lent with it.
#[derive(Clone, Debug, PartialEq, Eq)]
pub struct Step {
    pub record: Vec<u8>,
    pub prices: Vec<u8>,
    pub results: usize,
    pub balances: usize,
}

impl Step {
    /// The call of a request, with nothing lent.
    fn of(request: &Request) -> Self {
        let length = layout(request.kind).map_or(0, |(_, length)| length);
        let mut record = vec![0; length];
        write(request, &mut record);
        Self::of_record(record)
    }

    /// The call of a record, with nothing lent.
    fn of_record(record: Vec<u8>) -> Self {
        Self {
            record,
            prices: Vec::new(),
            results: 0,
            balances: 0,
        }
    }
}

/// The set-up and the calls of a day. A day whose set-up is refused has no
/// calls.
pub fn day(seed: u64) -> (Vec<u8>, Vec<Step>) {
    let mut random = Random::new(seed);
    let crowded = random.chance(4);
    let setup = setups::setup(&mut random, crowded);
    let bytes = if random.chance(8) {
        setups::damage(&mut random, &setup)
    } else {
        setup.to_bytes()
    };
    let Ok(book) = Book::open(&bytes) else {
        return (bytes, Vec::new());
    };
    let mut maker = Maker {
        random,
        book,
        steps: Vec::new(),
        crowded,
        asked: None,
    };
    maker.registration();
    maker.closing();
    maker.scheduling();
    maker.settling();
    (bytes, maker.steps)
}

/// The day as a stream to replay. Only settlements carry their prices.
pub fn stream(setup: &[u8], steps: &[Step]) -> Vec<u8> {
    let mut stream = Vec::new();
    let mut item = |record: &[u8], prices: &[u8]| {
        stream.extend(((record.len() + prices.len()) as u16).to_le_bytes());
        stream.extend(record);
        stream.extend(prices);
    };
    item(setup, &[]);
    for step in steps {
        match step.record.get(2) {
            Some(&kind::SETTLE) => item(&step.record, &step.prices),
            _ => item(&step.record, &[]),
        }
    }
    stream
}

/// A day in the making, and the book that follows it.
struct Maker {
    random: Random,
    book: Book,
    steps: Vec<Step>,
    /// Whether the day is to have more trades and schedules than there is
    /// place for.
    crowded: bool,
    /// The latest ask, be it refused or cleared.
    asked: Option<Request>,
}

impl Maker {
    fn registration(&mut self) {
        let count = if self.crowded {
            500
        } else {
            self.random.within(5..=90)
        };
        for _ in 0..count {
            let registers = if self.crowded { 120 } else { 34 };
            let (opens, ends) = if self.book.batch_is_open() {
                (2, 6)
            } else {
                (7, 1)
            };
            let undos = if self.crowded { 1 } else { ends };
            let kind = self.random.weighted(&[
                (registers, kind::REGISTER),
                (28, kind::CONFIRM),
                (8, kind::WITHDRAW),
                (8, kind::GUARANTEE),
                (opens, kind::OPEN_BATCH),
                (undos, kind::UNDO),
                (ends, kind::KEEP),
                (1, kind::SCHEDULE),
                (1, kind::SETTLE),
                (9, kind::STRIP),
                (9, kind::ASK),
                (5, kind::COMMIT),
            ]);
            let is_pending = |row: &Row| row.status == Status::Pending;
            let can_confirm = self.book.rows().iter().any(is_pending);
            let can_commit = self.book.asks().iter().any(Option::is_some);
            match kind {
                kind::CONFIRM if !can_confirm && self.random.chance(80) => {
                    self.step(kind::REGISTER);
                }
                kind::COMMIT if !can_commit && self.random.chance(70) => self.step(kind::ASK),
                _ => self.step(kind),
            }
        }
    }

    /// Closes the gate, usually after the open batch is ended.
    fn closing(&mut self) {
        if self.random.chance(3) {
            return;
        }
        if self.book.batch_is_open() && self.random.chance(40) {
            self.step(kind::CLOSE_GATE);
        }
        while self.book.batch_is_open() {
            let end = self.random.pick(&[kind::UNDO, kind::KEEP]);
            self.step(end);
        }
        self.step(kind::CLOSE_GATE);
        if self.book.phase() == Phase::Registration {
            self.step(kind::CLOSE_GATE);
        }
    }

    fn scheduling(&mut self) {
        let can_schedule =
            self.book.phase() == Phase::Schedules && !self.book.setup().points.is_empty();
        let count = match (can_schedule, self.crowded) {
            (true, true) => 300,
            (true, false) => self.random.within(0..=50),
            (false, _) => 3,
        };
        for _ in 0..count {
            let kind = if self.random.chance(95) {
                kind::SCHEDULE
            } else {
                self.any_kind()
            };
            // The day is settled later.
            if kind != kind::SETTLE {
                self.step(kind);
            }
        }
    }

    /// Settles, often after failed attempts, and tries some calls thereafter.
    fn settling(&mut self) {
        for _ in 0..self.random.within(0..=3) {
            let step = schedules::settle(&mut self.random, &self.book, true);
            self.play(step);
        }
        self.step(kind::SETTLE);
        if self.book.phase() != Phase::Settled {
            self.step(kind::SETTLE);
        }
        for _ in 0..self.random.within(0..=4) {
            let kind = self.any_kind();
            self.step(kind);
        }
    }

    fn any_kind(&mut self) -> u8 {
        self.random
            .within(kind::REGISTER.into()..=kind::COMMIT.into()) as u8
    }

    /// Makes a call of a kind, at times damaged.
    fn step(&mut self, kind: u8) {
        let rows = self.book.rows().len();
        self.step_alone(kind);
        let registered = self.book.rows().len().saturating_sub(rows);
        if kind == kind::STRIP && registered > 0 {
            self.end_some(rows);
        }
        if kind == kind::ASK && self.book.phase() == Phase::Registration {
            self.follow_ask();
        }
    }

    /// More asks at times, often a commit, and now and then any other call before
    /// it.
    fn follow_ask(&mut self) {
        while self.random.chance(35) {
            self.step_alone(kind::ASK);
        }
        match self.random.within(0..=19) {
            0..=2 => {
                let kind = self.random.within(1..=7) as u8;
                self.step_alone(kind);
            }
            3..=4 if !self.book.batch_is_open() => self.batch_between(),
            _ => {}
        }
        let stands = self.book.asks().iter().any(Option::is_some);
        if self.random.chance(if stands { 75 } else { 35 }) {
            self.step_alone(kind::COMMIT);
        }
    }

    /// A batch of a few calls, mostly undone, after which the latest ask is as it
    /// was before.
    fn batch_between(&mut self) {
        let asked = self.asked;
        self.step_alone(kind::OPEN_BATCH);
        for _ in 0..self.random.within(0..=3) {
            let kind = self.random.pick(&[
                kind::REGISTER,
                kind::CONFIRM,
                kind::GUARANTEE,
                kind::ASK,
                kind::COMMIT,
            ]);
            self.step_alone(kind);
        }
        let end = self.random.pick(&[kind::UNDO, kind::UNDO, kind::KEEP]);
        self.step_alone(end);
        self.asked = asked;
    }

    /// Confirms or withdraws some of the rows after so many, now and then.
    fn end_some(&mut self, before: usize) {
        let often = self.random.pick(&[0, 0, 10, 40]);
        for index in before..self.book.rows().len() {
            if !self.random.chance(often) {
                continue;
            }
            let row = self.book.rows()[index];
            let request = match self.random.chance(65) {
                true => trades::confirm_of(&row),
                false => trades::withdraw_of(index as u16 + 1, &row),
            };
            self.play(Step::of(&request));
        }
    }

    fn step_alone(&mut self, kind: u8) {
        let random = &mut self.random;
        let book = &self.book;
        let mut request = match kind {
            kind::REGISTER => trades::register(random, book, self.crowded),
            kind::CONFIRM => trades::confirm(random, book),
            kind::WITHDRAW => trades::withdraw(random, book),
            kind::GUARANTEE => trades::guarantee(random, book),
            kind::SCHEDULE => schedules::schedule(random, book),
            kind::ASK => asks::ask(random, book, self.crowded),
            kind::COMMIT => asks::commit(random, book, self.asked),
            _ => Request {
                kind,
                ..Request::default()
            },
        };
        if kind == kind::ASK {
            self.asked = Some(request);
        }
        if random.chance(3) {
            damage::out_of_range(random, book, &mut request);
        }
        let mut step = match kind {
            kind::SETTLE => {
                let careless = random.chance(15);
                schedules::settle(random, book, careless)
            }
            kind::STRIP => Step::of_record(strips::strip(random, book, self.crowded)),
            _ => Step::of(&request),
        };
        if random.chance(4) {
            damage::record(random, &mut step.record);
        }
        if kind != kind::SETTLE && random.chance(5) {
            // Lent for nothing.
            step.prices = vec![0; random.within(0..=8) as usize];
            step.results = random.within(0..=8) as usize;
            step.balances = random.within(0..=16) as usize;
        }
        self.play(step);
    }

    /// Makes the call on the book that follows the day.
    fn play(&mut self, step: Step) {
        let mut results = vec![0; step.results];
        let mut balances = vec![0; step.balances];
        self.book
            .call(&step.record, &step.prices, &mut results, &mut balances);
        self.steps.push(step);
    }
}
