//! The book of one flow day.

mod asks;
mod stands;
mod strip;

use crate::ledger::Ledger;
use crate::request::is_trade;
use crate::settlement::{self, Prices, Schedule, MOST_SCHEDULES};
use crate::strip::is_strip;
use crate::valuation::{self, Figures};
use crate::{bit, kind, layout, read, refusal};
use crate::{Direction, Position, Request, Row, Setup, Verdict};
use crate::{GREATEST_GUARANTEE, GREATEST_PRICE, GREATEST_QUANTITY};

/// How far the day has come.
#[derive(Clone, Copy, Debug, PartialEq, Eq)]
pub enum Phase {
    /// The gate is open: trades are registered and confirmed.
    Registration = 1,
    /// The gate is closed: schedules are taken.
    Schedules = 2,
    /// The day is settled.
    Settled = 3,
}

/// One flow day: its set-up, trades and schedules.
#[derive(Clone, Debug, PartialEq, Eq)]
pub struct Book {
    setup: Setup,
    phase: Phase,
    ledger: Ledger,
    /// The ledger as it was when the open batch was opened.
    saved: Option<Box<Ledger>>,
    /// By place, in order of receipt.
    schedules: Vec<Schedule>,
    /// The ask that stands for each account, as the row that it would make.
    asks: Vec<Option<Row>>,
}

impl Book {
    /// Opens a day from its set-up bytes. Refusals 8 and 9.
    pub fn open(setup: &[u8]) -> Result<Self, Verdict> {
        let setup = Setup::read(setup)?;
        Ok(Self {
            ledger: Ledger::new(&setup),
            asks: vec![None; setup.accounts.len()],
            setup,
            phase: Phase::Registration,
            saved: None,
            schedules: Vec::new(),
        })
    }

    /// Takes a request. Only a settlement looks at the last three: it is made
    /// at `prices` and writes the schedules' results and the operators'
    /// balances. A refused call changes nothing.
    pub fn call(
        &mut self,
        record: &[u8],
        prices: &[u8],
        results: &mut [u8],
        balances: &mut [u8],
    ) -> Verdict {
        let verdict = self
            .take(record, prices, results, balances)
            .unwrap_or_else(|refused| refused);
        // What was accepted has a kind.
        if verdict.is_accepted() && record[2] != kind::ASK {
            self.clear_asks();
        }
        verdict
    }

    /// Takes a request, and leaves the clearing of asks to `call`.
    fn take(
        &mut self,
        record: &[u8],
        prices: &[u8],
        results: &mut [u8],
        balances: &mut [u8],
    ) -> Result<Verdict, Verdict> {
        if is_strip(record) {
            return self.strip(record);
        }
        let request = read(record)?;
        self.check_input(&request, prices, results, balances)?;
        self.check_stage(request.kind)?;
        Ok(match request.kind {
            kind::REGISTER => self.ledger.register(&self.setup, &request),
            kind::CONFIRM => self.ledger.confirm(&self.setup, &request),
            kind::WITHDRAW => self.ledger.withdraw(&self.setup, &request),
            kind::GUARANTEE => self.ledger.replace_guarantee(&self.setup, &request),
            kind::OPEN_BATCH => self.open_batch(),
            kind::UNDO => self.undo(),
            kind::KEEP => self.keep(),
            kind::CLOSE_GATE => self.close_gate(),
            kind::SCHEDULE => self.schedule(&request),
            kind::ASK => self.ask(&request),
            kind::COMMIT => self.commit(&request),
            _ => self.settle(prices, results, balances),
        })
    }

    /// The net position of an account in an hour, in kWh.
    pub fn net(&self, account: u8, hour: u8) -> Result<i64, Verdict> {
        Ok(i64::from(self.position(account, hour)?.net))
    }

    /// The exposure of an operator, in thousandths of a cent.
    pub fn exposure(&self, operator: u8) -> Result<u64, Verdict> {
        if !counts(operator, self.setup.operators.len()) {
            return Err(out_of_range(bit::OPERATOR));
        }
        Ok(self.ledger.exposure(operator))
    }

    /// What an operator's accounts expose in one hour, in thousandths of a cent.
    /// Over all hours this totals its exposure.
    pub fn hourly_exposure(&self, operator: u8, hour: u8) -> Result<u64, Verdict> {
        if !counts(hour, self.setup.estimates.len()) {
            return Err(out_of_range(bit::FIRST));
        }
        if !counts(operator, self.setup.operators.len()) {
            return Err(out_of_range(bit::OPERATOR));
        }
        Ok(self.ledger.hourly_exposure(&self.setup, operator, hour))
    }

    /// What an operator's guarantee covers, in thousandths of a cent.
    pub fn available(&self, operator: u8) -> Result<u64, Verdict> {
        if !counts(operator, self.setup.operators.len()) {
            return Err(out_of_range(bit::OPERATOR));
        }
        Ok(self.ledger.available(&self.setup, operator))
    }

    /// Where an account stands in an hour.
    pub fn position(&self, account: u8, hour: u8) -> Result<Position, Verdict> {
        if !counts(account, self.setup.accounts.len()) {
            return Err(out_of_range(bit::ACCOUNT));
        }
        if !counts(hour, self.setup.estimates.len()) {
            return Err(out_of_range(bit::FIRST));
        }
        Ok(self.ledger.positions(&self.setup, account)[usize::from(hour) - 1])
    }

    /// What every account hour comes to at a price table, by account and then by
    /// hour: the figures of a settlement at these prices, in any phase. Refusals
    /// 5 and 6.
    pub fn figures(&self, prices: &[u8]) -> Result<Vec<Vec<Figures>>, Verdict> {
        self.check_prices(prices)?;
        Ok(valuation::of_day(
            &self.setup,
            &self.ledger,
            &self.schedules,
            self.prices(prices),
        ))
    }

    /// What the day was opened with.
    pub fn setup(&self) -> &Setup {
        &self.setup
    }

    pub fn phase(&self) -> Phase {
        self.phase
    }

    /// Whether a batch is open.
    pub fn batch_is_open(&self) -> bool {
        self.saved.is_some()
    }

    /// The rows, by number.
    pub fn rows(&self) -> &[Row] {
        self.ledger.rows()
    }

    /// The schedules, by place.
    pub fn schedules(&self) -> &[Schedule] {
        &self.schedules
    }

    /// What the set-up and the lent buffers can refuse: 5 to 7 and 10.
    fn check_input(
        &self,
        request: &Request,
        prices: &[u8],
        results: &[u8],
        balances: &[u8],
    ) -> Result<(), Verdict> {
        if request.kind == kind::SETTLE {
            self.check_prices(prices)?;
            if results.len() < self.schedules.len()
                || balances.len() < 8 * self.setup.operators.len()
            {
                return Err(Verdict::refused(refusal::BUFFER));
            }
            return Ok(());
        }
        self.check_fields(request)
    }

    /// Whether every field is in range and the two accounts differ: 6, 7.
    fn check_fields(&self, request: &Request) -> Result<(), Verdict> {
        if let Some(field) = self.field_at_fault(request) {
            return Err(out_of_range(field));
        }
        if is_trade(request.kind) && request.account == request.other {
            return Err(Verdict::refused(refusal::SAME_ACCOUNT));
        }
        Ok(())
    }

    /// Whether a price table has its length and its prices are in range: 5, 6.
    fn check_prices(&self, prices: &[u8]) -> Result<(), Verdict> {
        if prices.len() != self.setup.price_table_length() {
            return Err(Verdict::refused(refusal::LENGTH));
        }
        if !Prices::are_allowed(prices) {
            return Err(out_of_range(bit::PRICE));
        }
        Ok(())
    }

    /// The lowest bit of a field of the request that is out of range.
    fn field_at_fault(&self, request: &Request) -> Option<u8> {
        let map = layout(request.kind).map_or(0, |(map, _)| map);
        let hours = self.setup.estimates.len();
        let allowed = [
            (
                bit::ACCOUNT,
                counts(request.account, self.setup.accounts.len()),
            ),
            (bit::OTHER, counts(request.other, self.setup.accounts.len())),
            (bit::SIDE, counts(request.side, 2)),
            (bit::FIRST, counts(request.first, hours)),
            (
                bit::LAST,
                request.last >= request.first && counts(request.last, hours),
            ),
            (
                bit::QUANTITY,
                (1..=GREATEST_QUANTITY).contains(&request.quantity),
            ),
            (bit::NUMBER, (1..=256).contains(&request.number)),
            (
                bit::OPERATOR,
                counts(request.operator, self.setup.operators.len()),
            ),
            (bit::GUARANTEE, request.guarantee <= GREATEST_GUARANTEE),
            (bit::POINT, counts(request.point, self.setup.points.len())),
            (bit::PRICE, request.price <= GREATEST_PRICE),
        ];
        allowed
            .iter()
            .find(|&&(field, is_allowed)| map & (1 << field) != 0 && !is_allowed)
            .map(|&(field, _)| field)
    }

    /// Whether a kind has its time now: 11 to 13.
    fn check_stage(&self, kind: u8) -> Result<(), Verdict> {
        let phase = match kind {
            kind::SCHEDULE | kind::SETTLE => Phase::Schedules,
            _ => Phase::Registration,
        };
        if self.phase != phase {
            return Err(Verdict::refused(refusal::PHASE));
        }
        match kind {
            kind::OPEN_BATCH | kind::CLOSE_GATE if self.batch_is_open() => {
                Err(Verdict::refused(refusal::BATCH_OPEN))
            }
            kind::UNDO | kind::KEEP if !self.batch_is_open() => {
                Err(Verdict::refused(refusal::NO_BATCH))
            }
            _ => Ok(()),
        }
    }

    fn open_batch(&mut self) -> Verdict {
        self.saved = Some(Box::new(self.ledger.clone()));
        Verdict::accepted(0)
    }

    /// Restores the ledger, and gives the number of rows registered since.
    fn undo(&mut self) -> Verdict {
        let Some(saved) = self.saved.take() else {
            return Verdict::refused(refusal::NO_BATCH);
        };
        let registered = self.ledger.rows().len() - saved.rows().len();
        self.ledger = *saved;
        Verdict::accepted(registered as u16)
    }

    fn keep(&mut self) -> Verdict {
        self.saved = None;
        Verdict::accepted(0)
    }

    fn close_gate(&mut self) -> Verdict {
        self.ledger.withdraw_all(&self.setup);
        self.phase = Phase::Schedules;
        Verdict::accepted(0)
    }

    /// Takes a schedule, and gives its place.
    fn schedule(&mut self, request: &Request) -> Verdict {
        if self.schedules.len() == MOST_SCHEDULES {
            return Verdict::refused(refusal::SCHEDULES_FULL);
        }
        self.schedules.push(Schedule {
            point: request.point,
            hour: request.first,
            direction: if request.side == Direction::Injection as u8 {
                Direction::Injection
            } else {
                Direction::Withdrawal
            },
            quantity: request.quantity,
            price: request.price,
        });
        Verdict::accepted(self.schedules.len() as u16)
    }

    fn settle(&mut self, prices: &[u8], results: &mut [u8], balances: &mut [u8]) -> Verdict {
        settlement::settle(
            &self.setup,
            &self.ledger,
            &self.schedules,
            self.prices(prices),
            &mut results[..self.schedules.len()],
            &mut balances[..8 * self.setup.operators.len()],
        );
        self.phase = Phase::Settled;
        Verdict::accepted(0)
    }

    /// The prices of a table of the right length.
    fn prices<'a>(&self, table: &'a [u8]) -> Prices<'a> {
        Prices {
            table,
            hours: self.setup.estimates.len(),
        }
    }
}

/// Whether a number is that of one of `count` things.
pub(crate) fn counts(number: u8, count: usize) -> bool {
    number != 0 && usize::from(number) <= count
}

fn out_of_range(field: u8) -> Verdict {
    Verdict::refused_with(refusal::FIELD, u16::from(field), 0)
}
