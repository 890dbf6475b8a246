//! A day, played on both implementations.

use crate::asks::{self, Asks};
use crate::made::{self, margin, margin_at, Margin};
use crate::ours::{self, Answer, Ours};
use crate::{strips, Counts, Day};
use reference::days::Step;
use reference::{kind, valuation, Book, Direction, PointKind, Request, Setup, Verdict, GREATEST_QUANTITY};
use std::panic::{catch_unwind, AssertUnwindSafe};

/// The bytes of a book that can be other than zero.
const USED: usize = 27_464;

/// Plays a day on both; says in what they differ.
pub fn play(day: &Day) -> Result<Counts, String> {
    catch_unwind(AssertUnwindSafe(|| both(day))).unwrap_or_else(|_| Err(String::from("the reference implementation panics")))
}

fn both(day: &Day) -> Result<Counts, String> {
    let mut counts = Counts { days: 1, ..Counts::default() };
    let (mut theirs, mut ours) = match (Book::open(&day.setup), Ours::open(&day.setup)?) {
        (Ok(theirs), Ok(ours)) => (theirs, ours),
        (Err(theirs), Err(ours)) if theirs == ours => {
            counts.openings[usize::from(theirs.number)] += 1;
            return Ok(counts);
        }
        (theirs, ours) => {
            let (theirs, ours) = (theirs.err(), ours.err());
            return Err(format!("opening: the reference {theirs:?}, ours {ours:?}"));
        }
    };
    counts.openings[0] += 1;
    let mut undone = Undone::default();
    let mut asks = Asks::default();
    for (number, call) in (1..).zip(&day.calls) {
        let at = |why: String| format!("call {number}: {why}");
        compare_records(call, number).map_err(at)?;
        let chosen = mixed(number);
        if number % 16 == 0 {
            damage(&ours, call, chosen, &mut counts).map_err(at)?;
        }
        if number % 16 == 8 {
            compare_margin(&theirs, &ours, call, chosen, &mut counts).map_err(at)?;
        }
        if number % 16 == 4 || number % 4 == 1 && theirs.asks().iter().any(Option::is_some) {
            asks::compare_changed(&theirs, &ours, call, chosen, &mut counts).map_err(at)?;
        }
        let was_open = theirs.batch_is_open();
        let beside = strips::Beside::before(&theirs, &ours, call, number);
        asks.before(&theirs, &ours, call);
        let answer = compare_call(&mut theirs, &mut ours, call).map_err(at)?;
        counts.calls += 1;
        counts.verdicts[usize::from(answer.verdict.number)] += 1;
        beside.compare(&theirs, &ours, &answer, &mut counts).map_err(at)?;
        asks.compare(&theirs, &ours, call, &answer, &mut counts).map_err(at)?;
        compare_sums(theirs.setup(), &ours, &mut counts).map_err(at)?;
        if answer.verdict.is_accepted() && call.record.get(2) == Some(&kind::SETTLE) {
            compare_amounts(&theirs, call, &answer, &mut counts).map_err(at)?;
        }
        if number % 64 == 0 {
            check_theirs(&theirs).map_err(at)?;
        }
        if number % 4 == 0 {
            compare_a_reading(&theirs, &ours, chosen, &mut counts).map_err(at)?;
        }
        undone.follow(call, answer, was_open, theirs.batch_is_open());
    }
    let at_end = |why: String| format!("after the last call: {why}");
    if !energy_book::raw::is_book(ours.bytes()) {
        return Err(at_end(String::from("the bytes are no book")));
    }
    check_theirs(&theirs).map_err(at_end)?;
    compare_readings(&theirs, &ours, &mut counts).map_err(at_end)?;
    undone.compare(day, &ours, &mut counts).map_err(at_end)?;
    Ok(counts)
}

/// What the reference holds is a book too, by its own reading of the paper.
fn check_theirs(theirs: &Book) -> Result<(), String> {
    if !theirs.stands() {
        return Err(String::from("what the reference holds is no book"));
    }
    Ok(())
}

/// Makes a call on both.
pub(crate) fn compare_call(theirs: &mut Book, ours: &mut Ours, call: &Step) -> Result<Answer, String> {
    let mut expected = Answer::lent(call);
    expected.verdict = theirs.call(&call.record, &call.prices, &mut expected.results, &mut expected.balances);
    let answer = ours.call(call)?;
    if answer == expected {
        Ok(answer)
    } else {
        Err(format!("the reference {expected:?}, ours {answer:?}"))
    }
}

/// After an accepted settle: each balance that ours wrote is the total of the hourly amounts that the reference values.
fn compare_amounts(theirs: &Book, call: &Step, answer: &Answer, counts: &mut Counts) -> Result<(), String> {
    let setup = theirs.setup();
    let figures = theirs.figures(&call.prices).map_err(|verdict| format!("the reference values nothing: {verdict:?}"))?;
    let totals = valuation::totals(setup, &figures);
    if answer.written().take(totals.len()).ne(totals.iter().copied()) {
        let written: Vec<i64> = answer.written().take(totals.len()).collect();
        return Err(format!("the reference's hourly amounts total {totals:?}, ours wrote {written:?}"));
    }
    counts.settled += 1;
    counts.balances += totals.len() as u64;
    for hour in figures.iter().flatten() {
        for (count, has) in counts.hours.iter_mut().zip([hour.purchase > 0, hour.sale > 0, hour.cct != 0]) {
            *count += u64::from(has);
        }
    }
    for (schedule, _) in theirs.schedules().iter().zip(&answer.results).filter(|(_, &result)| result == 0) {
        let sort = match (schedule.direction, setup.point(schedule.point).kind) {
            (Direction::Injection, _) => 0,
            (Direction::Withdrawal, PointKind::Mixed) => 2,
            (Direction::Withdrawal, _) => 1,
        };
        counts.registered[sort] += 1;
    }
    Ok(())
}

/// Reads and writes the record of a call on both.
fn compare_records(call: &Step, number: usize) -> Result<(), String> {
    let expected = reference::read(&call.record);
    if ours::read(&call.record) != expected.map(|request| ours::fields(&request)) {
        return Err(format!("the reference reads {expected:?}"));
    }
    let request = expected.unwrap_or(Request { kind: number as u8, ..Request::default() });
    let mut written = vec![ours::UNWRITTEN; number % 24];
    let expected = (reference::write(&request, &mut written), written);
    if ours::write(&ours::fields(&request), number % 24) != expected {
        return Err(format!("the reference writes {expected:?}"));
    }
    Ok(())
}

/// Makes a call on the book with a byte changed, mostly one that is in use.
fn damage(ours: &Ours, call: &Step, chosen: u64, counts: &mut Counts) -> Result<(), String> {
    let room = if chosen.is_multiple_of(8) { ours.bytes().len() } else { USED };
    let at = (chosen >> 8) as usize % room;
    let change = (chosen >> 3) as u8 | 1 << (chosen % 8);
    if ours.damaged(call, at, &[ours.bytes()[at] ^ change])? {
        counts.undamaged += 1;
    } else {
        counts.damaged += 1;
    }
    Ok(())
}

/// Makes a call on the book with another margin in its bytes, beside what an account needs in an hour, mostly one of a row. The bytes
/// are a book exactly if what the reference holds is one with that margin.
fn compare_margin(theirs: &Book, ours: &Ours, call: &Step, chosen: u64, counts: &mut Counts) -> Result<(), String> {
    let mut setup = theirs.setup().clone();
    let one = |shift: u64, from: u8, to: u8| from + ((chosen >> shift) % u64::from(to - from + 1)) as u8;
    let (account, hour) = match theirs.rows() {
        rows if !rows.is_empty() && !chosen.is_multiple_of(4) => {
            let row = &rows[(chosen >> 8) as usize % rows.len()];
            let account = if chosen % 4 == 1 { row.counterparty } else { row.account };
            (account, one(24, row.first, row.last))
        }
        _ => (one(8, 1, setup.accounts.len() as u8), one(24, 1, setup.hours())),
    };
    let position = theirs.position(account, hour).map_err(|verdict| format!("{verdict:?}"))?;
    let (which, needed) = match chosen >> 32 & 1 {
        0 => (Margin::Lower, -position.low()),
        _ => (Margin::Upper, position.high()),
    };
    let needed = needed.max(0) as u32;
    let values = [needed, needed.saturating_sub(1), needed + 1, 0, GREATEST_QUANTITY, GREATEST_QUANTITY + 1, u32::MAX];
    let value = values[(chosen >> 40) as usize % values.len()];
    *margin(&mut setup, which, account, hour) = value;
    let is_book = ours.damaged(call, margin_at(&setup, which, account, hour), &value.to_le_bytes())?;
    if is_book != theirs.stands_with(&setup) {
        let (with, without) = if is_book { ("ours", "the reference") } else { ("the reference", "ours") };
        return Err(format!("{which:?} margin {value} of account {account}, hour {hour}: {with} is a book, {without} is not"));
    }
    if is_book {
        counts.margins_kept += 1;
    } else {
        counts.margins_broken += 1;
    }
    Ok(())
}

/// Of each operator of ours: the hourly exposures sum to the exposure.
fn compare_sums(setup: &Setup, ours: &Ours, counts: &mut Counts) -> Result<(), String> {
    for operator in 1..=setup.operators.len() as u8 {
        let read = ours.exposure_by_hour(operator, setup.hours());
        let (exposure, by_hour) = read.map_err(|verdict| format!("exposures of operator {operator}: {verdict:?}"))?;
        let sum: u128 = by_hour.iter().copied().map(u128::from).sum();
        if sum != exposure.into() {
            return Err(format!("operator {operator}: the exposure is {exposure}, the hourly ones sum to {sum}: {by_hour:?}"));
        }
        counts.hourly_summed += by_hour.len() as u64;
        counts.hourly_sums[usize::from(sum == 0)] += 1;
    }
    Ok(())
}

/// One net position, one exposure and one hourly exposure, at times of what is not there.
fn compare_a_reading(theirs: &Book, ours: &Ours, chosen: u64, counts: &mut Counts) -> Result<(), String> {
    let setup = theirs.setup();
    let one = |shift: u64, count: usize| ((chosen >> shift) % (count as u64 + 2)) as u8;
    compare_net(theirs, ours, one(0, setup.accounts.len()), one(16, setup.estimates.len()))?;
    compare_exposure(theirs, ours, one(32, setup.operators.len()))?;
    compare_hourly(theirs, ours, one(32, setup.operators.len()), one(48, setup.estimates.len()))?;
    counts.readings += 3;
    counts.hourly_readings += 1;
    Ok(())
}

/// All net positions, exposures and hourly exposures, and those beside them that are not there.
fn compare_readings(theirs: &Book, ours: &Ours, counts: &mut Counts) -> Result<(), String> {
    let setup = theirs.setup();
    for account in 0..=setup.accounts.len() as u8 + 1 {
        for hour in 0..=setup.hours() + 1 {
            compare_net(theirs, ours, account, hour)?;
            counts.readings += 1;
        }
    }
    for operator in 0..=setup.operators.len() as u8 + 1 {
        compare_exposure(theirs, ours, operator)?;
        counts.readings += 1;
        for hour in 0..=setup.hours() + 1 {
            compare_hourly(theirs, ours, operator, hour)?;
            counts.readings += 1;
            counts.hourly_readings += 1;
        }
    }
    Ok(())
}

fn compare_net(theirs: &Book, ours: &Ours, account: u8, hour: u8) -> Result<(), String> {
    let (expected, read) = (theirs.net(account, hour), ours.net(account, hour)?);
    if read != expected {
        return Err(format!("net of account {account}, hour {hour}: the reference {expected:?}, ours {read:?}"));
    }
    Ok(())
}

fn compare_exposure(theirs: &Book, ours: &Ours, operator: u8) -> Result<(), String> {
    let (expected, read) = (theirs.exposure(operator), ours.exposure(operator)?);
    if read != expected {
        return Err(format!("exposure of operator {operator}: the reference {expected:?}, ours {read:?}"));
    }
    Ok(())
}

fn compare_hourly(theirs: &Book, ours: &Ours, operator: u8, hour: u8) -> Result<(), String> {
    let (expected, read) = (theirs.hourly_exposure(operator, hour), ours.hourly_exposure(operator, hour)?);
    if read != expected {
        return Err(format!("exposure of operator {operator}, hour {hour}: the reference {expected:?}, ours {read:?}"));
    }
    Ok(())
}

/// The calls with their answers, where an undone batch is an empty one that is kept: its open, and then a keep.
#[derive(Default)]
struct Undone<'a> {
    /// None is such a keep.
    left: Vec<(Option<&'a Step>, Answer)>,
    /// Where the calls of the open batch begin, after its open.
    batch: Option<usize>,
    batches: u64,
}

/// A call to keep, which is lent nothing.
fn keep() -> Step {
    made::call(&made::simple(kind::KEEP))
}

impl<'a> Undone<'a> {
    fn follow(&mut self, call: &'a Step, answer: Answer, was_open: bool, is_open: bool) {
        self.left.push((Some(call), answer));
        match (was_open, is_open) {
            (false, true) => self.batch = Some(self.left.len()),
            (true, false) if call.record.get(2) == Some(&kind::UNDO) => {
                if let Some(from) = self.batch.take() {
                    self.left.truncate(from);
                    // Accepted, and nothing lent to it.
                    self.left.push((None, Answer::lent(&keep())));
                    self.batches += 1;
                }
            }
            _ => {}
        }
    }

    /// Plays the list with empty kept batches in the place of the undone ones: every other call answers the same, and the last bytes are
    /// equal.
    fn compare(&self, day: &Day, whole: &Ours, counts: &mut Counts) -> Result<(), String> {
        if self.batches == 0 {
            return Ok(());
        }
        let mut matched = Ours::open(&day.setup)?.map_err(|verdict: Verdict| format!("opened again: {verdict:?}"))?;
        let keep = keep();
        for (call, answer) in &self.left {
            let again = matched.call(call.unwrap_or(&keep))?;
            if again != *answer {
                return Err(format!("with empty kept batches {again:?}, with the undone ones {answer:?}"));
            }
        }
        if matched.bytes() != whole.bytes() {
            return Err(String::from("an undone batch left a trace in the book's bytes"));
        }
        counts.undone += self.batches;
        counts.matched += self.left.len() as u64;
        Ok(())
    }
}

/// A number that looks like chance, the same for the same number.
fn mixed(number: usize) -> u64 {
    let mut word = (number as u64).wrapping_mul(0x9E37_79B9_7F4A_7C15);
    word = (word ^ (word >> 30)).wrapping_mul(0xBF58_476D_1CE4_E5B9);
    word = (word ^ (word >> 27)).wrapping_mul(0x94D0_49BB_1331_11EB);
    word ^ (word >> 31)
}
