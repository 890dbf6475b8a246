//! A line of the table: one work, and the medians of its four times.

use crate::measure;
use crate::replay::Replay;
use crate::state::State;
use energy_book::raw;
use reference::days::Step;

/// What is measured.
pub enum Work {
    /// A call that answers this verdict.
    Call(Step, u8),
    Net(u8, u8),
    Exposure(u8),
    HourlyExposure(u8, u8),
    /// An exposure, for which the reference too keeps no running sum.
    ExposureFromRows(u8),
    IsBook,
    Open,
    /// Opening and then all these calls.
    Day(Vec<Step>),
    /// The program, started on a day's stream.
    Replay(Replay),
    /// The sum of a book's words of 8 bytes.
    ReadWords,
    /// The sum of its bytes.
    ReadBytes,
}

/// The medians of each round, in nanoseconds; none where the work is not done.
#[derive(Default)]
pub struct Times {
    pub public: Vec<f64>,
    /// The reference's check of its state and then the work, which is what the public call does.
    pub checked: Vec<f64>,
    pub inner: Vec<f64>,
    pub reference: Vec<f64>,
}

pub struct Line {
    pub what: String,
    pub book: &'static str,
    pub work: Work,
    pub state: State,
    pub times: Times,
}

impl Line {
    pub fn new(what: impl Into<String>, book: &'static str, state: &State, work: Work) -> Self {
        Self { what: what.into(), book, work, state: state.clone(), times: Times::default() }
    }

    /// Does the work once: the three agree, and a call answers what the line says.
    pub fn check(&self) {
        let mut state = self.state.clone();
        match &self.work {
            Work::Call(call, verdict) => {
                assert_eq!(state.both(call).number, *verdict, "{}, {}", self.what, self.book);
            }
            Work::Day(calls) => {
                State::after(state.theirs.setup(), calls);
            }
            Work::Replay(replay) => assert_eq!(replay.ours(), replay.theirs()),
            Work::ExposureFromRows(operator) => {
                let exposure = state.theirs.exposure_from_rows(*operator);
                assert_eq!(state.owned.exposure(*operator).ok(), Some(exposure));
            }
            _ => assert!(raw::is_book(&state.public) && state.theirs.stands()),
        }
    }

    /// One round.
    pub fn measure(&mut self) {
        let (times, state) = (&mut self.times, &self.state);
        match &self.work {
            Work::Call(call, 0) => measure::change(times, state, call),
            Work::Call(call, _) => measure::refusal(times, state, call),
            Work::Net(account, hour) => measure::net(times, state, *account, *hour),
            Work::Exposure(operator) => measure::exposure(times, state, *operator),
            Work::HourlyExposure(operator, hour) => measure::hourly_exposure(times, state, *operator, *hour),
            Work::ExposureFromRows(operator) => measure::exposure_from_rows(times, state, *operator),
            Work::IsBook => measure::is_book(times, state),
            Work::Open => measure::open(times, state),
            Work::Day(calls) => measure::day(times, state, calls),
            Work::Replay(replay) => measure::replay(times, replay),
            Work::ReadWords => {
                let words = |bytes: &[u8]| bytes.chunks_exact(8).map(word).fold(0, u64::wrapping_add);
                measure::reading(times, state, words);
            }
            Work::ReadBytes => {
                let bytes = |bytes: &[u8]| bytes.iter().copied().map(u64::from).sum();
                measure::reading(times, state, bytes);
            }
        }
    }
}

fn word(bytes: &[u8]) -> u64 {
    u64::from_le_bytes(bytes.try_into().expect("8 bytes"))
}
