//! Every byte of a set-up and of a record, put to values beside its own.

use crate::directed::{day, paper_setup};
use crate::made::*;
use crate::Day;
use reference::days::Step;
use reference::*;

/// Each byte of each kind's record put to values beside its own, in registration and among schedules.
pub(crate) fn records() -> Day {
    let sale = trade(1, 2, 1, (1, 2), 10, 7);
    let requests = [sale, mirror(&sale), withdrawal(1, 1), guarantee(1, 7), simple(kind::UNDO), schedule(1, 1, 1, 5, 5)];
    let strip = strip(&[trade(3, 4, 2, (1, 2), 10, 7), trade(3, 5, 2, (2, 3), 10, 8)]);
    let mut calls = Vec::new();
    for phase in 0..2 {
        for whole in requests.iter().map(call).chain([strip.clone()]) {
            for at in 0..whole.record.len() {
                calls.extend(beside(&whole.record, at).into_iter().map(|record| Step { record, ..whole.clone() }));
                calls.push(Step { record: whole.record[..at].to_vec(), ..whole.clone() });
            }
        }
        // Each commit after its ask, which most leave standing.
        let asked = call(&ask(&trade(5, 6, 1, (1, 2), 10, 7)));
        let committed = call(&commit(&trade(5, 6, 1, (1, 2), 10, 7)));
        for at in 0..asked.record.len() {
            for (ask, commit) in beside(&asked.record, at).into_iter().zip(beside(&committed.record, at)) {
                calls.extend([of_record(ask), asked.clone(), of_record(commit)]);
            }
            calls.extend([&asked, &committed].map(|whole| of_record(whole.record[..at].to_vec())));
        }
        if phase == 0 {
            calls.push(call(&simple(kind::KEEP)));
            calls.push(call(&simple(kind::CLOSE_GATE)));
        }
    }
    day(&largest_setup(), calls)
}

/// A set-up cut short at each length, and with each byte put to values beside its own.
pub(crate) fn setups() -> Vec<Vec<u8>> {
    let mut setup = paper_setup(100_000, 20_000);
    setup.points.push(Point { account: 2, kind: PointKind::Mixed, zone: 1, greatest_injection: 1, greatest_withdrawal: 2 });
    setup.accounts[0].lower_margins[4..8].fill(0);
    setup.accounts[1].upper_margins[23] = GREATEST_QUANTITY;
    let whole = setup.to_bytes();
    let mut setups = vec![whole.clone(), [whole.as_slice(), &[0]].concat()];
    for at in 0..whole.len() {
        setups.push(whole[..at].to_vec());
        setups.extend(beside(&whole, at));
    }
    setups
}

/// The largest set-up with each margin in turn above the greatest, and with two at once; with as many margins as one hour more or less
/// would have; and with one pair for the whole day.
pub(crate) fn margins_beyond() -> Vec<Vec<u8>> {
    let whole = largest_setup();
    let beyond = |margins: &[(Margin, u8, u8)]| {
        let mut setup = whole.clone();
        for &(which, account, hour) in margins {
            *margin(&mut setup, which, account, hour) = GREATEST_QUANTITY + 1;
        }
        setup.to_bytes()
    };
    let mut setups = vec![whole.to_bytes()];
    for account in 1..=32 {
        for hour in 1..=25 {
            setups.extend([Margin::Lower, Margin::Upper].map(|which| beyond(&[(which, account, hour)])));
        }
        // The last lower margin comes before the first upper one, and both before the next account's.
        setups.push(beyond(&[(Margin::Upper, account, 1), (Margin::Lower, account, 25)]));
        setups.push(beyond(&[(Margin::Upper, account, 25), (Margin::Lower, account % 32 + 1, 1)]));
    }
    for hours in [1, 24, 26] {
        let mut setup = whole.clone();
        for account in &mut setup.accounts {
            account.lower_margins.resize(hours, 0);
            account.upper_margins.resize(hours, 0);
        }
        setups.push(setup.to_bytes());
    }
    setups
}

/// Bytes with one of them put to other values.
fn beside(bytes: &[u8], at: usize) -> Vec<Vec<u8>> {
    let byte = bytes[at];
    let values = [0, 1, 2, 3, byte.wrapping_sub(1), byte.wrapping_add(1), byte ^ 0x80, 255];
    let put = |&value: &u8| {
        let mut other = bytes.to_vec();
        other[at] = value;
        other
    };
    values.iter().filter(|&&value| value != byte).map(put).collect()
}
