//! Generated days: what verdicts their asks and commits meet, and what holds of
//! each.

use reference::days::{day, Step};
use reference::*;
use std::collections::BTreeMap;

/// Sees each step of the days of some seeds: the book before it, the step, its
/// verdict, and the book after it.
fn each_step(seeds: std::ops::Range<u64>, mut see: impl FnMut(&Book, &Step, Verdict, &Book)) {
    for seed in seeds {
        let (setup, steps) = day(seed);
        let Ok(mut book) = Book::open(&setup) else {
            continue;
        };
        for step in &steps {
            let before = book.clone();
            let (mut results, mut balances) = (vec![0; step.results], vec![0; step.balances]);
            let verdict = book.call(&step.record, &step.prices, &mut results, &mut balances);
            see(&before, step, verdict, &book);
        }
    }
}

fn says(step: &Step, kind: u8) -> bool {
    step.record.get(2) == Some(&kind)
}

fn call(book: &mut Book, record: &[u8]) -> Verdict {
    book.call(record, &[], &mut [], &mut [])
}

/// The record with another kind.
fn with_kind(record: &[u8], kind: u8) -> Vec<u8> {
    let mut other = record.to_vec();
    other[2] = kind;
    other
}

#[test]
fn asks_and_commits_meet_every_verdict_that_they_can() {
    let (mut asks, mut commits) = (BTreeMap::new(), BTreeMap::new());
    let (mut replaced, mut several, mut in_batches) = (0, 0, [0; 2]);
    each_step(0..3_000, |before, step, verdict, _| {
        let seen = match step.record.get(2) {
            Some(&kind::ASK) => &mut asks,
            Some(&kind::COMMIT) => &mut commits,
            _ => return,
        };
        *seen.entry(verdict.number).or_insert(0u32) += 1;
        if !verdict.is_accepted() {
            return;
        }
        let commits = says(step, kind::COMMIT);
        in_batches[usize::from(commits)] += u32::from(before.batch_is_open());
        if commits {
            several += u32::from(before.asks().iter().flatten().count() > 1);
        } else {
            let account = usize::from(step.record[3]) - 1;
            replaced += u32::from(before.asks()[account].is_some());
        }
    });
    println!("asks by verdict: {asks:?}");
    println!("commits by verdict: {commits:?}");
    println!("asks replaced {replaced}, commits where several stand {several}");
    println!("asks and commits accepted in batches: {in_batches:?}");
    let numbers = |seen: &BTreeMap<u8, u32>| seen.keys().copied().collect::<Vec<_>>();
    assert_eq!(numbers(&asks), [0, 2, 4, 5, 6, 7, 11, 14, 15, 18, 19]);
    assert_eq!(numbers(&commits), [0, 2, 4, 5, 6, 7, 11, 23]);
    assert!(asks
        .values()
        .chain(commits.values())
        .all(|&count| count > 25));
    assert!(commits[&0] > 4_000 && commits[&23] > 4_000);
    assert!(replaced > 1_000 && several > 500);
    assert!(in_batches.iter().all(|&count| count > 1_000));
}

#[test]
fn asks_answer_as_their_registers() {
    let mut seen = [0; 2];
    each_step(3_000..4_000, |before, step, verdict, after| {
        if !says(step, kind::ASK) {
            return;
        }
        let register = with_kind(&step.record, kind::REGISTER);
        assert_eq!(call(&mut before.clone(), &register), verdict);
        seen[usize::from(!verdict.is_accepted())] += 1;
        // It stands for its account, and nothing else is changed.
        let mut asks = before.asks().to_vec();
        if verdict.is_accepted() {
            let request = read(&register).unwrap();
            let row = after.asks()[usize::from(request.account) - 1].unwrap();
            let fields = (row.account, row.counterparty, row.code, row.side as u8);
            assert_eq!(
                fields,
                (request.account, request.other, request.code, request.side)
            );
            let terms = (row.first, row.last, row.quantity);
            assert_eq!(terms, (request.first, request.last, request.quantity));
            asks[usize::from(request.account) - 1] = Some(row);
        }
        assert_eq!(after.asks(), asks);
        let (mut cleared, mut never_asked) = (after.clone(), before.clone());
        for record in [[1, 0, kind::OPEN_BATCH], [1, 0, kind::KEEP]] {
            call(&mut cleared, &record);
            call(&mut never_asked, &record);
        }
        assert_eq!(cleared, never_asked);
    });
    assert!(seen.iter().all(|&count| count > 1_000));
}

#[test]
fn commits_give_what_their_asks_gave() {
    let (mut accepted, mut refused) = (0, 0);
    // What the asks that stand were answered, by account.
    let mut given: BTreeMap<u8, (Vec<u8>, Verdict)> = BTreeMap::new();
    each_step(4_000..6_000, |before, step, verdict, after| {
        if before.asks().iter().all(Option::is_none) {
            given.clear();
        }
        let reads = read(&step.record);
        if says(step, kind::COMMIT) && (verdict.is_accepted() || verdict.number > 11) {
            let request = reads.unwrap();
            let fields = &step.record[3..];
            let stands = given.get(&request.account);
            match stands.filter(|(asked, _)| asked == fields) {
                Some((_, answer)) => {
                    assert_eq!(verdict, *answer);
                    let mut registered = before.clone();
                    let register = with_kind(&step.record, kind::REGISTER);
                    assert_eq!(call(&mut registered, &register), verdict);
                    assert_eq!(registered, *after);
                    accepted += 1;
                }
                None => {
                    assert_eq!(verdict, Verdict::refused(23));
                    refused += 1;
                }
            }
        }
        if says(step, kind::ASK) && verdict.is_accepted() {
            let request = reads.unwrap();
            given.insert(request.account, (step.record[3..].to_vec(), verdict));
        } else if verdict.is_accepted() {
            given.clear();
            assert!(after.asks().iter().all(Option::is_none));
        } else {
            assert_eq!(after.asks(), before.asks());
        }
        // Those that stand are those that were accepted since.
        let standing = (1..).zip(after.asks()).filter(|(_, ask)| ask.is_some());
        assert!(standing
            .map(|(account, _)| account)
            .eq(given.keys().copied()));
    });
    println!("commits accepted {accepted}, refused {refused}");
    assert!(accepted > 2_000 && refused > 2_000);
}

/// A record with its quantity changed by one.
fn with_one(record: &[u8], change: i32) -> Vec<u8> {
    let mut other = record.to_vec();
    let mut field = [0; 4];
    field.copy_from_slice(&other[16..]);
    let quantity = u32::from_le_bytes(field).wrapping_add_signed(change);
    other[16..].copy_from_slice(&quantity.to_le_bytes());
    other
}

#[test]
fn asks_come_within_one_of_their_limits() {
    // Just accepted, and refused for one kWh: by a margin, by the guarantee.
    let (mut met, mut passed) = ([0; 2], [0; 2]);
    each_step(6_000..8_000, |before, step, verdict, _| {
        if !says(step, kind::ASK) || read(&step.record).is_err() {
            return;
        }
        let limit = |verdict: Verdict| match verdict.number {
            18 => Some(0),
            19 => Some(1),
            _ => None,
        };
        if verdict.is_accepted() {
            let more = call(&mut before.clone(), &with_one(&step.record, 1));
            if let Some(sort) = limit(more) {
                met[sort] += 1;
            }
        } else if let Some(sort) = limit(verdict) {
            let less = call(&mut before.clone(), &with_one(&step.record, -1));
            passed[sort] += u32::from(less.is_accepted());
        }
    });
    println!("met {met:?}, passed {passed:?}");
    assert!(met.iter().chain(&passed).all(|&count| count > 200));
}

/// The ledger that demand 3 speaks of: it hears the set-up, each record, and
/// whether it was accepted.
#[derive(Clone, Default)]
struct Ledger {
    /// Pending rows by number.
    pending: Vec<(u16, Request)>,
    trades: Vec<Request>,
    guarantees: Vec<u64>,
    numbers: u16,
    at_open: Option<Box<Ledger>>,
}

impl Ledger {
    /// An accepted record. Asks, keep, schedules and settle do nothing here.
    fn hear(&mut self, record: &[u8]) {
        match record[2] {
            kind::REGISTER | kind::COMMIT => self.register(record),
            kind::STRIP => record[4..].chunks(20).for_each(|row| self.register(row)),
            kind::CONFIRM => {
                let its = read(record).unwrap();
                let key = (its.other, its.account, its.code);
                let is_it = |(_, row): &(u16, Request)| (row.account, row.other, row.code) == key;
                let at = self.pending.iter().position(is_it).unwrap();
                self.trades.push(self.pending.remove(at).1);
            }
            kind::WITHDRAW => {
                let its = read(record).unwrap();
                self.pending.retain(|(number, _)| *number != its.number);
            }
            kind::GUARANTEE => {
                let its = read(record).unwrap();
                self.guarantees[usize::from(its.operator) - 1] = its.guarantee;
            }
            kind::OPEN_BATCH => self.at_open = Some(Box::new(self.clone())),
            kind::UNDO => *self = *self.at_open.take().unwrap(),
            kind::CLOSE_GATE => self.pending.clear(),
            _ => {}
        }
    }

    fn register(&mut self, record: &[u8]) {
        let row = Request {
            kind: kind::REGISTER,
            ..read(record).unwrap()
        };
        self.numbers += 1;
        self.pending.push((self.numbers, row));
    }

    fn net(&self, account: u8, hour: u8) -> i64 {
        let mut net = 0;
        for trade in &self.trades {
            if !(trade.first..=trade.last).contains(&hour) {
                continue;
            }
            let sold = match trade.side {
                1 => i64::from(trade.quantity),
                _ => -i64::from(trade.quantity),
            };
            net -= sold * i64::from(trade.account == account);
            net += sold * i64::from(trade.other == account);
        }
        net
    }

    fn exposure(&self, setup: &Setup, operator: u8) -> u64 {
        let mut exposure = 0;
        for (account, number) in setup.accounts.iter().zip(1..) {
            if account.operator != operator {
                continue;
            }
            for (hour, &estimate) in (1..).zip(&setup.estimates) {
                let mut energy = (-self.net(number, hour)).max(0) as u64;
                for (_, row) in &self.pending {
                    let sells = row.account == number && row.side == 1;
                    if sells && (row.first..=row.last).contains(&hour) {
                        energy += u64::from(row.quantity);
                    }
                }
                exposure += energy * u64::from(estimate);
            }
        }
        exposure
    }
}

#[test]
fn readings_are_those_of_the_ledger_that_hears_commits_as_registers() {
    let mut commits = 0;
    for seed in 8_000..8_300 {
        let (setup, steps) = day(seed);
        let Ok(mut book) = Book::open(&setup) else {
            continue;
        };
        let setup = book.setup().clone();
        let mut ledger = Ledger {
            guarantees: setup.operators.iter().map(|o| o.guarantee).collect(),
            ..Ledger::default()
        };
        for (step, number) in steps.iter().zip(1..) {
            let (mut results, mut balances) = (vec![0; step.results], vec![0; step.balances]);
            let verdict = book.call(&step.record, &step.prices, &mut results, &mut balances);
            if verdict.is_accepted() {
                ledger.hear(&step.record);
                commits += u32::from(says(step, kind::COMMIT));
            }
            if number % 16 != 0 && number != steps.len() {
                continue;
            }
            assert_eq!(book.rows().len(), usize::from(ledger.numbers));
            for account in 1..=setup.accounts.len() as u8 {
                for hour in 1..=setup.hours() {
                    assert_eq!(book.net(account, hour), Ok(ledger.net(account, hour)));
                }
            }
            for (operator, number) in setup.operators.iter().zip(1..) {
                let exposure = ledger.exposure(&setup, number);
                assert_eq!(book.exposure(number), Ok(exposure));
                let share = u64::from(1000 - operator.maintenance);
                let available = ledger.guarantees[usize::from(number) - 1] * share;
                assert_eq!(book.available(number), Ok(available));
                assert!(exposure <= available);
            }
        }
    }
    assert!(commits > 300);
}
