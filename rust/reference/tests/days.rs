//! Generated days: what verdicts they meet, and what holds after every call.

use reference::days::{day, stream, Step};
use reference::*;
use std::collections::BTreeMap;

/// Makes the call of a step; gives the verdict and the two buffers, which held
/// a byte that settlement does not write.
fn play(book: &mut Book, step: &Step) -> (Verdict, Vec<u8>, Vec<u8>) {
    let mut results = vec![UNWRITTEN; step.results];
    let mut balances = vec![UNWRITTEN; step.balances];
    let verdict = book.call(&step.record, &step.prices, &mut results, &mut balances);
    (verdict, results, balances)
}

const UNWRITTEN: u8 = 0xA5;

#[test]
fn every_verdict_occurs() {
    let mut opened = BTreeMap::new();
    let mut called = BTreeMap::new();
    let mut by_kind = [[0u32; 2]; 14];
    let mut results_seen = [0u32; 4];
    let mut confirms = BTreeMap::new();
    let mut at_limits = AtLimits::default();
    for seed in 0..4_000 {
        let (setup, steps) = day(seed);
        let mut book = match Book::open(&setup) {
            Ok(book) => book,
            Err(verdict) => {
                *opened.entry(verdict.number).or_insert(0u32) += 1;
                continue;
            }
        };
        *opened.entry(0).or_insert(0) += 1;
        for step in &steps {
            let before = book.clone();
            let (verdict, results, _) = play(&mut book, step);
            at_limits.count(&before, step, verdict);
            *called.entry(verdict.number).or_insert(0u32) += 1;
            if let Ok(request) = read(&step.record) {
                by_kind[usize::from(request.kind)][usize::from(!verdict.is_accepted())] += 1;
                if request.kind == kind::CONFIRM {
                    *confirms.entry(verdict.number).or_insert(0u32) += 1;
                }
                if request.kind == kind::SETTLE && verdict.is_accepted() {
                    for &result in &results[..book.schedules().len()] {
                        results_seen[usize::from(result)] += 1;
                    }
                }
            }
        }
    }
    let total: u32 = called.values().sum();
    println!("openings by verdict: {opened:?}");
    println!("{total} calls");
    for (number, count) in &called {
        let share = 100.0 * f64::from(*count) / f64::from(total);
        println!("  verdict {number:2}: {count:7} {share:6.2}%");
    }
    for (kind, [accepted, refused]) in by_kind.iter().enumerate().skip(1) {
        println!("  kind {kind:2}: {accepted} accepted, {refused} refused");
    }
    println!("confirms by verdict: {confirms:?}");
    println!("{at_limits:?}");
    println!("schedule results 0 to 3: {results_seen:?}");
    assert_eq!(opened.keys().copied().collect::<Vec<_>>(), [0, 8, 9]);
    let expected: Vec<u8> = [0].into_iter().chain(2..=7).chain(10..=23).collect();
    assert_eq!(called.keys().copied().collect::<Vec<_>>(), expected);
    // A strip is no single record.
    let is_seen = |counts: &[u32; 2]| counts.iter().all(|&n| n > 100);
    let mut kinds = by_kind.iter().enumerate().skip(1);
    assert!(kinds.all(|(kind, counts)| is_seen(counts) == (kind != kind::STRIP.into())));
    assert!(results_seen.iter().all(|&count| count > 100));
    assert!(at_limits.just_passed > 5_000 && at_limits.missed_by_one > 5_000);
}

/// How many trades and guarantees were accepted or refused by one unit.
#[derive(Debug, Default)]
struct AtLimits {
    just_passed: u32,
    missed_by_one: u32,
}

impl AtLimits {
    fn count(&mut self, before: &Book, step: &Step, verdict: Verdict) {
        let Ok(mut request) = read(&step.record) else {
            return;
        };
        if !matches!(request.kind, kind::REGISTER | kind::GUARANTEE) {
            return;
        }
        // A greater quantity and a smaller guarantee are harder to accept.
        let one_more = (request.kind == kind::REGISTER) == verdict.is_accepted();
        let beside = if one_more { 1 } else { -1 };
        match request.kind {
            kind::REGISTER => request.quantity = request.quantity.wrapping_add_signed(beside),
            _ => request.guarantee = request.guarantee.wrapping_add_signed(beside.into()),
        }
        let mut record = step.record.clone();
        write(&request, &mut record);
        let other = before.clone().call(&record, &[], &mut [], &mut []);
        let at_limit = |verdict: Verdict| matches!(verdict.number, 18 | 19);
        if verdict.is_accepted() && at_limit(other) {
            self.just_passed += 1;
        } else if at_limit(verdict) && other.is_accepted() {
            self.missed_by_one += 1;
        }
    }
}

#[test]
fn margins_by_hour_are_met_and_passed() {
    let mut seen = OneHour::default();
    for seed in 70_000..71_000 {
        let (setup, steps) = day(seed);
        let Ok(mut book) = Book::open(&setup) else {
            continue;
        };
        for step in &steps {
            let before = book.clone();
            let (verdict, _, _) = play(&mut book, step);
            seen.count(&before, step, verdict);
        }
    }
    println!("{seen:?}");
    assert!(seen.met.iter().chain(&seen.passed).all(|&count| count > 50));
    assert!(seen.apart.iter().all(|&count| count > 0));
}

/// How trades of several hours met the margin of one of them, which has less
/// room than all the others.
#[derive(Debug, Default)]
struct OneHour {
    /// Accepted with no room left in that hour; registers, then confirms.
    met: [u32; 2],
    /// Refused for one kWh in that hour; registers, then confirms.
    passed: [u32; 2],
    /// Confirms met and passed while the proposer has no room left in another
    /// hour than the caller.
    apart: [u32; 2],
}

impl OneHour {
    fn count(&mut self, before: &Book, step: &Step, verdict: Verdict) {
        let Ok(request) = read(&step.record) else {
            return;
        };
        if !matches!(request.kind, kind::REGISTER | kind::CONFIRM)
            || !matches!(verdict.number, 0 | 18)
            || request.first == request.last
        {
            return;
        }
        let sells = request.side == 1;
        let Some((hour, room)) = tightest(before, &request, request.account, sells) else {
            return;
        };
        let confirms = usize::from(request.kind == kind::CONFIRM);
        let over = i64::from(request.quantity) - room;
        match (verdict.number, over) {
            (0, 0) => self.met[confirms] += 1,
            (18, 1) => {
                assert_eq!(verdict.first, hour.into());
                self.passed[confirms] += 1;
            }
            _ => return,
        }
        let proposer = tightest(before, &request, request.other, !sells);
        if confirms == 1 && matches!(proposer, Some((other, 0)) if other != hour) {
            self.apart[over as usize] += 1;
        }
    }
}

/// The one hour of a trade in which a seller or buyer has the least room, and
/// the room; nothing where several hours have the same.
fn tightest(book: &Book, trade: &Request, account: u8, sells: bool) -> Option<(u8, i64)> {
    let margins = book.setup().account(account);
    let room = |hour: u8| {
        let at = usize::from(hour) - 1;
        let position = book.position(account, hour).unwrap();
        if sells {
            i64::from(margins.lower_margins[at]) + i64::from(position.low())
        } else {
            i64::from(margins.upper_margins[at]) - i64::from(position.high())
        }
    };
    let hours = || trade.first..=trade.last;
    let hour = hours().min_by_key(|&hour| room(hour))?;
    let alone = hours().all(|other| other == hour || room(other) > room(hour));
    alone.then(|| (hour, room(hour)))
}

#[test]
fn set_ups_differ_by_hour_and_are_damaged_there() {
    let (mut largest, mut same, mut different, mut idle) = (0, 0, 0, 0);
    // Refused for a lower margin, an upper one, and the last of all.
    let mut at_fault = [0; 3];
    for seed in 80_000..83_000 {
        let (bytes, _) = day(seed);
        match Setup::read(&bytes) {
            Ok(setup) => {
                largest += u32::from(bytes.len() == 7_433);
                for account in &setup.accounts {
                    for margins in [&account.lower_margins, &account.upper_margins] {
                        let is_same = margins.iter().all(|margin| *margin == margins[0]);
                        same += u32::from(is_same);
                        different += u32::from(!is_same);
                        idle += u32::from(!is_same && margins.contains(&0));
                    }
                }
            }
            Err(verdict) if verdict.number == 9 => {
                let [h, o, a] = [0, 1, 2].map(|count| usize::from(bytes[count]));
                let entry = 2 + 8 * h;
                let accounts = 5 + 4 * h + 10 * o;
                let offset = usize::from(verdict.first);
                if offset < accounts || offset >= accounts + entry * a {
                    continue;
                }
                match (offset - accounts) % entry {
                    0 | 1 => {}
                    within if within < 2 + 4 * h => at_fault[0] += 1,
                    _ => at_fault[1] += 1,
                }
                at_fault[2] += u32::from(offset == accounts + entry * a - 4);
            }
            Err(_) => {}
        }
    }
    println!("largest set-ups: {largest}");
    println!("margins: {same} same, {different} different, {idle} with hours of 0");
    println!("margins at fault, lower, upper and last: {at_fault:?}");
    assert!(largest > 20 && same > 1_000 && different > 1_000 && idle > 1_000);
    assert!(at_fault.iter().all(|&count| count > 1));
}

#[test]
fn the_same_seed_makes_the_same_day() {
    for seed in 0..50 {
        assert_eq!(day(seed), day(seed));
    }
    assert_ne!(day(1), day(2));
}

#[test]
fn refused_calls_change_nothing_and_readings_come_from_the_rows() {
    for seed in 10_000..10_400 {
        let (setup, steps) = day(seed);
        let Ok(mut book) = Book::open(&setup) else {
            continue;
        };
        for step in &steps {
            let before = book.clone();
            let (verdict, results, balances) = play(&mut book, step);
            if !verdict.is_accepted() {
                assert_eq!(book, before);
            }
            let settled = before.phase() != book.phase() && book.phase() == Phase::Settled;
            let written = if settled {
                (book.schedules().len(), 8 * book.setup().operators.len())
            } else {
                (0, 0)
            };
            assert!(results[written.0..].iter().all(|&byte| byte == UNWRITTEN));
            assert!(balances[written.1..].iter().all(|&byte| byte == UNWRITTEN));
            audit(&book);
        }
    }
}

/// Draws every position and exposure up from the rows, hour by hour, and checks
/// the limits.
fn audit(book: &Book) {
    let setup = book.setup();
    let mut exposures = vec![0i128; setup.operators.len()];
    for hour in 1..=setup.hours() {
        let mut sum = 0;
        let mut columns = vec![0; setup.operators.len()];
        for (account, number) in setup.accounts.iter().zip(1..) {
            let (mut net, mut sales, mut purchases) = (0, 0, 0);
            for row in book.rows() {
                if hour < row.first || hour > row.last {
                    continue;
                }
                let quantity = i64::from(row.quantity);
                let signed = match row.side {
                    Side::Sell => -quantity,
                    Side::Buy => quantity,
                };
                match row.status {
                    Status::Confirmed if row.account == number => net += signed,
                    Status::Confirmed if row.counterparty == number => net -= signed,
                    Status::Pending if row.account == number && signed < 0 => sales += quantity,
                    Status::Pending if row.account == number => purchases += quantity,
                    _ => {}
                }
            }
            assert_eq!(book.net(number, hour), Ok(net));
            let at = usize::from(hour) - 1;
            assert!(net - sales >= -i64::from(account.lower_margins[at]));
            assert!(net + purchases <= i64::from(account.upper_margins[at]));
            let energy = (-net).max(0) + sales;
            columns[usize::from(account.operator) - 1] +=
                i128::from(energy) * i128::from(setup.estimates[at]);
            sum += net;
        }
        assert_eq!(sum, 0);
        for ((exposure, column), operator) in exposures.iter_mut().zip(columns).zip(1..) {
            let hourly = book.hourly_exposure(operator, hour);
            assert_eq!(hourly.map(i128::from), Ok(column));
            *exposure += column;
        }
    }
    for (exposure, operator) in exposures.into_iter().zip(1..) {
        assert_eq!(book.exposure(operator).map(i128::from), Ok(exposure));
        assert!(exposure <= i128::from(book.available(operator).unwrap()));
    }
}

#[test]
fn an_undone_batch_is_as_an_empty_kept_one() {
    let keep = Step {
        record: vec![1, 0, kind::KEEP],
        prices: Vec::new(),
        results: 0,
        balances: 0,
    };
    let kept_empty = (Verdict::accepted(0), Vec::new(), Vec::new());
    let (mut undone, mut otherwise_without) = (0, 0);
    for seed in 20_000..20_400 {
        let (setup, steps) = day(seed);
        let Ok(mut book) = Book::open(&setup) else {
            continue;
        };
        // Answers to the calls so far, but of an undone batch only those of its
        // open and of a keep; and where the open batch began. Then the same
        // with nothing in the place of such a batch.
        let mut kept = Vec::new();
        let mut batch = None;
        let mut without = Vec::new();
        let mut batch_without = None;
        for step in &steps {
            let was_open = book.batch_is_open();
            let answer = play(&mut book, step);
            kept.push((step, answer.clone()));
            without.push((step, answer));
            match (was_open, book.batch_is_open()) {
                (false, true) => {
                    batch = Some(kept.len());
                    batch_without = Some(without.len() - 1);
                }
                (true, false) if step.record[2] == kind::UNDO => {
                    kept.truncate(batch.take().unwrap());
                    kept.push((&keep, kept_empty.clone()));
                    without.truncate(batch_without.take().unwrap());
                    undone += 1;
                }
                _ => {}
            }
        }
        let mut matched = Book::open(&setup).unwrap();
        for (step, answer) in kept {
            assert_eq!(play(&mut matched, step), answer);
        }
        assert_eq!(matched, book);
        // An ask that the open has cleared stands in the list without it.
        let mut cut = Book::open(&setup).unwrap();
        let is_otherwise = |(step, answer): (&Step, _)| play(&mut cut, step) != answer;
        otherwise_without += u32::from(without.into_iter().any(is_otherwise));
    }
    println!("{undone} undone, {otherwise_without} days otherwise without them");
    assert!(undone > 100 && otherwise_without > 5);
}

#[test]
fn replay_says_what_the_calls_answer() {
    for seed in 30_000..30_300 {
        let (setup, steps) = day(seed);
        let lines = replay(&stream(&setup, &steps));
        let mut verdicts = lines
            .lines()
            .filter(|line| line.starts_with(|c: char| c.is_ascii_digit()));
        let opening = Book::open(&setup);
        let (number, first) = match &opening {
            Ok(_) => (0, 0),
            Err(verdict) => (verdict.number, verdict.first),
        };
        assert_eq!(verdicts.next(), Some(&*format!("0 {number} {first} 0")));
        let Ok(mut book) = opening else {
            assert_eq!(verdicts.next(), None);
            continue;
        };
        for (step, item) in steps.iter().zip(1..) {
            // A settlement's item is cut after its third byte.
            let mut bytes = step.record.clone();
            let mut length = bytes.len();
            if bytes.get(2) == Some(&kind::SETTLE) {
                bytes.extend(&step.prices);
                length = 3;
            }
            let (record, prices) = bytes.split_at(length);
            let verdict = book.call(record, prices, &mut [0; 256], &mut [0; 128]);
            let expected = format!(
                "{item} {} {} {}",
                verdict.number, verdict.first, verdict.second
            );
            assert_eq!(verdicts.next(), Some(&*expected));
        }
        assert_eq!(verdicts.next(), None);
    }
}
