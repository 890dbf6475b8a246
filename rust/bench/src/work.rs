//! The lines of the table.

use crate::line::{Line, Work};
use crate::replay::Replay;
use crate::state::State;
use differential::made::{self, ask, call, commit, guarantee, mirror, prices, schedule, simple, strip, trade, withdrawal};
use reference::days::Step;
use reference::{kind, Request, Setup};

/// The largest set-up, with little guarantee for operator 16.
fn setup() -> Setup {
    let mut setup = made::largest_setup();
    setup.operators[15].guarantee = 100_000_000;
    setup
}

/// So many rows over all hours, every second one confirmed.
fn rows(count: u16) -> Vec<Step> {
    let rows = made::rows(count);
    let confirmed = rows.iter().skip(1).step_by(2).map(mirror);
    rows.iter().copied().chain(confirmed).map(|request| call(&request)).collect()
}

fn after(calls: &[Step], more: &[Request]) -> State {
    let more = more.iter().map(call);
    State::after(&setup(), &calls.iter().cloned().chain(more).collect::<Vec<_>>())
}

fn line(what: impl Into<String>, book: &'static str, state: &State, request: &Request, verdict: u8) -> Line {
    Line::new(what, book, state, Work::Call(call(request), verdict))
}

pub fn lines() -> Vec<Line> {
    let fresh = after(&[], &[]);
    let half = after(&rows(128), &[]);
    let full = after(&rows(256), &[]);
    let mut lines = vec![
        Line::new("reading 49,152 bytes, by 8", "full", &full, Work::ReadWords),
        Line::new("reading 49,152 bytes, one by one", "full", &full, Work::ReadBytes),
        Line::new("open", "largest set-up", &fresh, Work::Open),
    ];
    let batch = after(&rows(256), &[simple(kind::OPEN_BATCH)]);
    for (book, state) in [("fresh", &fresh), ("half full", &half), ("full", &full), ("full, batch open", &batch)] {
        lines.push(Line::new("is_book", book, state, Work::IsBook));
    }
    registers(&mut lines, &fresh, &half, &full);
    strips(&mut lines);
    asks(&mut lines);
    confirms(&mut lines, &half, &full);
    gate_and_batches(&mut lines, &fresh, &half, &full);
    schedules(&mut lines);
    for (book, state) in [("fresh", &fresh), ("full", &full), ("full, batch open", &batch)] {
        lines.push(Line::new("net", book, state, Work::Net(32, 25)));
        lines.push(Line::new("exposure", book, state, Work::Exposure(16)));
        lines.push(Line::new("hourly exposure", book, state, Work::HourlyExposure(16, 25)));
    }
    lines.push(Line::new("exposure, from the rows", "full", &full, Work::ExposureFromRows(16)));
    whole_days(&mut lines, &fresh);
    lines
}

fn registers(lines: &mut Vec<Line>, fresh: &State, half: &State, full: &State) {
    let sale = trade(3, 4, 1, (1, 25), 1_000_000, 999);
    let most = after(&rows(255), &[]);
    for (book, state) in [("fresh", fresh), ("half full", half), ("255 rows", &most)] {
        lines.push(line("register", book, state, &sale, 0));
    }
    lines.push(line("register, one hour", "255 rows", &most, &Request { first: 25, ..sale }, 0));
    lines.push(line("register, a purchase", "255 rows", &most, &Request { side: 2, ..sale }, 0));
    let last_hour = trade(3, 4, 1, (25, 25), 9_000_000, 1_000);
    let (half_18, most_18) = (after(&rows(128), &[last_hour]), after(&rows(254), &[last_hour]));
    for (book, state) in [("half full", &half_18), ("255 rows", &most_18)] {
        let more = Request { quantity: 1_100_000, ..sale };
        lines.push(line("register, refused 18 (hour 25)", book, state, &more, 18));
    }
    let uncovered = trade(16, 4, 1, (1, 25), 100_000, 999);
    for (book, state) in [("half full", half), ("255 rows", &most)] {
        lines.push(line("register, refused 19", book, state, &uncovered, 19));
    }
    lines.push(line("register, refused 14", "full", full, &made::rows(256)[254], 14));
    lines.push(line("register, refused 15", "full", full, &sale, 15));
    lines.push(line("register, refused 6", "full", full, &Request { quantity: 0, ..sale }, 6));
    let mut cut = call(&sale);
    cut.record.truncate(2);
    lines.push(Line::new("record refused 2", "full", full, Work::Call(cut, 2)));
}

/// Sales of one account in 24 hours from the second on, and the same with a row or two changed; then one row, in a strip and alone.
fn strips(lines: &mut Vec<Line>) {
    let sale = |number: u8| trade(3, 4, 1, (number + 2, number + 2), 100_000, 1_000 + u64::from(number));
    let rows_24: Vec<Request> = (0..24).map(sale).collect();
    let (mut over, mut twins) = (rows_24.clone(), rows_24.clone());
    // The last two rows break the margin of hour 25 together.
    over[22].last = 25;
    over[23].quantity = 10_000_000;
    twins[23].code = twins[0].code;
    let (stand, most) = (after(&rows(232), &[]), after(&rows(255), &[]));
    for (what, rows, verdict) in [
        ("strip, 24 rows", &rows_24, 0),
        ("strip, 24 rows, refused 18 (hour 25)", &over, 18),
        ("strip, 24 rows, refused 22", &twins, 22),
    ] {
        lines.push(Line::new(what, "232 rows", &stand, Work::Call(strip(rows), verdict)));
    }
    let one = trade(3, 4, 1, (1, 25), 1_000_000, 999);
    lines.push(Line::new("strip, one row", "255 rows", &most, Work::Call(strip(&[one]), 0)));
    lines.push(line("register, that row", "255 rows", &most, &one, 0));
}

/// Asks beside the registers of their fields, commits, and checks of a book with no ask and with one of each account. A book of 256 rows
/// can have no ask, so that there are 255.
fn asks(lines: &mut Vec<Line>) {
    let sale = trade(3, 4, 1, (1, 25), 1_000_000, 999);
    let of_each: Vec<Request> =
        (1..=32).map(|account| ask(&trade(account, account % 32 + 1, 1, (1, 25), 10, 5_000 + u64::from(account)))).collect();
    let (none, all) = (after(&rows(255), &[]), after(&rows(255), &of_each));
    let books = [("255 rows", &none), ("255 rows, 32 asks", &all)];
    for (book, state) in books {
        lines.push(Line::new("is_book", book, state, Work::IsBook));
        lines.push(Line::new("net", book, state, Work::Net(32, 25)));
    }
    for (book, state) in books {
        lines.push(line("ask", book, state, &ask(&sale), 0));
        lines.push(line("register, of that ask", book, state, &sale, 0));
    }
    let last_hour = trade(3, 4, 1, (25, 25), 9_000_000, 1_000);
    let (most_18, more) = (after(&rows(254), &[last_hour]), Request { quantity: 1_100_000, ..sale });
    lines.push(line("ask, refused 18 (hour 25)", "255 rows", &most_18, &ask(&more), 18));
    lines.push(line("register, refused 18, of that ask", "255 rows", &most_18, &more, 18));
    let asked = after(&rows(255), &[ask(&sale)]);
    lines.push(line("commit", "255 rows, its ask", &asked, &commit(&sale), 0));
    lines.push(line("commit", "255 rows, 32 asks", &all, &commit(&of_each[31]), 0));
    lines.push(line("commit, refused 23", "255 rows, 32 asks", &all, &commit(&sale), 23));
}

fn confirms(lines: &mut Vec<Line>, half: &State, full: &State) {
    let row = made::rows(256);
    let one = after(&[], &[row[0]]);
    for (book, state, pending) in [("one row", &one, 0), ("half full", half, 126), ("full", full, 254)] {
        lines.push(line("confirm", book, state, &mirror(&row[pending]), 0));
    }
    lines.push(line("confirm, of a sale", "full", full, &mirror(&row[222]), 0));
    let other = Request { quantity: 99, ..mirror(&row[254]) };
    lines.push(line("confirm, refused 17", "full", full, &other, 17));
    lines.push(line("confirm, refused 16", "full", full, &mirror(&row[255]), 16));
    for (book, state, pending) in [("one row", &one, 0), ("half full", half, 126), ("full", full, 254)] {
        let withdrawal = withdrawal(row[pending].account, pending as u16 + 1);
        lines.push(line("withdraw", book, state, &withdrawal, 0));
    }
}

fn gate_and_batches(lines: &mut Vec<Line>, fresh: &State, half: &State, full: &State) {
    let books = [("fresh", fresh), ("half full", half), ("full", full)];
    for (book, state) in books {
        lines.push(line("guarantee", book, state, &guarantee(1, 900_000_000_000), 0));
    }
    lines.push(line("guarantee, raised", "full", full, &guarantee(16, 200_000_000), 0));
    lines.push(line("guarantee, refused 19", "full", full, &guarantee(16, 1), 19));
    for (book, state) in books {
        lines.push(line("open batch", book, state, &simple(kind::OPEN_BATCH), 0));
    }
    let mut second_half = vec![simple(kind::OPEN_BATCH)];
    second_half.extend(&made::rows(256)[128..]);
    let batch = after(&rows(128), &second_half);
    lines.push(line("undo, of 128 rows", "full, batch open", &batch, &simple(kind::UNDO), 0));
    lines.push(line("keep, of 128 rows", "full, batch open", &batch, &simple(kind::KEEP), 0));
    for (book, state) in books {
        lines.push(line("close gate", book, state, &simple(kind::CLOSE_GATE), 0));
    }
}

/// So many schedules over all points, sides and hours.
fn spread(count: u32) -> Vec<Request> {
    let one = |number: u32| {
        let (side, point) = ((number / 64 % 2) as u8 + 1, (number % 64) as u8 + 1);
        schedule(side, point, 1 + (number % 25) as u8, 40, 400_000 - number)
    };
    (0..count).map(one).collect()
}

/// So many schedules of one account, hour and side, each before all that came earlier.
fn contested(count: u32) -> Vec<Request> {
    (0..count).map(|number| schedule(1, 1, 1, 1, 300_000 - number)).collect()
}

fn schedules(lines: &mut Vec<Line>) {
    let mut closed = rows(256);
    closed.push(call(&simple(kind::CLOSE_GATE)));
    let none = after(&closed, &[]);
    let nearly = after(&closed, &spread(255));
    let all = after(&closed, &spread(256));
    let one_hour = after(&closed, &contested(256));
    let next = schedule(1, 64, 25, 1_000, 3_000);
    lines.push(line("schedule, the 1st", "full, closed", &none, &next, 0));
    lines.push(line("schedule, the 256th", "full, closed", &nearly, &next, 0));
    lines.push(line("schedule, refused 20", "full, closed", &all, &next, 20));
    let table = prices(&setup(), 300_000, 200_000);
    let settles =
        [("settle, no schedules", &none), ("settle, 256 schedules", &all), ("settle, 256 of one hour, reversed", &one_hour)];
    for (what, state) in settles {
        lines.push(Line::new(what, "full, closed", state, Work::Call(made::settle(table.clone()), 0)));
    }
}

/// 256 rows, half of them confirmed, 256 schedules, and the settlement.
fn whole_day() -> Vec<Step> {
    let mut calls = rows(256);
    calls.push(call(&simple(kind::CLOSE_GATE)));
    calls.extend(spread(256).iter().map(call));
    calls.push(made::settle(prices(&setup(), 300_000, 200_000)));
    calls
}

fn whole_days(lines: &mut Vec<Line>, fresh: &State) {
    let day = whole_day();
    let stream = reference::days::stream(&fresh.setup, &day);
    lines.push(Line::new(format!("whole day, {} calls", day.len()), "opened first", fresh, Work::Day(day)));
    for (what, stream) in [("replay program, that day", &stream[..]), ("replay program, no stream", &[])] {
        if let Some(replay) = Replay::of(if stream.is_empty() { "none" } else { "whole" }, stream) {
            lines.push(Line::new(what, "opened first", fresh, Work::Replay(replay)));
        }
    }
}
