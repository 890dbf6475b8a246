//! Days with strips: to the last row, in batches, at limits, and with every fault in every order.

use crate::directed::{day, paper_setup};
use crate::made::*;
use crate::Day;
use reference::days::Step;
use reference::*;

/// The days and their names.
pub(crate) fn days() -> Vec<(String, Day)> {
    let mut days = vec![
        (String::from("strips"), whole()),
        (String::from("strips-batches"), batches()),
        (String::from("strips-margins"), margins()),
        (String::from("strips-shapes"), shapes()),
        (String::from("strips-rows"), faulty_rows()),
        (String::from("strips-rank"), rank()),
    ];
    days.extend([231, 232, 233, 255, 256].map(|rows| (format!("strips-{rows}"), nearly_full(rows))));
    days
}

/// So many rows of one proposer: sales of 10 kWh, hour by hour, with codes from a first one on.
fn sales(count: u8, code: u64) -> Vec<Request> {
    let row = |number: u8| trade(1, 2, 1, (number % 24 + 1, number % 24 + 1), 10, code + u64::from(number));
    (0..count).map(row).collect()
}

/// A call in a batch of its own, which is undone.
fn undone(step: Step) -> [Step; 3] {
    [call(&simple(kind::OPEN_BATCH)), step, call(&simple(kind::UNDO))]
}

/// Strips of several counts, of either party; their rows are confirmed, withdrawn, and proposed again.
fn whole() -> Day {
    let setup = largest_setup();
    let mut calls = Vec::new();
    for count in [1, 2, 3, 12, 23, 24] {
        let rows = sales(count, 100 * u64::from(count));
        let bought: Vec<Request> = rows.iter().map(|row| Request { account: 2, other: 1, side: 2, ..*row }).collect();
        let second: Vec<Request> = rows.iter().step_by(2).copied().collect();
        calls.extend([strip(&rows), strip(&rows), strip(&bought)]);
        for _ in 0..2 {
            calls.extend(second.iter().map(|row| call(&mirror(row))));
            calls.extend([strip(&rows), strip(&second)]);
        }
    }
    calls.extend((1..=20).map(|number| call(&withdrawal(1, number))));
    calls.push(strip(&sales(3, 100)));
    calls.push(call(&simple(kind::CLOSE_GATE)));
    calls.push(strip(&sales(2, 7_000)));
    calls.push(settle(prices(&setup, 5, 6)));
    calls.push(strip(&sales(2, 7_000)));
    day(&setup, calls)
}

/// Strips where so many rows stand: 24 rows, one fewer, as many as are left and one more; then a register.
fn nearly_full(stand: u16) -> Day {
    let left = (256 - stand) as u8;
    let mut calls: Vec<Step> = rows(stand).iter().map(call).collect();
    calls.push(call(&simple(kind::OPEN_BATCH)));
    for count in [24, 25, 23, left, left.saturating_add(1), 2, 1] {
        calls.push(strip(&sales(count, 1_000)));
        calls.push(call(&trade(1, 2, 1, (1, 1), 1, 2_000)));
        // Twins and a pending row come before what has no place.
        let mut twins = sales(24, 3_000);
        twins[23].code = twins[0].code;
        calls.push(strip(&twins));
        let mut alike = sales(24, 3_000);
        (alike[20].other, alike[20].code) = (2, 0);
        calls.push(strip(&alike));
        calls.extend([call(&simple(kind::UNDO)), call(&simple(kind::OPEN_BATCH))]);
    }
    calls.push(call(&simple(kind::KEEP)));
    calls.push(strip(&sales(24, 1_000)));
    calls.extend(sales(24, 1_000).iter().step_by(3).map(|row| call(&mirror(row))));
    calls.push(call(&simple(kind::CLOSE_GATE)));
    day(&largest_setup(), calls)
}

/// Strips in batches that are undone and kept, with rows confirmed and withdrawn in them.
fn batches() -> Day {
    let mut calls = vec![strip(&sales(3, 0))];
    for (code, end) in [(100, kind::UNDO), (100, kind::KEEP), (500, kind::UNDO), (500, kind::UNDO)] {
        let rows = sales(24, code);
        calls.extend([call(&simple(kind::OPEN_BATCH)), call(&mirror(&sales(3, 0)[1])), strip(&rows)]);
        calls.extend([strip(&rows), call(&mirror(&rows[5])), call(&withdrawal(1, 4)), strip(&rows[..1])]);
        calls.extend([strip(&sales(2, code + 100)), call(&guarantee(1, 1_000_000)), call(&simple(kind::OPEN_BATCH))]);
        calls.extend([call(&simple(end)), strip(&sales(1, code + 200)), call(&withdrawal(1, 3))]);
    }
    day(&largest_setup(), calls)
}

/// Margins and guarantee met and passed by one, by rows together: in an hour that one, a later or two rows touch, by sales and
/// purchases that do not cancel, and on top of what is pending and traded.
fn margins() -> Day {
    let mut setup = paper_setup(GREATEST_GUARANTEE, 20_000);
    setup.operators[1].guarantee = GREATEST_GUARANTEE;
    setup.accounts[0].upper_margins.fill(5_000);
    setup.accounts[0].lower_margins[4..8].fill(0);
    let row = |side, hours, quantity, code| trade(1, 2, side, hours, quantity, code);
    let mut strips = Vec::new();
    for more in [0, 1] {
        strips.push(vec![row(1, (1, 4), 15_000, 0), row(1, (2, 3), 5_000 + more, 1)]);
        strips.push(vec![row(1, (24, 24), 20_000 + more, 0), row(1, (10, 10), 20_000, 1), row(1, (9, 10), more.max(1), 2)]);
        strips.push(vec![row(1, (9, 24), 20_000, 0), row(2, (9, 24), 5_000 + more, 1)]);
        strips.push(vec![row(2, (5, 8), 5_000, 0), row(1, (8, 9), 1 + more, 1)]);
        strips.push(vec![row(2, (1, 24), 2_500, 0), row(2, (12, 24), 2_500, 1), row(2, (1, 11), 2_500 + more, 2)]);
        let last = |number: u8| if number == 23 { 8 + more } else { 0 };
        strips.push((0..24).map(|number| row(1, (9, 9 + number % 15), 833 + last(number), number.into())).collect());
    }
    let mut calls = Vec::new();
    for prior in [None, Some(row(1, (1, 4), 1, 90)), Some(row(2, (5, 24), 3, 90))] {
        for confirmed in [false, true] {
            for rows in &strips {
                calls.push(call(&simple(kind::OPEN_BATCH)));
                calls.extend(prior.iter().map(call));
                calls.extend(prior.iter().filter(|_| confirmed).map(|row| call(&mirror(row))));
                let mut reversed = rows.clone();
                reversed.reverse();
                calls.extend([strip(rows), call(&simple(kind::UNDO)), call(&simple(kind::OPEN_BATCH))]);
                calls.extend(prior.iter().map(call));
                calls.extend([strip(&reversed), call(&simple(kind::UNDO))]);
            }
        }
    }
    // 5,000 cents less a tenth cover 900 kWh at the estimate; what is to be bought frees nothing.
    calls.push(call(&guarantee(1, 5_000)));
    for more in [0, 1] {
        let rows = [row(1, (1, 2), 300, 0), row(2, (1, 2), 900, 1), row(1, (24, 24), 300 + more, 2)];
        calls.extend(undone(strip(&rows)));
    }
    day(&setup, calls)
}

/// Every length from none to that of the longest strip and past it under some counts, and every count over some lengths.
fn shapes() -> Day {
    let whole = strip_record(&sales(26, 0));
    let with = |count: u8, length: usize| {
        let mut record = whole.clone();
        record.resize(length, 0);
        if let Some(byte) = record.get_mut(3) {
            *byte = count;
        }
        of_record(record)
    };
    let mut calls = Vec::new();
    for count in [0, 1, 2, 24, 25] {
        let fits = 4 + 20 * usize::from(count);
        for length in (0..=8).chain(fits.saturating_sub(21)..=fits + 21) {
            calls.extend(undone(with(count, length)));
        }
    }
    for count in 0..=255 {
        calls.extend(undone(with(count, 44)));
        calls.extend(undone(with(count, 4 + 20 * usize::from(count))));
    }
    for bit in 0..16 {
        for length in [3, 4, 24, 44] {
            let mut other = with(1, length);
            other.record[bit / 8] ^= 1 << (bit % 8);
            calls.push(other);
        }
    }
    day(&largest_setup(), calls)
}

/// What can be wrong in a row: bytes at an offset of it.
const FAULTS: [(usize, &[u8]); 24] = [
    (0, &[0xFE]),
    (1, &[0x20]),
    (1, &[0x80]),
    (2, &[0]),
    (2, &[2]),
    (2, &[11]),
    (2, &[12]),
    (2, &[13]),
    (2, &[14]),
    (0, &[1, 0, 10]),
    (0, &[0xF9]),
    (0, &[0x7F, 3]),
    (1, &[0x1F]),
    (3, &[0]),
    (3, &[3]),
    (3, &[2]),
    (3, &[33]),
    (4, &[0]),
    (4, &[33]),
    (13, &[3]),
    (14, &[0]),
    (15, &[26]),
    (16, &[0]),
    (4, &[1]),
];

fn with_faults(rows: &[Request], faults: &[(usize, usize)]) -> Step {
    let mut record = strip_record(rows);
    for &(row, fault) in faults {
        let (at, bytes) = FAULTS[fault];
        record[4 + 20 * row + at..][..bytes.len()].copy_from_slice(bytes);
    }
    of_record(record)
}

/// Every fault in every row of a strip, and every two of them in two rows, in both orders.
fn faulty_rows() -> Day {
    let (short, long) = (sales(3, 0), sales(24, 0));
    let mut calls = Vec::new();
    for fault in 0..FAULTS.len() {
        calls.extend((0..24).map(|row| with_faults(&long, &[(row, fault)])));
        for other in 0..FAULTS.len() {
            calls.extend([(0, 1), (1, 2), (2, 1)].map(|(row, next)| with_faults(&short, &[(row, fault), (next, other)])));
        }
    }
    day(&largest_setup(), calls)
}

/// What refuses a strip of 24 rows where 232 stand, or 233: each alone and every two, a fault of a row among them.
fn rank() -> Day {
    type Change = fn(&mut Vec<Request>);
    let changes: [Change; 9] = [
        |rows| rows[22].kind = 2,
        |rows| rows[21].quantity = 0,
        |rows| rows[3].account = 2,
        |rows| rows[20].other = 1,
        |rows| (rows[19].other, rows[19].code) = (2, 0),
        |rows| rows[18].code = rows[2].code,
        |rows| rows[17].quantity = GREATEST_QUANTITY,
        |rows| rows[1].quantity = GREATEST_QUANTITY - 1_000,
        |rows| rows.truncate(23),
    ];
    // Account 1 has not the margin for a sale of the greatest quantity, nor its operator the guarantee for one of little less.
    let mut setup = largest_setup();
    setup.operators[0].guarantee = 1_000_000_000;
    setup.accounts[0].lower_margins.fill(GREATEST_QUANTITY - 150);
    let mut calls: Vec<Step> = rows(232).iter().map(call).collect();
    for place in 0..2 {
        for one in changes {
            for other in changes {
                let mut changed = sales(24, 1_000);
                one(&mut changed);
                other(&mut changed);
                calls.extend(undone(strip(&changed)));
            }
        }
        if place == 0 {
            calls.push(call(&trade(5, 6, 1, (1, 1), 1, 5_000)));
        }
    }
    calls.push(call(&simple(kind::CLOSE_GATE)));
    calls.push(with_faults(&sales(3, 0), &[(1, 16)]));
    calls.push(strip(&sales(3, 0)));
    day(&setup, calls)
}
