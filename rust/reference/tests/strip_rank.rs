//! Strips: their own faults, those of their rows, and which is given.

mod common;
use common::*;
use reference::*;

/// The order in which numbers are looked for; opening's two have no part in it.
const RANK: [u8; 21] = [
    1, 2, 3, 4, 5, 21, 6, 7, 10, 11, 12, 13, 23, 14, 22, 15, 16, 17, 18, 19, 20,
];

fn rank(verdict: Verdict) -> usize {
    let place = RANK.iter().position(|&number| number == verdict.number);
    place.expect("a number with a rank")
}

/// A sale of account 1 to account 2 with a code of its own.
fn sale(code: u64) -> Request {
    Request {
        last: 2,
        code,
        ..sell(10)
    }
}

/// A strip of so many rows, in bytes.
fn strip(count: u64) -> Vec<u8> {
    strip_record(&(0..count).map(sale).collect::<Vec<_>>())
}

/// The answer of a fresh day.
fn answer(record: &[u8]) -> Verdict {
    Day::open(&wide()).record(record)
}

#[test]
fn a_strip_meets_its_own_numbers_first() {
    for cut in 0..3 {
        assert_eq!(answer(&[1, 0, 11][..cut]), refused(2));
    }
    for map in [0u16, 2, 0x2001, 0x4001, 0x8001] {
        let [low, high] = map.to_le_bytes();
        assert_eq!(answer(&[low, high, 11, 0]), refused(2));
    }
    // 2 before 3, and 14 is no kind.
    assert_eq!(answer(&[0, 0, 14]), refused(2));
    assert_eq!(answer(&[1, 0, 14]), refused(3));
    // 4 before 5: how many fields stand unwanted; none but the kind is wanted.
    for (map, unwanted) in [(3u16, 1), (0x00FF, 7), (0x1FFF, 12)] {
        let [low, high] = map.to_le_bytes();
        assert_eq!(answer(&[low, high, 11]), with(4, 0, unwanted));
        let mut record = strip(2);
        record[..2].copy_from_slice(&[low, high]);
        assert_eq!(answer(&record), with(4, 0, unwanted));
    }
}

#[test]
fn the_length_comes_before_the_count() {
    assert_eq!(answer(&[1, 0, 11]), refused(5));
    assert_eq!(answer(&[1, 0, 11, 0]), refused(21));
    assert_eq!(answer(&[1, 0, 11, 0, 0]), refused(5));
    assert_eq!(answer(&[1, 0, 11, 1]), refused(5));
    for count in [0u8, 1, 2, 24, 25, 255] {
        let whole = [&[1, 0, 11, count][..], &vec![0; 20 * usize::from(count)]].concat();
        let own = match count {
            1..=24 => refused(2),
            _ => refused(21),
        };
        assert_eq!(answer(&whole), own, "{count} rows of zeros");
        assert_eq!(answer(&[&whole[..], &[0]].concat()), refused(5));
        if count > 0 {
            assert_eq!(answer(&whole[..whole.len() - 1]), refused(5));
            assert_eq!(answer(&whole[..whole.len() - 20]), refused(5));
        }
    }
    assert_eq!(answer(&strip(24)), accepted(1));
    assert_eq!(answer(&strip(25)), refused(21));
    // 21 comes before the faults of rows, 3 of the strip before 21.
    let mut record = strip(25);
    record[4] = 0;
    assert_eq!(answer(&record), refused(21));
    record[2] = 14;
    assert_eq!(answer(&record), refused(3));
}

/// A fault of one row: bytes put at an offset of it, and what it gives alone.
type Fault = (&'static str, usize, &'static [u8], Verdict);

const FAULTS: [Fault; 20] = [
    ("no kind", 0, &[0xFE], refused(2)),
    ("a bit past the fields", 1, &[0x20], refused(2)),
    ("the last bit", 1, &[0x80], refused(2)),
    ("no kind, and kind 2", 0, &[0xFE, 0, 2], refused(2)),
    ("kind 0", 2, &[0], refused(3)),
    ("kind 2", 2, &[2], refused(3)),
    ("kind 11", 2, &[11], refused(3)),
    ("kind 12", 2, &[12], refused(3)),
    ("kind 13", 2, &[13], refused(3)),
    ("a settle's map and kind", 0, &[1, 0, 10], refused(3)),
    ("two fields missing", 0, &[0xF9], with(4, 2, 0)),
    ("one missing, two unwanted", 0, &[0x7F, 3], with(4, 1, 2)),
    ("account 3", 3, &[3], with(6, 1, 0)),
    ("proposed by 2 to 2", 3, &[2], with(6, 1, 0)),
    ("proposed by 2 to 1", 3, &[2, 1], with(6, 1, 0)),
    (
        "counterparty 3, side 0",
        4,
        &[3, 0, 0, 0, 0, 0, 0, 0, 0, 0],
        with(6, 2, 0),
    ),
    ("side 3", 13, &[3], with(6, 4, 0)),
    ("hour 0", 14, &[0], with(6, 5, 0)),
    ("last before first", 14, &[3], with(6, 6, 0)),
    ("one account", 4, &[1], refused(7)),
];

fn put(record: &mut [u8], row: usize, fault: &Fault) {
    let (_, at, bytes, _) = *fault;
    record[4 + 20 * row + at..][..bytes.len()].copy_from_slice(bytes);
}

#[test]
fn each_fault_in_each_row() {
    for fault in &FAULTS {
        for row in [0, 1, 11, 23] {
            let mut record = strip(24);
            put(&mut record, row, fault);
            assert_eq!(answer(&record), fault.3, "{} in {row}", fault.0);
        }
    }
}

#[test]
fn of_two_faults_the_earlier_in_rank_then_the_first_row() {
    for one in &FAULTS {
        for other in &FAULTS {
            for rows in [(1, 2), (2, 23), (5, 6)] {
                let mut record = strip(24);
                put(&mut record, rows.0, one);
                put(&mut record, rows.1, other);
                let expected = if rank(one.3) <= rank(other.3) {
                    one.3
                } else {
                    other.3
                };
                let names = (one.0, other.0);
                assert_eq!(answer(&record), expected, "{names:?} in {rows:?}");
            }
        }
    }
}

#[test]
fn the_first_faulty_row_gives_its_lowest_bit() {
    let row = sale;
    let late = |code| Request {
        last: 25,
        quantity: 0,
        ..row(code)
    };
    let bad_side = |code| Request {
        side: 0,
        ..row(code)
    };
    let strip = |rows: &[Request]| Day::open(&wide()).strip(rows);
    assert_eq!(strip(&[row(0), late(1), bad_side(2)]), with(6, 6, 0));
    assert_eq!(strip(&[row(0), bad_side(1), late(2)]), with(6, 4, 0));
    // A first row whose account is none: the others are as it, or not.
    let none = |code| Request {
        account: 3,
        ..row(code)
    };
    assert_eq!(strip(&[none(0), none(1)]), with(6, 1, 0));
    assert_eq!(strip(&[none(0), row(1)]), with(6, 1, 0));
    // Every row of account 2 to itself is 7; one of them alone is 6.
    let own = |code| Request {
        account: 2,
        ..row(code)
    };
    assert_eq!(strip(&[own(0), own(1)]), refused(7));
    assert_eq!(strip(&[own(0), row(1)]), with(6, 1, 0));
}

/// Account 1 can sell 20,000 an hour and 18,000 in all; 232 rows stand, and
/// codes 1,000 and up are pending.
fn crowded() -> Day {
    let mut day = Day::open(&whole_case());
    for code in 0..232 {
        let tiny = Request {
            code: 1_000 + code,
            ..sell(1)
        };
        assert!(day.call(tiny).is_accepted());
    }
    day
}

/// A change of a strip of 24 rows, and what it gives on the crowded day.
type Change = (fn(&mut Vec<Request>), Verdict);

/// Each in the first or the last row, and what needs two rows in two others.
const CHANGES: [Change; 11] = [
    (|rows| rows[23].kind = 3, refused(3)),
    (|rows| rows[0].kind = 2, refused(3)),
    (|rows| rows[22].quantity = 0, with(6, 7, 0)),
    (|rows| rows[21].other = 1, refused(7)),
    (|rows| rows[20].code = 1_231, refused(14)),
    (|rows| rows[1].code = 1_000, refused(14)),
    (|rows| rows[2].code = rows[19].code, refused(22)),
    (|rows| rows[18].first = 9, with(6, 6, 0)),
    (|rows| rows[3].quantity = 19_990, with(18, 1, 0)),
    (|rows| rows[17].quantity = 17_700, refused(19)),
    (
        |rows| {
            // Hour 1 is touched by a later row alone, and so it is named.
            rows[4].quantity = 20_001;
            (rows[4].first, rows[4].last) = (5, 5);
            rows[16].quantity = 20_001;
        },
        with(18, 1, 0),
    ),
];

fn changed(changes: &[&Change]) -> Vec<u8> {
    let mut rows: Vec<Request> = (0..24)
        .map(|code| Request {
            last: 1,
            ..sale(code)
        })
        .collect();
    for (change, _) in changes {
        change(&mut rows);
    }
    strip_record(&rows)
}

#[test]
fn what_the_state_refuses_comes_in_rank() {
    assert_eq!(crowded().record(&changed(&[])), accepted(233));
    let mut day = crowded();
    for one in &CHANGES {
        assert_eq!(day.record(&changed(&[one])), one.1);
        for other in &CHANGES {
            let verdict = day.record(&changed(&[one, other]));
            let earlier = rank(one.1).min(rank(other.1));
            assert_eq!(rank(verdict), earlier, "{:?} and {:?}", one.1, other.1);
        }
    }
    // With one row more there is no place, whatever the margins.
    assert!(day
        .call(Request {
            code: 999,
            ..sell(1)
        })
        .is_accepted());
    for one in &CHANGES {
        let expected = if rank(one.1) < rank(refused(15)) {
            one.1
        } else {
            refused(15)
        };
        assert_eq!(day.record(&changed(&[one])), expected);
    }
}

#[test]
fn a_strip_of_one_row_answers_as_its_register() {
    let day = crowded();
    let alone = |record: &[u8]| {
        let mut book = day.book.clone();
        (book.call(record, &[], &mut [], &mut []), book)
    };
    let mut records: Vec<Vec<u8>> = Vec::new();
    for row in [sale(0), sale(1_000), sell(20_001), sell(19_000)] {
        records.push(record(&row));
    }
    for fault in &FAULTS {
        let mut strip = strip(1);
        put(&mut strip, 0, fault);
        records.push(strip[4..].to_vec());
    }
    records.retain(|record| record[2] == kind::REGISTER);
    assert_eq!(records.len(), 4 + 13);
    for register in records {
        let strip = [&[1, 0, 11, 1], &register[..]].concat();
        assert_eq!(alone(&strip), alone(&register), "{register:?}");
    }
}
