//! Ledgers that no calls make, each with one thing wrong.

use super::{Ledger, MOST_ROWS};
use crate::{Row, Status};

/// A change that is wrong in one thing, and its name.
pub(crate) type Damage = (&'static str, fn(&mut Ledger));

/// What is kept beside the rows, changed.
pub(crate) const OF_SUMS: [Damage; 11] = [
    ("a net above", |ledger| ledger.positions[0].net += 1),
    ("a net below", |ledger| ledger.positions[47].net -= 1),
    ("pending sales above", |ledger| {
        ledger.positions[0].pending_sales += 1;
    }),
    ("pending purchases above", |ledger| {
        ledger.positions[23].pending_purchases += 1;
    }),
    ("an exposure above", |ledger| ledger.exposures[0] += 1),
    ("an exposure below", |ledger| ledger.exposures[0] -= 1),
    ("one exposure more", |ledger| ledger.exposures.push(0)),
    ("one position more", |ledger| {
        ledger.positions.push(Default::default());
    }),
    ("one guarantee more", |ledger| ledger.guarantees.push(0)),
    ("a guarantee above the greatest", |ledger| {
        ledger.guarantees[1] = 1_000_000_000_001;
    }),
    ("a guarantee below the exposure", |ledger| {
        // One cent more would do, 900 of a thousand being available.
        assert_eq!(ledger.exposures[0], 185_000_000);
        ledger.guarantees[0] = 205_555;
    }),
];

/// A row changed, most often one that is withdrawn and weighs on nothing.
/// The rows are those of the tests of the book.
pub(crate) const OF_ROWS: [Damage; 16] = [
    ("one account", |ledger| withdrawn(ledger).counterparty = 1),
    ("proposer 0", |ledger| withdrawn(ledger).account = 0),
    ("proposer 3", |ledger| withdrawn(ledger).account = 3),
    ("counterparty 0", |ledger| {
        withdrawn(ledger).counterparty = 0;
    }),
    ("counterparty 3", |ledger| {
        withdrawn(ledger).counterparty = 3;
    }),
    ("first hour 0", |ledger| withdrawn(ledger).first = 0),
    ("last hour 25", |ledger| withdrawn(ledger).last = 25),
    ("last before first", |ledger| withdrawn(ledger).first = 24),
    ("quantity 0", |ledger| withdrawn(ledger).quantity = 0),
    ("quantity above the greatest", |ledger| {
        withdrawn(ledger).quantity = 10_000_001;
    }),
    ("two pending alike", |ledger| ledger.rows[2].code = 1),
    ("confirmed, then withdrawn", |ledger| {
        ledger.rows[0].status = Status::Withdrawn;
    }),
    ("pending, then withdrawn", |ledger| {
        ledger.rows[1].status = Status::Withdrawn;
    }),
    ("a confirmed row of one hour more", |ledger| {
        ledger.rows[0].last += 1;
    }),
    ("257 rows", |ledger| {
        let row = *withdrawn(ledger);
        ledger.rows.resize(MOST_ROWS + 1, row);
    }),
    ("more than an i32 holds", |ledger| {
        let row = ledger.rows[1];
        let more = |code| Row {
            code,
            quantity: 10_000_000,
            ..row
        };
        ledger.rows.extend((10..250).map(more));
    }),
];

/// The row that is withdrawn: 1 sells to 2 in the hours 3 to 4.
fn withdrawn(ledger: &mut Ledger) -> &mut Row {
    assert_eq!(ledger.rows[3].status, Status::Withdrawn);
    &mut ledger.rows[3]
}

/// Another code in the row that is withdrawn, which is no damage by itself.
pub(crate) fn other_code(ledger: &mut Ledger) {
    withdrawn(ledger).code += 1;
}
