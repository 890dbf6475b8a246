//! A slow answer to a strip.

use super::limits;
use reference::*;
use std::collections::BTreeSet;

/// What a strip with 1 to 24 rows in its bytes must answer while the gate is
/// open, each number looked for over all rows, in rank.
pub fn expected(book: &Book, record: &[u8]) -> Verdict {
    let bytes: Vec<&[u8]> = record[4..].chunks(20).collect();
    let map = |row: &[u8]| u16::from_le_bytes([row[0], row[1]]);
    if bytes.iter().any(|row| map(row) & 0xE001 != 1) {
        return Verdict::refused(2);
    }
    if bytes.iter().any(|row| row[2] != 1) {
        return Verdict::refused(3);
    }
    if let Some(row) = bytes.iter().find(|row| map(row) != 0x00FF) {
        let missing = (0..8).filter(|bit| map(row) & (1 << bit) == 0).count();
        let unwanted = (8..16).filter(|bit| map(row) & (1 << bit) != 0).count();
        return Verdict::refused_with(4, missing as u16, unwanted as u16);
    }
    let requests: Vec<Request> = bytes.iter().map(|row| read(row).unwrap()).collect();
    let (accounts, hours) = (book.setup().accounts.len() as u8, book.setup().hours());
    let lowest_fault = |row: &Request| {
        let in_range = [
            (
                1,
                row.account == requests[0].account && (1..=accounts).contains(&row.account),
            ),
            (2, (1..=accounts).contains(&row.other)),
            (4, (1..=2).contains(&row.side)),
            (5, (1..=hours).contains(&row.first)),
            (6, (1..=hours).contains(&row.last) && row.first <= row.last),
            (7, (1..=10_000_000).contains(&row.quantity)),
        ];
        in_range
            .into_iter()
            .find(|&(_, fits)| !fits)
            .map(|(bit, _)| bit)
    };
    if let Some(bit) = requests.iter().find_map(lowest_fault) {
        return Verdict::refused_with(6, bit, 0);
    }
    if requests.iter().any(|row| row.account == row.other) {
        return Verdict::refused(7);
    }
    on_rows(book, &requests)
}

/// The same for rows that are in range: 14, 22, 15, 18, 19 or 0.
fn on_rows(book: &Book, requests: &[Request]) -> Verdict {
    let mut rows = book.rows().to_vec();
    let key = |row: &Request| (row.account, row.other, row.code);
    let pending = |row: &&Row| row.status == Status::Pending;
    let stood: Vec<_> = rows
        .iter()
        .filter(pending)
        .map(|row| (row.account, row.counterparty, row.code))
        .collect();
    if requests.iter().any(|row| stood.contains(&key(row))) {
        return Verdict::refused(14);
    }
    let keys: BTreeSet<_> = requests.iter().map(key).collect();
    if keys.len() < requests.len() {
        return Verdict::refused(22);
    }
    if rows.len() + requests.len() > 256 {
        return Verdict::refused(15);
    }
    let first = rows.len() + 1;
    rows.extend(requests.iter().map(|row| Row {
        account: row.account,
        counterparty: row.other,
        code: row.code,
        side: [Side::Sell, Side::Buy][usize::from(row.side) - 1],
        first: row.first,
        last: row.last,
        quantity: row.quantity,
        status: Status::Pending,
    }));
    limits(book, &rows, requests[0].account, first)
}

/// Whether a record is a strip's in map, kind, length and count.
pub fn is_whole(record: &[u8]) -> bool {
    matches!(record, [1, 0, 11, count @ 1..=24, rows @ ..] if rows.len() == 20 * usize::from(*count))
}
