//! Damage to requests and to their records.

use super::random::Random;
use crate::{bit, kind, layout, Book, Request};
use crate::{GREATEST_GUARANTEE, GREATEST_PRICE, GREATEST_QUANTITY};

/// Puts one field of a request out of its range, at times two.
pub(crate) fn out_of_range(random: &mut Random, book: &Book, request: &mut Request) {
    let map = layout(request.kind).map_or(0, |(map, _)| map);
    let fields: Vec<u8> = (bit::ACCOUNT..=bit::PRICE)
        .filter(|&field| map & (1 << field) != 0 && field != bit::CODE)
        .collect();
    if fields.is_empty() {
        return;
    }
    for _ in 0..random.pick(&[1, 1, 1, 2]) {
        let field = random.pick(&fields);
        put_beyond(random, book, request, field);
    }
}

fn put_beyond(random: &mut Random, book: &Book, request: &mut Request, field: u8) {
    let setup = book.setup();
    let beyond = |count: usize| [0, count as u8 + 1, 255];
    match field {
        bit::ACCOUNT => request.account = random.pick(&beyond(setup.accounts.len())),
        bit::OTHER => request.other = random.pick(&beyond(setup.accounts.len())),
        bit::SIDE => request.side = random.pick(&beyond(2)),
        bit::FIRST => request.first = random.pick(&beyond(setup.estimates.len())),
        bit::LAST if random.chance(50) => request.last = request.first.saturating_sub(1),
        bit::LAST => request.last = random.pick(&beyond(setup.estimates.len())),
        bit::QUANTITY => request.quantity = random.pick(&[0, GREATEST_QUANTITY + 1, u32::MAX]),
        bit::NUMBER => request.number = random.pick(&[0, 257, u16::MAX]),
        bit::OPERATOR => request.operator = random.pick(&beyond(setup.operators.len())),
        bit::GUARANTEE => request.guarantee = random.pick(&[GREATEST_GUARANTEE + 1, u64::MAX]),
        bit::POINT => request.point = random.pick(&beyond(setup.points.len())),
        _ => request.price = random.pick(&[GREATEST_PRICE + 1, u32::MAX]),
    }
}

/// Damages a record: its length, its map, its kind or any of its bytes.
pub(crate) fn record(random: &mut Random, record: &mut Vec<u8>) {
    match random.within(0..=8) {
        0 => record.truncate(random.within(0..=record.len() as u64 - 1) as usize),
        1 => {
            let more = random.within(1..=3) as usize;
            record.extend(random.bytes(more));
        }
        2..=3 => {
            let flipped = random.within(0..=15);
            record[(flipped / 8) as usize] ^= 1 << (flipped % 8);
        }
        4 => record[2] = random.pick(&[0, 14, 255]),
        5 => record[2] = random.within(kind::REGISTER.into()..=kind::COMMIT.into()) as u8,
        6 => {
            let at = random.within(0..=record.len() as u64 - 1) as usize;
            record[at] = random.next() as u8;
        }
        7 => {
            let length = random.within(0..=24) as usize;
            *record = random.bytes(length);
        }
        _ => {
            // Another kind with its own map, and a length that seldom fits.
            let kind = random.within(kind::REGISTER.into()..=kind::COMMIT.into()) as u8;
            let map = layout(kind).map_or(1, |(map, _)| map);
            record[..2].copy_from_slice(&map.to_le_bytes());
            record[2] = kind;
        }
    }
}
