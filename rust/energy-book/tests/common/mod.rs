//! What several tests share.
#![allow(dead_code)]

use energy_book::{Account, Operator, Point, Setup, Side, Terms};

/// The set-up of the paper's whole case, with this guarantee of operator 1.
pub fn setup(guarantee: u64) -> Setup {
    Setup {
        estimates: vec![5_000; 24],
        operators: vec![Operator { guarantee, maintenance: 100 }, Operator { guarantee: 0, maintenance: 0 }],
        accounts: vec![Account::same_all_day(1, 1, 20_000, 0, 24), Account::same_all_day(2, 2, 0, 20_000, 24)],
        points: vec![Point { account: 1, kind: 1, zone: 1, injection: 15_000, withdrawal: 0 }],
        zones: 1,
    }
}

/// A sale in hour 1.
pub fn sale(code: u64, quantity: u32) -> Terms {
    Terms { code, side: Side::Sells, first: 1, last: 1, quantity }
}

/// Numbers that look random and are the same in every run (xorshift).
pub struct Numbers(pub u64);

impl Numbers {
    pub fn next(&mut self) -> u64 {
        self.0 ^= self.0 << 13;
        self.0 ^= self.0 >> 7;
        self.0 ^= self.0 << 17;
        self.0
    }

    pub fn below(&mut self, n: u64) -> u64 {
        self.next() % n
    }
}
