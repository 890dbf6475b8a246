//! What a run has compared.

use std::ops::AddAssign;

/// How much was compared.
#[derive(Clone, Debug, Default)]
pub struct Counts {
    pub days: u64,
    pub calls: u64,
    /// By verdict, of openings and of calls.
    pub openings: [u64; 24],
    pub verdicts: [u64; 24],
    /// Readings of net, exposure and hourly exposure, and those of hourly exposure among them.
    pub readings: u64,
    pub hourly_readings: u64,
    /// Hourly exposures read and summed after calls, and their sums, each held against an operator's exposure: above 0, and 0.
    pub hourly_summed: u64,
    pub hourly_sums: [u64; 2],
    /// Batches that were undone, and calls of the lists with empty kept ones in their place.
    pub undone: u64,
    pub matched: u64,
    /// Calls on bytes that are no book, and on those that still are one.
    pub damaged: u64,
    pub undamaged: u64,
    /// The same of books with another margin, which are held against the reference's.
    pub margins_broken: u64,
    pub margins_kept: u64,
    /// Accepted settles, and the balances that ours wrote there, each held against the total of the reference's hourly amounts.
    pub settled: u64,
    pub balances: u64,
    /// The account hours of these totals with a purchase, with a sale, and with a CCT.
    pub hours: [u64; 3],
    /// The registered schedules in them: injections, withdrawals, and withdrawals on mixed points.
    pub registered: [u64; 3],
    /// Strips accepted and refused, and the rows of those accepted.
    pub strips: [u64; 2],
    pub strip_rows: u64,
    /// Accepted strips held against their registers in turn.
    pub in_turn: u64,
    /// Registers held against strips of that one row, and the other way round: accepted and refused.
    pub of_one: [u64; 2],
    /// Asks and commits, accepted and refused.
    pub asks: [u64; 2],
    pub commits: [u64; 2],
    /// Asks held against their registers, and accepted commits against their asks and registers.
    pub asks_beside: u64,
    pub commits_beside: u64,
    /// Calls on books with other bytes in the place of an ask, which are held against the reference's: no book, and still one.
    pub asks_broken: u64,
    pub asks_kept: u64,
}

impl AddAssign<&Counts> for Counts {
    fn add_assign(&mut self, more: &Counts) {
        self.days += more.days;
        self.calls += more.calls;
        for number in 0..self.verdicts.len() {
            self.openings[number] += more.openings[number];
            self.verdicts[number] += more.verdicts[number];
        }
        self.readings += more.readings;
        self.hourly_readings += more.hourly_readings;
        self.hourly_summed += more.hourly_summed;
        self.undone += more.undone;
        self.matched += more.matched;
        self.damaged += more.damaged;
        self.undamaged += more.undamaged;
        self.margins_broken += more.margins_broken;
        self.margins_kept += more.margins_kept;
        self.settled += more.settled;
        self.balances += more.balances;
        for sort in 0..3 {
            self.hours[sort] += more.hours[sort];
            self.registered[sort] += more.registered[sort];
        }
        for sort in 0..2 {
            self.hourly_sums[sort] += more.hourly_sums[sort];
            self.strips[sort] += more.strips[sort];
            self.of_one[sort] += more.of_one[sort];
            self.asks[sort] += more.asks[sort];
            self.commits[sort] += more.commits[sort];
        }
        self.asks_beside += more.asks_beside;
        self.commits_beside += more.commits_beside;
        self.asks_broken += more.asks_broken;
        self.asks_kept += more.asks_kept;
        self.strip_rows += more.strip_rows;
        self.in_turn += more.in_turn;
    }
}
