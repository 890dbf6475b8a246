//! A day: the bytes of its set-up and its calls; as text, one line for each.

use reference::days::Step;
use std::fmt::Write;

/// A set-up and the calls that follow it.
#[derive(Clone, Debug, PartialEq, Eq)]
pub struct Day {
    pub setup: Vec<u8>,
    pub calls: Vec<Step>,
}

impl Day {
    /// The day that a seed makes.
    pub fn of_seed(seed: u64) -> Self {
        let (setup, calls) = reference::days::day(seed);
        Self { setup, calls }
    }

    /// The day as text, under lines of comment.
    pub fn to_text(&self, comment: &str) -> String {
        let mut text = String::new();
        for line in comment.lines() {
            let _ = writeln!(text, "# {line}");
        }
        let _ = writeln!(text, "setup {}", hex(&self.setup));
        for call in &self.calls {
            let (record, prices) = (hex(&call.record), hex(&call.prices));
            let _ = writeln!(text, "call {record} {prices} {} {}", call.results, call.balances);
        }
        text
    }

    /// The day that a text says; or the number of the line that is not understood.
    pub fn from_text(text: &str) -> Result<Self, usize> {
        let mut day = Self { setup: Vec::new(), calls: Vec::new() };
        for (number, line) in (1..).zip(text.lines()) {
            let words: Vec<&str> = line.split_whitespace().collect();
            match words[..] {
                [] | ["#", ..] => {}
                ["setup", setup] => day.setup = bytes(setup).ok_or(number)?,
                ["call", record, prices, results, balances] => day.calls.push(Step {
                    record: bytes(record).ok_or(number)?,
                    prices: bytes(prices).ok_or(number)?,
                    results: results.parse().map_err(|_| number)?,
                    balances: balances.parse().map_err(|_| number)?,
                }),
                _ => return Err(number),
            }
        }
        Ok(day)
    }
}

/// Bytes in hexadecimal; `-` for none.
fn hex(bytes: &[u8]) -> String {
    if bytes.is_empty() {
        return String::from("-");
    }
    bytes.iter().map(|byte| format!("{byte:02x}")).collect()
}

fn bytes(hex: &str) -> Option<Vec<u8>> {
    if hex == "-" {
        return Some(Vec::new());
    }
    if !hex.len().is_multiple_of(2) {
        return None;
    }
    let byte = |at| u8::from_str_radix(hex.get(at..at + 2)?, 16).ok();
    (0..hex.len()).step_by(2).map(byte).collect()
}
