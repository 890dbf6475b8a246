//! A strip beside the registers that it stands for: one row as its register, several as their registers in turn.

use crate::made::of_record;
use crate::ours::{Answer, Ours};
use crate::play::compare_call;
use crate::Counts;
use reference::days::Step;
use reference::{kind, Book};

/// The bytes of a row, and what comes before the rows of a strip.
const ROW: usize = 20;
const HEAD: usize = 4;

/// Both books before a call, kept where the call is to be held against others, and these other calls.
pub struct Beside<'a> {
    call: &'a Step,
    before: Option<(Book, Ours)>,
}

impl<'a> Beside<'a> {
    /// Every strip is held against its registers, every fourth register against its strip.
    pub fn before(theirs: &Book, ours: &Ours, call: &'a Step, number: usize) -> Self {
        let wanted = says(call, kind::STRIP) || number % 4 == 2 && says(call, kind::REGISTER);
        Self { call, before: wanted.then(|| (theirs.clone(), ours.clone())) }
    }

    /// After the call: the others answer the same and leave the same book, in both.
    pub fn compare(self, theirs: &Book, ours: &Ours, answer: &Answer, counts: &mut Counts) -> Result<(), String> {
        let Some((before_theirs, before_ours)) = self.before else {
            return Ok(());
        };
        let is_accepted = answer.verdict.is_accepted();
        if says(self.call, kind::STRIP) {
            counts.strips[usize::from(!is_accepted)] += 1;
        }
        if let Some(record) = other_form(&self.call.record) {
            let (mut theirs_again, mut ours_again) = (before_theirs.clone(), before_ours.clone());
            let again = compare_call(&mut theirs_again, &mut ours_again, &Step { record, ..self.call.clone() })?;
            if again != *answer {
                return Err(format!("{answer:?}, but {again:?} as a strip of one row or as its register"));
            }
            same_books((theirs, ours), (&theirs_again, &ours_again), "a strip of one row or its register")?;
            counts.of_one[usize::from(!is_accepted)] += 1;
        }
        if says(self.call, kind::STRIP) && is_accepted {
            let rows = self.call.record[HEAD..].chunks_exact(ROW);
            counts.strip_rows += rows.len() as u64;
            let (mut theirs_again, mut ours_again) = (before_theirs, before_ours);
            for (row, number) in rows.zip(answer.verdict.first..) {
                let one = compare_call(&mut theirs_again, &mut ours_again, &of_record(row.to_vec()))?;
                if one.verdict != reference::Verdict::accepted(number) {
                    return Err(format!("the strip is accepted, its register as row {number} answers {one:?}"));
                }
            }
            same_books((theirs, ours), (&theirs_again, &ours_again), "its registers in turn")?;
            counts.in_turn += 1;
        }
        Ok(())
    }
}

fn says(call: &Step, kind: u8) -> bool {
    call.record.get(2) == Some(&kind)
}

/// The strip of one row that a record of kind 1 and 20 bytes is in another form; or the record of such a strip's row.
fn other_form(record: &[u8]) -> Option<Vec<u8>> {
    let is_row = |row: &[u8]| row.len() == ROW && row[2] == kind::REGISTER;
    match record {
        row if is_row(row) => Some([&[1, 0, kind::STRIP, 1], row].concat()),
        [1, 0, kind::STRIP, 1, row @ ..] if is_row(row) => Some(row.to_vec()),
        _ => None,
    }
}

fn same_books(after: (&Book, &Ours), again: (&Book, &Ours), what: &str) -> Result<(), String> {
    if after.0 != again.0 {
        return Err(format!("in the reference {what} leaves another book"));
    }
    if after.1.bytes() != again.1.bytes() {
        return Err(format!("in ours {what} leaves another book"));
    }
    Ok(())
}
