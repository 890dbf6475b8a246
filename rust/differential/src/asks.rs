//! An ask beside its register, a commit beside its ask, and the bytes in which asks stand.

use crate::made::of_record;
use crate::ours::{Answer, Ours};
use crate::play::compare_call;
use crate::Counts;
use reference::days::Step;
use reference::{kind, Book, Request, Row, Side, Status, Verdict, GREATEST_QUANTITY};

/// Where the asks stand in a book, the bytes of each, and how many places there are (docs/LAYOUT.md).
const ASKS_AT: usize = 26_888;
const ASK: usize = 18;
const PLACES: u8 = 32;

/// Where the place of an account begins.
fn place_at(place: u8) -> usize {
    ASKS_AT + ASK * (usize::from(place) - 1)
}

/// The bytes of a place.
fn bytes_of(ask: Option<Row>) -> [u8; ASK] {
    let mut bytes = [0; ASK];
    if let Some(row) = ask {
        bytes[0] = row.account;
        bytes[1] = row.counterparty;
        bytes[2..10].copy_from_slice(&row.code.to_le_bytes());
        bytes[10] = row.side as u8;
        bytes[11] = row.first;
        bytes[12] = row.last;
        bytes[13..17].copy_from_slice(&row.quantity.to_le_bytes());
        bytes[17] = match row.status {
            Status::Pending => 1,
            Status::Confirmed => 2,
            Status::Withdrawn => 3,
        };
    }
    bytes
}

/// What the bytes of a place say: no ask or a row; nothing where they are neither.
fn ask_of(bytes: [u8; ASK]) -> Option<Option<Row>> {
    if bytes == [0; ASK] {
        return Some(None);
    }
    let (mut code, mut quantity) = ([0; 8], [0; 4]);
    code.copy_from_slice(&bytes[2..10]);
    quantity.copy_from_slice(&bytes[13..17]);
    let side = match bytes[10] {
        1 => Side::Sell,
        2 => Side::Buy,
        _ => return None,
    };
    let status = match bytes[17] {
        1 => Status::Pending,
        2 => Status::Confirmed,
        3 => Status::Withdrawn,
        _ => return None,
    };
    Some(Some(Row {
        account: bytes[0],
        counterparty: bytes[1],
        code: u64::from_le_bytes(code),
        side,
        first: bytes[11],
        last: bytes[12],
        quantity: u32::from_le_bytes(quantity),
        status,
    }))
}

/// The asks that stand in ours are those that stand in the reference.
fn compare_standing(theirs: &Book, ours: &Ours) -> Result<(), String> {
    let asks = theirs.asks().iter().copied().chain(std::iter::repeat(None)).take(PLACES.into());
    for (place, ask) in (1..).zip(asks) {
        let bytes = &ours.bytes()[place_at(place)..][..ASK];
        if bytes != bytes_of(ask) {
            return Err(format!("for account {place} the reference has the ask {ask:?}, ours {bytes:?}"));
        }
    }
    Ok(())
}

/// The numbers that the asks that stand were given, by account, and both books before a call that is to be held against others.
#[derive(Default)]
pub struct Asks {
    given: [Option<u16>; PLACES as usize],
    before: Option<(Book, Ours)>,
}

impl Asks {
    /// Asks are held against their registers, and so are commits.
    pub fn before(&mut self, theirs: &Book, ours: &Ours, call: &Step) {
        let wanted = says(call, kind::ASK) || says(call, kind::COMMIT);
        self.before = wanted.then(|| (theirs.clone(), ours.clone()));
    }

    /// After a call: what stands is the same in both; an ask answers as its register, and changes its own place alone; an accepted commit
    /// gives its ask's number, and leaves what its register leaves.
    pub fn compare(
        &mut self,
        theirs: &Book,
        ours: &Ours,
        call: &Step,
        answer: &Answer,
        counts: &mut Counts,
    ) -> Result<(), String> {
        compare_standing(theirs, ours)?;
        let is_accepted = answer.verdict.is_accepted();
        if let Some(before) = self.before.take() {
            let sort = if says(call, kind::ASK) { &mut counts.asks } else { &mut counts.commits };
            sort[usize::from(!is_accepted)] += 1;
            if says(call, kind::ASK) {
                compare_ask(before, ours, call, answer)?;
                counts.asks_beside += 1;
            } else if is_accepted {
                self.compare_commit(before, (theirs, ours), call, answer)?;
                counts.commits_beside += 1;
            }
        }
        if is_accepted && says(call, kind::ASK) {
            self.given[usize::from(call.record[3]) - 1] = Some(answer.verdict.first);
        } else if is_accepted {
            self.given = [None; PLACES as usize];
        }
        Ok(())
    }

    fn compare_commit(&self, before: (Book, Ours), after: (&Book, &Ours), call: &Step, answer: &Answer) -> Result<(), String> {
        let account = call.record[3];
        if self.given[usize::from(account) - 1] != Some(answer.verdict.first) {
            let given = self.given[usize::from(account) - 1];
            return Err(format!("the commit gives {}, its ask gave {given:?}", answer.verdict.first));
        }
        let (mut theirs, mut ours) = before;
        let registered = compare_call(&mut theirs, &mut ours, &with_kind(call, kind::REGISTER))?;
        if registered != *answer {
            return Err(format!("the commit answers {answer:?}, its register {registered:?}"));
        }
        if theirs != *after.0 || ours.bytes() != after.1.bytes() {
            return Err(String::from("the commit leaves another book than its register"));
        }
        Ok(())
    }
}

/// The answer of the register on a copy of both books; and the bytes thereafter, which differ from those before in one place at most.
fn compare_ask(before: (Book, Ours), after: &Ours, call: &Step, answer: &Answer) -> Result<(), String> {
    let (mut theirs, mut ours) = before;
    let mut expected = ours.bytes().to_vec();
    if answer.verdict.is_accepted() {
        let at = place_at(call.record[3]);
        // The record has the fields of a row, one after another, behind its map and its kind.
        expected[at..at + ASK - 1].copy_from_slice(&call.record[3..]);
        expected[at + ASK - 1] = 1;
    }
    if expected != after.bytes() {
        return Err(String::from("an ask changed more than its account's place, or put other bytes there"));
    }
    let registered = compare_call(&mut theirs, &mut ours, &with_kind(call, kind::REGISTER))?;
    if registered != *answer {
        return Err(format!("the ask answers {answer:?}, its register {registered:?}"));
    }
    Ok(())
}

fn says(call: &Step, kind: u8) -> bool {
    call.record.get(2) == Some(&kind)
}

/// The call with another kind in its record.
fn with_kind(call: &Step, kind: u8) -> Step {
    let mut other = call.clone();
    other.record[2] = kind;
    other
}

/// Makes a call on the book with other bytes in a place of the asks, mostly one where an ask stands. The bytes are a book exactly if what
/// the reference holds is one with that ask; then the call answers the same in both, and the ask can be committed.
pub fn compare_changed(theirs: &Book, ours: &Ours, call: &Step, chosen: u64, counts: &mut Counts) -> Result<(), String> {
    let one = |shift: u64, count: usize| (chosen >> shift) as usize % count;
    let standing: Vec<Row> = theirs.asks().iter().copied().flatten().collect();
    let row = match standing[..] {
        [] => a_row(theirs, call, chosen >> 16),
        _ => standing[one(16, standing.len())],
    };
    let place = match row.account {
        account @ 1..=PLACES if one(0, 8) != 0 => account,
        _ => 1 + one(8, PLACES.into()) as u8,
    };
    let bytes = changed(theirs, place, row, chosen >> 24);
    let expected = ask_of(bytes).and_then(|ask| theirs.with_ask(place, ask));
    match (ours.with(call, place_at(place), &bytes)?, expected) {
        (None, None) => counts.asks_broken += 1,
        (Some(mut ours), Some(mut theirs)) => {
            compare_call(&mut theirs.clone(), &mut ours.clone(), call)?;
            if bytes != [0; ASK] {
                let number = theirs.rows().len() as u16 + 1;
                let commit = [&[0xFF, 0, kind::COMMIT], &bytes[..ASK - 1]].concat();
                let answer = compare_call(&mut theirs, &mut ours, &of_record(commit))?;
                if answer.verdict != Verdict::accepted(number) {
                    return Err(format!("the ask {bytes:?} stands for account {place}, but its commit answers {answer:?}"));
                }
            }
            counts.asks_kept += 1;
        }
        (ours, _) => {
            let (with, without) = if ours.is_some() { ("ours", "the reference") } else { ("the reference", "ours") };
            return Err(format!("{bytes:?} for account {place}: {with} is a book, {without} is not"));
        }
    }
    Ok(())
}

/// A row where no ask stands: what the call would register, or a row of the book, or any.
fn a_row(theirs: &Book, call: &Step, chosen: u64) -> Row {
    let of_call = reference::read(&call.record).ok().filter(|request| request.other != 0);
    match (of_call, theirs.rows()) {
        (Some(request), _) => row_of(&request),
        (None, []) => row_of(&Request { account: 1, other: 2, side: 1, first: 1, last: 1, quantity: 1, ..Request::default() }),
        (None, rows) => Row { status: Status::Pending, ..rows[chosen as usize % rows.len()] },
    }
}

fn row_of(request: &Request) -> Row {
    Row {
        account: request.account,
        counterparty: request.other,
        code: request.code,
        side: if request.side == 2 { Side::Buy } else { Side::Sell },
        first: request.first,
        last: request.last,
        quantity: request.quantity,
        status: Status::Pending,
    }
}

/// The bytes of an ask with one thing changed: a field, a byte, its quantity to what the account can take on or one more, or nothing.
fn changed(theirs: &Book, place: u8, row: Row, chosen: u64) -> [u8; ASK] {
    let one = |shift: u64, count: usize| (chosen >> shift) as usize % count;
    let mut bytes = bytes_of(Some(row));
    match one(0, 16) {
        0 => return [0; ASK],
        1 => {}
        2..=5 => {
            // Each field but the quantity.
            let at = [0, 1, 2, 9, 10, 11, 12, 17][one(8, 8)];
            let values = [0, 1, 2, 3, 24, 25, 26, 33, bytes[at].wrapping_sub(1), bytes[at].wrapping_add(1), 255];
            bytes[at] = values[one(16, values.len())];
        }
        6 => bytes[one(8, ASK)] ^= 1 << one(16, 8),
        7 => bytes[0] = place,
        8 => (bytes[0], bytes[1]) = (place, row.account),
        9 => {
            // Alike a row of the book, be it pending or not.
            if let Some(alike) = theirs.rows().get(one(8, theirs.rows().len().max(1))) {
                bytes[..10].copy_from_slice(&bytes_of(Some(*alike))[..10]);
            }
        }
        _ => {
            let limits = [0, 1, GREATEST_QUANTITY, GREATEST_QUANTITY + 1, u32::MAX];
            let quantity = match one(8, 8) {
                0 => limits[one(16, limits.len())],
                _ => most(theirs, &row, one(12, 2) == 0).wrapping_add([0, 1, 1, u32::MAX][one(16, 4)]),
            };
            bytes[13..17].copy_from_slice(&quantity.to_le_bytes());
        }
    }
    bytes
}

/// How much more the account of a row can take on in its hours: by its margins, or by the guarantee of its operator too.
fn most(theirs: &Book, row: &Row, covered: bool) -> u32 {
    let setup = theirs.setup();
    let Some(account) = setup.accounts.get(usize::from(row.account).wrapping_sub(1)) else {
        return 1;
    };
    let mut most = i64::from(GREATEST_QUANTITY);
    let mut estimates = 0;
    for hour in row.first..=row.last {
        let Ok(position) = theirs.position(row.account, hour) else {
            return 1;
        };
        let at = usize::from(hour) - 1;
        estimates += u64::from(setup.estimates[at]);
        most = most.min(match row.side {
            Side::Sell => i64::from(account.lower_margins[at]) + i64::from(position.low()),
            Side::Buy => i64::from(account.upper_margins[at]) - i64::from(position.high()),
        });
    }
    let left = theirs.available(account.operator).unwrap_or(0) - theirs.exposure(account.operator).unwrap_or(0);
    if covered && row.side == Side::Sell && estimates > 0 {
        most = most.min((left / estimates) as i64);
    }
    most as u32
}
