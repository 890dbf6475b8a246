//! The record of a strip: the map and the kind, a count byte, and then that
//! many records of requests to register, 20 bytes each.

use crate::request::{check_map, read_head};
use crate::{kind, layout, read, refusal, write, Request, Verdict};

/// The most rows that a strip has.
pub const MOST_STRIP_ROWS: usize = 24;

/// The map of a strip: its kind, and no other field.
const MAP: u16 = 0x0001;
/// What comes before the rows: the map, the kind and the count.
const HEAD: usize = 4;
/// The bytes of a row.
const ROW: usize = 20;

/// Whether a record can be read and says that it is a strip.
pub(crate) fn is_strip(record: &[u8]) -> bool {
    matches!(read_head(record), Ok((_, kind::STRIP)))
}

/// Reads the rows of a strip. The strip's own refusals 2, 4, 5 and 21 come
/// first, then 2 to 4 of its rows; ranges are the book's to check.
pub(crate) fn read_strip(record: &[u8]) -> Result<Vec<Request>, Verdict> {
    let (map, _) = read_head(record)?;
    check_map(map, MAP)?;
    let Some(&count) = record.get(HEAD - 1) else {
        return Err(Verdict::refused(refusal::LENGTH));
    };
    let count = usize::from(count);
    if record.len() != HEAD + ROW * count {
        return Err(Verdict::refused(refusal::LENGTH));
    }
    if !(1..=MOST_STRIP_ROWS).contains(&count) {
        return Err(Verdict::refused(refusal::STRIP_COUNT));
    }
    of_rows(record[HEAD..].chunks_exact(ROW).map(read_row))
}

/// Reads a row of a strip. Refusals 2 to 4; it has its length.
fn read_row(row: &[u8]) -> Result<Request, Verdict> {
    let (_, kind) = read_head(row)?;
    if kind != kind::REGISTER {
        return Err(Verdict::refused(refusal::KIND));
    }
    read(row)
}

/// What all rows give; or of their refusals the lowest number, and of those with
/// that number the first row's. A row gives the lowest number that applies to
/// it, so that a number lowest over all rows is given by each that it applies
/// to.
pub(crate) fn of_rows<T>(
    rows: impl Iterator<Item = Result<T, Verdict>>,
) -> Result<Vec<T>, Verdict> {
    let (mut read, mut refusals) = (Vec::new(), Vec::new());
    for row in rows {
        match row {
            Ok(row) => read.push(row),
            Err(refused) => refusals.push(refused),
        }
    }
    // Of several that are lowest this is the first.
    match refusals.into_iter().min_by_key(|refused| refused.number) {
        Some(refused) => Err(refused),
        None => Ok(read),
    }
}

/// The record of a strip of rows, whatever their number and their fields. Each
/// is written as a request to register, but with its own kind. Of more than 255
/// rows the count is that of the last byte.
pub fn strip_record(rows: &[Request]) -> Vec<u8> {
    let mut record = MAP.to_le_bytes().to_vec();
    record.extend([kind::STRIP, rows.len() as u8]);
    for row in rows {
        let mut bytes = [0; ROW];
        let register = Request {
            kind: kind::REGISTER,
            ..*row
        };
        write(&register, &mut bytes);
        bytes[2] = row.kind;
        record.extend(bytes);
    }
    record
}

// A row has the length of a record to register.
const _: () = assert!(matches!(layout(kind::REGISTER), Some((_, ROW))));
