//! Strips: several registers of one proposer, all or none.

use crate::Request;

/// The map of a strip, and of each of its rows.
const MAP: [u8; 2] = [0x01, 0x00];
const ROW_MAP: [u8; 2] = [0xFF, 0x00];
/// The kind of a strip.
const KIND: u8 = 11;
/// The fields of a register: those from the kind to the quantity, in bit order.
const ROW_FIELDS: usize = 18;

/// A strip of registers with one proposer, 1 to 24 of them. Any rows may stand here, as many as one likes; a call refuses those that a
/// strip may not have.
///
/// ```
/// use energy_book::{Request, Side, Strip, Terms, STRIP_MOST};
///
/// let sale = |hour: u8, quantity| Terms { code: hour.into(), side: Side::Sells, first: hour, last: hour, quantity };
/// let strip = Strip::new().with(Request::register(1, 2, sale(1, 300))).with(Request::register(1, 2, sale(2, 450)));
/// assert_eq!(strip.rows().len(), 2);
/// assert_eq!(strip.to_record().len(), 4 + 2 * 20);
/// assert_eq!(strip.to_record()[..4], [0x01, 0x00, 11, 2]);
///
/// let day: Strip = (1..=24).map(|hour| Request::register(1, 2, sale(hour, 500))).collect();
/// assert_eq!(day.to_record().len(), STRIP_MOST);
/// ```
#[derive(Clone, Debug, Default, PartialEq, Eq, Hash)]
pub struct Strip {
    rows: Vec<Request>,
}

impl Strip {
    /// A strip with no rows yet; as it is, it is refused by 21.
    pub fn new() -> Strip {
        Strip::default()
    }

    /// The strip with one more row.
    pub fn with(mut self, register: Request) -> Strip {
        self.push(register);
        self
    }

    /// Adds a row. A 25th is taken too, and the strip then refused by 21.
    pub fn push(&mut self, register: Request) {
        self.rows.push(register);
    }

    /// The rows, in order.
    pub fn rows(&self) -> &[Request] {
        &self.rows
    }

    /// The record that says this strip. Every row is written with the map and the fields of a register and with its own kind, so that the
    /// book refuses another kind by 3. The count has one byte: of more than 255 rows the first 255 are written, which is refused by 21, as
    /// are 25 and 0.
    pub fn to_record(&self) -> Vec<u8> {
        let count = u8::try_from(self.rows.len()).unwrap_or(u8::MAX);
        let mut record = [&MAP[..], &[KIND, count]].concat();
        for row in self.rows.iter().take(count.into()) {
            record.extend(ROW_MAP);
            record.extend(&row.to_fields()[..ROW_FIELDS]);
        }
        record
    }
}

impl FromIterator<Request> for Strip {
    fn from_iter<I: IntoIterator<Item = Request>>(registers: I) -> Strip {
        Strip { rows: registers.into_iter().collect() }
    }
}

impl Extend<Request> for Strip {
    fn extend<I: IntoIterator<Item = Request>>(&mut self, registers: I) {
        self.rows.extend(registers);
    }
}
