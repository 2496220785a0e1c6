//! The session book (02 §1): its counters, which of them a label goes under,
//! and when a book is full.

use crate::lookup;
use crate::table::Row;
use crate::weekdays::{weekday, Date};

/// Seven counters, Monday's first, and one for undated sessions.
pub type Book = [u32; 8];

/// The number of the counter for undated sessions; a weekday's is the weekday.
pub const UNDATED: usize = 7;

/// A book is full when its counters sum to this or more.
const FULL: u64 = 1_000_000;

pub fn is_full(book: &Book) -> bool {
    sum(book) >= FULL
}

/// The sum of the counters, which no eight of them can make wrap.
pub fn sum(book: &Book) -> u64 {
    book.iter().map(|&count| u64::from(count)).sum()
}

/// The number of the counter that a label with this table goes under.
pub fn counter(label: &[u8], table: &[u8]) -> usize {
    start_date(label, table).map_or(UNDATED, weekday)
}

/// The date of the first START_TIME outside all blocks, as written, if its value
/// is a single one with a date.
fn start_date(label: &[u8], table: &[u8]) -> Option<Date> {
    let attribute = lookup::attribute(label, table, b"START_TIME", 0).ok()?;
    let (_, length) = Row::decode(&table[attribute..])?;
    // Before several values stands the row that opens their sequence or set.
    match Row::decode(&table[attribute + length..])? {
        (Row::Moment { moment, .. }, _) if moment.has_date() => {
            Some((moment.year, moment.month, moment.day))
        }
        _ => None,
    }
}
