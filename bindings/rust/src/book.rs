use crate::label::read_by;
use crate::{raw, Error, Label};
use std::fmt;

/// A counter of a [`Book`]: a weekday, or none. `counter as u8` is its number,
/// 1 for Monday to 7 for Sunday and 8 for undated.
#[derive(Debug, Clone, Copy, PartialEq, Eq, Hash)]
#[repr(u8)]
pub enum Counter {
    Monday = 1,
    Tuesday = 2,
    Wednesday = 3,
    Thursday = 4,
    Friday = 5,
    Saturday = 6,
    Sunday = 7,
    Undated = 8,
}

impl Counter {
    /// All counters, in the order of a book's counts.
    pub const ALL: [Counter; 8] = [
        Counter::Monday,
        Counter::Tuesday,
        Counter::Wednesday,
        Counter::Thursday,
        Counter::Friday,
        Counter::Saturday,
        Counter::Sunday,
        Counter::Undated,
    ];

    fn name(self) -> &'static str {
        match self {
            Counter::Monday => "Monday",
            Counter::Tuesday => "Tuesday",
            Counter::Wednesday => "Wednesday",
            Counter::Thursday => "Thursday",
            Counter::Friday => "Friday",
            Counter::Saturday => "Saturday",
            Counter::Sunday => "Sunday",
            Counter::Undated => "undated",
        }
    }
}

impl fmt::Display for Counter {
    fn fmt(&self, f: &mut fmt::Formatter) -> fmt::Result {
        f.pad(self.name())
    }
}

/// A session book: how many sessions started on each weekday, and how many are
/// undated.
#[derive(Debug, Clone, PartialEq, Eq, Hash, Default)]
pub struct Book(raw::Book);

/// A session that a book has taken.
#[derive(Debug, Clone, PartialEq, Eq)]
pub struct Session<'a> {
    pub label: Label<'a>,
    /// The counter that it went under.
    pub counter: Counter,
}

impl Book {
    /// The empty book.
    pub fn new() -> Book {
        Book::default()
    }

    /// The book of these counts, Monday first and undated last. Any will do.
    pub fn from_counts(counts: [u32; 8]) -> Book {
        Book(raw::Book { counts })
    }

    /// The counts, Monday first and undated last.
    pub fn counts(&self) -> [u32; 8] {
        self.0.counts
    }

    pub fn count(&self, counter: Counter) -> u32 {
        self.0.counts[counter as usize - 1]
    }

    /// Reads a label and counts its session under the weekday of the first
    /// START_TIME outside all blocks: of the date as written, whatever the zone.
    /// Undated is a session without one, or with one that is not a single value
    /// with a date. Where the label is refused, or the counts come to 1,000,000
    /// or more ([`BookFull`](crate::Code::BookFull)), the book stays as it is.
    pub fn take<'a>(&mut self, label: &'a [u8]) -> Result<Session<'a>, Error> {
        let before = self.clone();
        let label = read_by(label, |room| raw::take(&mut self.0, label, room))?;
        let counter = Counter::ALL
            .into_iter()
            .find(|&counter| self.count(counter) != before.count(counter))
            .expect("one counter is one more");
        Ok(Session { label, counter })
    }
}
