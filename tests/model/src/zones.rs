//! Which cases of zones (02 §6) a label shows, and which of their marks a
//! table, or for which mark it is refused; and tables with other marks. A run
//! over random labels and tables has tried them only if it came upon every one.

use crate::elements::Kind;
use crate::table::Row;
use crate::words::{self, Moment};
use crate::{layout, proper_rows, reading, refused_row};

/// A case of a label that is read, or of a table that is written or refused.
#[derive(Debug, Clone, Copy, PartialEq, Eq, PartialOrd, Ord)]
pub enum Case {
    /// In a label.
    Written { parts: Parts, zone: Zone },
    /// In a table.
    Held {
        parts: Parts,
        offset: Offset,
        mark: Mark,
    },
}

#[derive(Debug, Clone, Copy, PartialEq, Eq, PartialOrd, Ord)]
pub enum Parts {
    Date,
    Time,
    Both,
}

/// A zone as it is written.
#[derive(Debug, Clone, Copy, PartialEq, Eq, PartialOrd, Ord)]
pub enum Zone {
    None,
    UpperZ,
    LowerZ,
    Signed {
        minus: bool,
        zero: bool,
        /// Whether there are minutes, be they zero.
        minutes: bool,
    },
}

#[derive(Debug, Clone, Copy, PartialEq, Eq, PartialOrd, Ord)]
pub enum Offset {
    West,
    Zero,
    East,
}

#[derive(Debug, Clone, Copy, PartialEq, Eq, PartialOrd, Ord)]
pub enum Mark {
    NoZone,
    Z,
    SignedZone,
    /// Past the last one by one.
    Three,
    More,
    /// As much as a byte can hold.
    Largest,
}

const EITHER: [bool; 2] = [false, true];
const OFFSETS: [Offset; 3] = [Offset::West, Offset::Zero, Offset::East];
const MARKS: [Mark; 6] = [
    Mark::NoZone,
    Mark::Z,
    Mark::SignedZone,
    Mark::Three,
    Mark::More,
    Mark::Largest,
];

impl Case {
    /// Whether a table that shows this is refused for it: for a mark of 0 or 1
    /// with a nonzero offset, above 2, or other than 0 where there is no time.
    pub fn is_refused(self) -> bool {
        match self {
            Case::Written { .. } => false,
            Case::Held {
                parts,
                offset,
                mark,
            } => match mark {
                Mark::NoZone => offset != Offset::Zero,
                Mark::Z => offset != Offset::Zero || parts == Parts::Date,
                Mark::SignedZone => parts == Parts::Date,
                Mark::Three | Mark::More | Mark::Largest => true,
            },
        }
    }
}

/// All cases of labels.
pub fn of_labels() -> Vec<Case> {
    let mut zones = vec![Zone::None, Zone::UpperZ, Zone::LowerZ];
    for minus in EITHER {
        zones.extend(EITHER.map(|zero| signed(minus, zero, false)));
        zones.extend(EITHER.map(|zero| signed(minus, zero, true)));
    }
    let of = |parts| move |&zone: &Zone| Case::Written { parts, zone };
    let mut all: Vec<Case> = zones.iter().map(of(Parts::Time)).collect();
    all.extend(zones.iter().map(of(Parts::Both)));
    all.push(of(Parts::Date)(&Zone::None));
    all.sort_unstable();
    all
}

fn signed(minus: bool, zero: bool, minutes: bool) -> Zone {
    Zone::Signed {
        minus,
        zero,
        minutes,
    }
}

/// All cases of tables. Where there is no time the offset is 0.
pub fn of_tables() -> Vec<Case> {
    let of = |parts, offset| {
        MARKS.map(|mark| Case::Held {
            parts,
            offset,
            mark,
        })
    };
    let mut all = of(Parts::Date, Offset::Zero).to_vec();
    for offset in OFFSETS {
        all.extend(of(Parts::Time, offset));
        all.extend(of(Parts::Both, offset));
    }
    all.sort_unstable();
    all
}

/// The cases that this label shows, each once; none if it is refused.
pub fn in_label(label: &[u8]) -> Vec<Case> {
    let read = reading(label).map_or(&[][..], |(_, end)| &label[..end]);
    let elements = layout::list(read).map_or(Vec::new(), |list| list.elements);
    once_each(elements.iter().filter_map(|&(_, word)| written(word)))
}

/// The cases that this table shows, each once, or the one that it is refused
/// for.
pub fn in_table(label: &[u8], table: &[u8]) -> Vec<Case> {
    match proper_rows(label, table) {
        Ok(rows) => once_each(rows.iter().filter_map(|&(_, row)| held(row))),
        Err(_) => improper(label, table).into_iter().collect(),
    }
}

fn once_each(cases: impl Iterator<Item = Case>) -> Vec<Case> {
    let mut cases: Vec<Case> = cases.collect();
    cases.sort_unstable();
    cases.dedup();
    cases
}

/// The case of a word, if it is a date or a time.
fn written(word: &[u8]) -> Option<Case> {
    let Ok(Kind::Moment { moment, .. }) = words::form(word) else {
        return None;
    };
    let word = std::str::from_utf8(word).ok()?;
    // In a date there is neither a T nor a colon.
    let time = match word.split_once(['T', 't']) {
        Some((_, time)) => time,
        None if word.contains(':') => word,
        None => "",
    };
    let start = time.find(['Z', 'z', '+', '-']).unwrap_or(time.len());
    let zone = match &time[start..] {
        "" => Zone::None,
        "Z" => Zone::UpperZ,
        "z" => Zone::LowerZ,
        zone => signed(
            zone.starts_with('-'),
            !zone.contains(|c| ('1'..='9').contains(&c)),
            zone.contains(':'),
        ),
    };
    let parts = parts(moment);
    Some(Case::Written { parts, zone })
}

/// The case of a row, if it is one of a date or time.
fn held(row: Row) -> Option<Case> {
    let Row::Moment { moment, mark } = row else {
        return None;
    };
    Some(Case::Held {
        parts: parts(moment),
        offset: match moment.offset {
            ..=-1 => Offset::West,
            0 => Offset::Zero,
            1.. => Offset::East,
        },
        mark: match mark {
            Moment::NO_ZONE => Mark::NoZone,
            Moment::Z => Mark::Z,
            Moment::SIGNED_ZONE => Mark::SignedZone,
            3 => Mark::Three,
            u8::MAX => Mark::Largest,
            _ => Mark::More,
        },
    })
}

fn parts(moment: Moment) -> Parts {
    match (moment.has_date(), moment.has_time()) {
        (true, true) => Parts::Both,
        (_, true) => Parts::Time,
        _ => Parts::Date,
    }
}

/// The case that this table is refused for; none if it is refused for something
/// else, or for more than that.
fn improper(label: &[u8], table: &[u8]) -> Option<Case> {
    let row: MomentRow = refused_row(label, table, KIND, once_written)?;
    let (row, _) = Row::decode(&row)?;
    held(row)
}

/// The row of a date or time; its last byte is the mark.
pub type MomentRow = [u8; 16];

const KIND: u8 = 12;
const MARK: usize = 15;

/// The rows of dates and times of a proper table, as they are once it has been
/// written and read again: the written zone is `Z` where the offset is 0, and a
/// signed one elsewhere.
pub fn moments_once_written(label: &[u8], table: &[u8]) -> Vec<MomentRow> {
    let rows = moments(label, table).into_iter();
    rows.map(once_written).collect()
}

fn once_written(mut row: MomentRow) -> MomentRow {
    const DATE_ALONE: u8 = 1;
    row[MARK] = match (row[1], row[13], row[14]) {
        (DATE_ALONE, ..) => 0,
        (_, 0, 0) => 1,
        _ => 2,
    };
    row
}

/// The rows of dates and times of a proper table.
pub fn moments(label: &[u8], table: &[u8]) -> Vec<MomentRow> {
    let starts = moment_starts(label, table).into_iter();
    let row = |at: usize| table[at..at + 16].try_into().ok();
    starts.filter_map(row).collect()
}

fn moment_starts(label: &[u8], table: &[u8]) -> Vec<usize> {
    let rows = proper_rows(label, table).unwrap_or_default();
    let starts = rows.into_iter().map(|(at, _)| at);
    starts.filter(|&at| table[at] == KIND).collect()
}

/// The two tables that differ from this proper one in all marks that can be
/// another one, those of times with offset 0; none if it has no such time.
pub fn remarked(label: &[u8], table: &[u8]) -> Vec<Vec<u8>> {
    let is_free = |&at: &usize| table[at + 1] != 1 && table[at + 13..at + MARK] == [0, 0];
    let mut free = moment_starts(label, table);
    free.retain(is_free);
    let further_by = |count: u8| {
        let mut other = table.to_vec();
        for at in &free {
            other[at + MARK] = (table[at + MARK] + count) % 3;
        }
        other
    };
    match free.is_empty() {
        true => Vec::new(),
        false => vec![further_by(1), further_by(2)],
    }
}
