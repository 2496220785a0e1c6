//! Which cases of the calendar (02 §7) and of decimals of a second a label
//! shows, or for which it is refused, and which of the calendar a table. A run
//! over random labels and tables has tried them only if it came upon every one.

use crate::elements::{is_word_byte, leading, Kind};
use crate::table::Row;
use crate::words::{self, days_in_month, is_leap, Moment, DECIMALS};
use crate::{code, layout, proper_rows, reading, refused_row};

/// A case of a label that is read, or of a table that is written; from
/// `YearZero` on, of one that is refused.
#[rustfmt::skip]
#[derive(Debug, Clone, Copy, PartialEq, Eq, PartialOrd, Ord)]
pub enum Case {
    Day { leap: bool, month: u8, place: Place, spelling: Spelling },
    FirstYear,
    LastYear,
    /// A plain year that 100 divides.
    PlainHundred,
    /// A leap year that 100 divides.
    LeapHundred,
    /// So many decimals, and whether there are zeros behind them.
    Decimals { count: usize, zeros: bool },

    YearZero(Spelling),
    /// A year that a table can hold, but no word.
    YearPast,
    DayOfYearZero,
    DayOfYearPast { leap: bool, by_one: bool },
    MonthZero,
    MonthPast { by_one: bool },
    DayZero,
    DayPastByOne { leap: bool, month: u8 },
    DayPastByMore,
    DecimalsPast { by_one: bool },
}

/// A day's place in its month.
#[derive(Debug, Clone, Copy, PartialEq, Eq, PartialOrd, Ord)]
pub enum Place {
    First,
    Between,
    Last,
}

/// How a date is written in a label. A table holds month and day.
#[derive(Debug, Clone, Copy, PartialEq, Eq, PartialOrd, Ord)]
pub enum Spelling {
    DayOfYear,
    MonthAndDay,
}

const PLACES: [Place; 3] = [Place::First, Place::Between, Place::Last];
const SPELLINGS: [Spelling; 2] = [Spelling::DayOfYear, Spelling::MonthAndDay];
const EITHER: [bool; 2] = [false, true];

/// All cases of labels.
pub fn of_labels() -> Vec<Case> {
    let mut all = vec![
        Case::FirstYear,
        Case::LastYear,
        Case::PlainHundred,
        Case::LeapHundred,
        Case::DayOfYearZero,
        Case::MonthZero,
        Case::DayZero,
        Case::DayPastByMore,
    ];
    all.extend(SPELLINGS.map(Case::YearZero));
    all.extend(EITHER.into_iter().flat_map(of_a_year));
    all.extend(EITHER.map(|by_one| Case::MonthPast { by_one }));
    all.extend(EITHER.map(|by_one| Case::DecimalsPast { by_one }));
    for count in 0..=DECIMALS {
        all.extend(EITHER.map(|zeros| Case::Decimals { count, zeros }));
    }
    all.sort_unstable();
    all
}

/// All cases of tables.
pub fn of_tables() -> Vec<Case> {
    let mut all = of_labels();
    all.retain(|case| match case {
        Case::Day { spelling, .. } | Case::YearZero(spelling) => *spelling == Spelling::MonthAndDay,
        Case::DayOfYearZero | Case::DayOfYearPast { .. } => false,
        Case::Decimals { .. } | Case::DecimalsPast { .. } => false,
        _ => true,
    });
    all.push(Case::YearPast);
    all.sort_unstable();
    all
}

/// The cases of a leap year or of a plain one.
fn of_a_year(leap: bool) -> Vec<Case> {
    let mut cases: Vec<Case> = (1..=12).flat_map(|month| days(leap, month)).collect();
    cases.extend((1..=12).map(|month| Case::DayPastByOne { leap, month }));
    cases.extend(EITHER.map(|by_one| Case::DayOfYearPast { leap, by_one }));
    cases
}

fn days(leap: bool, month: u8) -> Vec<Case> {
    let mut days = Vec::new();
    for place in PLACES {
        days.extend(SPELLINGS.map(|spelling| Case::Day {
            leap,
            month,
            place,
            spelling,
        }));
    }
    days
}

/// The cases that this label shows, each once, or the one that it is refused
/// for.
pub fn in_label(label: &[u8]) -> Vec<Case> {
    once_each(match reading(label) {
        Ok((_, end)) => shown(&label[..end]),
        Err(fault) if fault.code == code::PAST_LIMIT => {
            let rest = &label[fault.place..];
            let word = &rest[..leading(rest, is_word_byte)];
            refused(word).into_iter().collect()
        }
        Err(_) => Vec::new(),
    })
}

/// The cases that this table shows, each once, or the one that it is refused
/// for.
pub fn in_table(label: &[u8], table: &[u8]) -> Vec<Case> {
    once_each(match proper_rows(label, table) {
        Ok(rows) => rows.iter().flat_map(|&(_, row)| held(row)).collect(),
        Err(_) => improper(label, table).into_iter().collect(),
    })
}

fn once_each(mut cases: Vec<Case>) -> Vec<Case> {
    cases.sort_unstable();
    cases.dedup();
    cases
}

fn shown(label: &[u8]) -> Vec<Case> {
    let elements = layout::list(label).map_or(Vec::new(), |list| list.elements);
    let mut cases = Vec::new();
    for (_, element) in elements {
        let Ok(Kind::Moment { moment: held, .. }) = words::form(element) else {
            continue;
        };
        let Some(written) = taken_apart(element) else {
            continue;
        };
        cases.extend(written.spelling().map(|spelling| day(held, spelling)));
        cases.extend(year(held.year));
        cases.extend(held.has_time().then(|| written.decimals_case()));
    }
    cases
}

/// The cases of the date that a row holds, if it holds one.
fn held(row: Row) -> Vec<Case> {
    match row {
        Row::Moment { moment: held, .. } if held.has_date() => {
            let day = day(held, Spelling::MonthAndDay);
            [day].into_iter().chain(year(held.year)).collect()
        }
        _ => Vec::new(),
    }
}

fn day(held: Moment, spelling: Spelling) -> Case {
    let place = match held.day {
        1 => Place::First,
        day if day == days_in_month(held.year, held.month) => Place::Last,
        _ => Place::Between,
    };
    Case::Day {
        leap: is_leap(held.year),
        month: held.month,
        place,
        spelling,
    }
}

/// Years of their own sort. Of a time alone the year is 0, which is none.
fn year(year: u16) -> Option<Case> {
    match (year, year % 100) {
        (1, _) => Some(Case::FirstYear),
        (9999, _) => Some(Case::LastYear),
        (1.., 0) if is_leap(year) => Some(Case::LeapHundred),
        (1.., 0) => Some(Case::PlainHundred),
        _ => None,
    }
}

/// The case that this word is refused for; none if it is refused for something
/// else, or for more than that.
fn refused(word: &[u8]) -> Option<Case> {
    let written = taken_apart(word)?;
    let mut faults = date_faults(&written.date);
    faults.extend(written.decimals_fault());
    let fault = the_only(&faults)?;
    words::form(written.mended().as_bytes()).ok().map(|_| fault)
}

/// The case that this table is refused for; none if it is refused for something
/// else, or for more than that.
fn improper(label: &[u8], table: &[u8]) -> Option<Case> {
    const KIND: u8 = 12;
    const RIGHT_DATE: [u8; 4] = [0x07, 0xD0, 1, 1];
    let row = refused_row(label, table, KIND, |mut row: [u8; 16]| {
        row[2..6].copy_from_slice(&RIGHT_DATE);
        row
    })?;
    let year = u16::from_be_bytes([row[2], row[3]]);
    the_only(&date_faults(&[year, row[4].into(), row[5].into()]))
}

fn the_only(faults: &[Case]) -> Option<Case> {
    match faults {
        [fault] => Some(*fault),
        _ => None,
    }
}

fn date_faults(date: &[u16]) -> Vec<Case> {
    let faults = match *date {
        [year, day] => day_of_year_faults(year, day),
        [year, month, day] => month_and_day_faults(year, month as u8, day as u8),
        _ => Vec::new(),
    };
    let there = faults.into_iter().filter(|&(_, is_there)| is_there);
    there.map(|(fault, _)| fault).collect()
}

fn day_of_year_faults(year: u16, day: u16) -> Vec<(Case, bool)> {
    let leap = is_leap(year);
    let last = if leap { 366 } else { 365 };
    let by_one = day == last + 1;
    vec![
        (Case::YearZero(Spelling::DayOfYear), year == 0),
        (Case::DayOfYearZero, day == 0),
        (Case::DayOfYearPast { leap, by_one }, day > last),
    ]
}

fn month_and_day_faults(year: u16, month: u8, day: u8) -> Vec<(Case, bool)> {
    let leap = is_leap(year);
    let last = days_in_month(year, month);
    let by_one = month == 13;
    vec![
        (Case::YearZero(Spelling::MonthAndDay), year == 0),
        (Case::YearPast, year > 9999),
        (Case::MonthZero, month == 0),
        (Case::MonthPast { by_one }, month > 12),
        (Case::DayZero, day == 0),
        (Case::DayPastByOne { leap, month }, day == last + 1),
        (Case::DayPastByMore, day > last + 1),
    ]
}

/// A date or time as it is written.
struct Written<'a> {
    /// Year and day of year, or year, month and day; of a time alone, none.
    date: Vec<u16>,
    /// The time up to its decimals; all of it, if it has no period.
    clock: &'a str,
    decimals: &'a str,
    /// What follows the decimals.
    zone: &'a str,
}

/// None if this is no word that begins as a date or a time does.
fn taken_apart(word: &[u8]) -> Option<Written<'_>> {
    let word = std::str::from_utf8(word).ok()?;
    let is_digit = |c: char| c.is_ascii_digit();
    let (date, time) = match word.trim_start_matches(is_digit).chars().next()? {
        '-' => word.split_once(['T', 't']).unwrap_or((word, "")),
        ':' => ("", word),
        _ => return None,
    };
    let date = date.split_terminator('-').map(|number| number.parse().ok());
    let (clock, rest) = time.split_once('.').unwrap_or((time, ""));
    let zone = rest.trim_start_matches(is_digit);
    Some(Written {
        date: date.collect::<Option<Vec<u16>>>()?,
        clock,
        decimals: &rest[..rest.len() - zone.len()],
        zone,
    })
}

impl Written<'_> {
    fn spelling(&self) -> Option<Spelling> {
        match self.date.len() {
            2 => Some(Spelling::DayOfYear),
            3 => Some(Spelling::MonthAndDay),
            _ => None,
        }
    }

    /// How many decimals there are without the zeros behind them.
    fn kept(&self) -> usize {
        self.decimals.trim_end_matches('0').len()
    }

    fn decimals_case(&self) -> Case {
        let count = self.kept();
        let zeros = count < self.decimals.len();
        Case::Decimals { count, zeros }
    }

    fn decimals_fault(&self) -> Option<Case> {
        let by_one = self.kept() == DECIMALS + 1;
        (self.kept() > DECIMALS).then_some(Case::DecimalsPast { by_one })
    }

    /// The word with a right date and without decimals.
    fn mended(&self) -> String {
        let Written { clock, zone, .. } = self;
        match (self.date.is_empty(), clock.is_empty()) {
            (true, _) => format!("{clock}{zone}"),
            (false, true) => "2000-01-01".to_string(),
            (false, false) => format!("2000-01-01T{clock}{zone}"),
        }
    }
}
