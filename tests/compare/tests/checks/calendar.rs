//! The calendar (02 §7): every day of every year, by day of year and by month
//! and day, and what is no day. The days expected come from going on from one
//! to the next, by 01's text.

use crate::support::*;
use std::ops::RangeInclusive;

/// A day, and its number in its year.
#[derive(Debug, Clone, Copy, PartialEq, Eq)]
pub struct Day {
    pub year: u16,
    pub month: u8,
    pub day: u8,
    of_year: u16,
}

impl Day {
    const FIRST: Day = Day {
        year: 1,
        month: 1,
        day: 1,
        of_year: 1,
    };

    pub fn next(self) -> Day {
        let mut next = self;
        next.day += 1;
        next.of_year += 1;
        if next.day > last_day(self.year, self.month) {
            next.month += 1;
            next.day = 1;
        }
        if next.month > 12 {
            next.year += 1;
            next.month = 1;
            next.of_year = 1;
        }
        next
    }

    fn row(self) -> MomentRow {
        date_row(self.year, self.month, self.day)
    }

    /// As it is written.
    fn form(self) -> String {
        format!("{:04}-{:02}-{:02}", self.year, self.month, self.day)
    }

    /// Whether its numbers have zeros before them; every other day, and each
    /// day in every other year.
    fn has_zeros(self) -> bool {
        (self.year + self.of_year) % 2 == 1
    }

    pub fn by_day_of_year(self) -> String {
        match self.has_zeros() {
            true => format!("{:04}-{:03}", self.year, self.of_year),
            false => format!("{:04}-{}", self.year, self.of_year),
        }
    }

    pub fn by_month_and_day(self) -> String {
        match self.has_zeros() {
            true => self.form(),
            false => format!("{:04}-{}-{}", self.year, self.month, self.day),
        }
    }
}

/// Thirty days have September, April, June and November.
fn last_day(year: u16, month: u8) -> u8 {
    match month {
        9 | 4 | 6 | 11 => 30,
        2 if is_leap(year) => 29,
        2 => 28,
        _ => 31,
    }
}

/// Leap years of the Gregorian calendar.
fn is_leap(year: u16) -> bool {
    match (year % 4, year % 100, year % 400) {
        (_, _, 0) => true,
        (_, 0, _) => false,
        (rest, ..) => rest == 0,
    }
}

/// The days of these years, one after the other.
pub fn days(years: RangeInclusive<u16>) -> Vec<Day> {
    let first = Day {
        year: *years.start(),
        ..Day::FIRST
    };
    std::iter::successors(Some(first), |day| Some(day.next()))
        .take_while(|day| years.contains(&day.year))
        .collect()
}

fn date_row(year: u16, month: u8, day: u8) -> MomentRow {
    let [high, low] = year.to_be_bytes();
    [12, 1, high, low, month, day, 0, 0, 0, 0, 0, 0, 0, 0, 0, 0]
}

/// What is made of each of these days.
fn each<T>(days: &[Day], of: impl Fn(Day) -> T) -> Vec<T> {
    days.iter().map(|&day| of(day)).collect()
}

pub const ALL: RangeInclusive<u16> = 1..=9999;

/// So many dates, as read or as written, fill a label.
const FILL: usize = 5_400;

/// Plain years and leap years, those that 100 divides, and the outermost.
const YEARS: [u16; 10] = [1990, 2000, 1900, 2004, 1, 9999, 4, 100, 400, 2100];

/// A plain year and a leap year.
const BOTH: [u16; 2] = [1990, 2000];

#[test]
fn days_are_counted_as_the_documents_count_them() {
    // Of the years to 9999, 4 divides 2499, 100 divides 99 and 400 divides 24.
    assert_eq!(days(ALL).len(), 365 * 9999 + 2499 - 99 + 24);
    assert_eq!(days(1990..=1990).len(), 365);
    for (year, of_year, form) in [
        (1990, 7, "1990-01-07"),
        (1990, 158, "1990-06-07"),
        (2000, 366, "2000-12-31"),
    ] {
        let day = days(year..=year)[of_year - 1];
        assert_eq!((usize::from(day.of_year), &*day.form()), (of_year, form));
    }
}

#[test]
fn every_day_is_read_by_day_of_year() {
    for days in days(ALL).chunks(FILL) {
        check_read(&each(days, Day::by_day_of_year), &each(days, Day::row));
    }
}

#[test]
fn every_day_is_read_by_month_and_day() {
    for days in days(ALL).chunks(FILL) {
        check_read(&each(days, Day::by_month_and_day), &each(days, Day::row));
    }
}

#[test]
fn every_day_is_written_by_month_and_day() {
    for days in days(ALL).chunks(FILL) {
        check_written(&each(days, Day::row), &each(days, Day::form));
    }
}

/// The row of 23:59:58 on this day, one minute west.
fn row_with_time(day: Day) -> MomentRow {
    let mut row = day.row();
    row[1] = 3;
    row[6..9].copy_from_slice(&[23, 59, 58]);
    row[13..].copy_from_slice(&[255, 255, 2]);
    row
}

#[test]
fn days_are_the_same_with_a_time_behind_them() {
    for year in YEARS {
        let days = days(year..=year);
        let rows = each(&days, row_with_time);
        for date in [Day::by_day_of_year, Day::by_month_and_day] {
            check_read(&each(&days, |day| date(day) + "t23:59:58-0:1"), &rows);
        }
        check_written(&rows, &each(&days, |day| day.form() + "T23:59:58-00:01"));
    }
}

/// Checks that a date is refused, also with a time behind it.
#[track_caller]
fn check_date_refused(date: &str) {
    check_word_refused(date);
    check_word_refused(&format!("{date}T00:00"));
}

#[test]
fn days_that_just_miss_the_year_are_refused() {
    for year in YEARS {
        let last = days(year..=year).len();
        let past = [last + 1, last + 2, 999].map(|day| day.to_string());
        for day in ["0", "00", "000"].map(String::from).iter().chain(&past) {
            check_date_refused(&format!("{year:04}-{day}"));
        }
    }
}

#[test]
fn months_that_just_miss_the_year_are_refused() {
    for year in YEARS {
        for month in ["0", "00", "13", "99"] {
            check_date_refused(&format!("{year:04}-{month}-1"));
            check_date_refused(&format!("{year:04}-{month}-31"));
        }
    }
}

#[test]
fn days_that_just_miss_the_month_are_refused() {
    for (year, month) in months_of(&YEARS) {
        for day in [0, last_day(year, month) + 1, 32, 99] {
            check_date_refused(&format!("{year:04}-{month}-{day}"));
        }
    }
}

/// The months of these years.
fn months_of(years: &[u16]) -> Vec<(u16, u8)> {
    let of_year = |&year: &u16| (1..=12).map(move |month| (year, month));
    years.iter().flat_map(of_year).collect()
}

#[test]
fn days_past_the_year_are_refused() {
    for year in BOTH {
        for day in days(year..=year).len() + 1..=999 {
            check_word_refused(&format!("{year}-{day}"));
        }
    }
}

#[test]
fn months_past_the_year_are_refused() {
    for year in BOTH {
        for month in 13..=99 {
            check_word_refused(&format!("{year}-{month}-01"));
        }
    }
}

#[test]
fn days_past_the_month_are_refused() {
    for (year, month) in months_of(&BOTH) {
        for day in last_day(year, month) + 1..=99 {
            check_word_refused(&format!("{year}-{month:02}-{day}"));
        }
    }
}

#[test]
fn year_0_is_refused_by_day_of_year() {
    for day in ["0", "1", "001", "060", "365", "366", "999"] {
        check_word_refused(&format!("0000-{day}"));
    }
}

#[test]
fn year_0_is_refused_by_month_and_day() {
    for (_, month) in months_of(&[0]) {
        for day in [1, 28, 29, 30, 31] {
            check_word_refused(&format!("0000-{month:02}-{day}"));
        }
    }
}

#[test]
fn tables_have_the_last_day_of_each_month_and_none_past_it() {
    for year in YEARS {
        let mut last_days = days(year..=year);
        last_days.retain(|day| day.next().day == 1);
        check_written(&each(&last_days, Day::row), &each(&last_days, Day::form));
        for Day { month, day, .. } in last_days {
            for no_day in [0, day + 1, 32, 255] {
                check_row_refused(date_row(year, month, no_day));
            }
        }
    }
}

#[test]
fn tables_have_no_other_months() {
    for year in BOTH {
        for month in (13..=255).chain([0]) {
            check_row_refused(date_row(year, month, 1));
        }
    }
}

#[test]
fn tables_have_no_other_years() {
    for year in [0, 10_000, 10_004, u16::MAX] {
        check_row_refused(date_row(year, 1, 1));
        check_row_refused(date_row(year, 12, 31));
    }
}
