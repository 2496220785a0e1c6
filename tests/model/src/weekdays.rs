//! Weekdays (02 §1), by walking the calendar of document 01 one day at a time
//! from the one day whose weekday document 02 names.

use crate::words::days_in_month;
use std::sync::OnceLock;

/// Year, month and day.
pub type Date = (u16, u8, u8);

/// 02 §1: "1979-07-08 is a Sunday".
const NAMED: Date = (1979, 7, 8);
const SUNDAY: usize = 6;

pub const FIRST: Date = (1, 1, 1);
pub const LAST: Date = (9999, 12, 31);

/// The weekday of a date that the calendar has, from 0 for Monday to 6.
pub fn weekday(date: Date) -> usize {
    static WALKED: OnceLock<Vec<u8>> = OnceLock::new();
    usize::from(WALKED.get_or_init(walked)[place(date)])
}

/// A place of its own for every date.
fn place((year, month, day): Date) -> usize {
    (usize::from(year) * 12 + usize::from(month) - 1) * 31 + usize::from(day) - 1
}

/// The weekday of every date at its place: on from the named day to the last
/// one, and back from it to the first.
fn walked() -> Vec<u8> {
    let mut weekdays = vec![0; place(LAST) + 1];
    let (mut date, mut weekday) = (NAMED, SUNDAY);
    weekdays[place(date)] = weekday as u8;
    while date != LAST {
        (date, weekday) = (day_after(date), (weekday + 1) % 7);
        weekdays[place(date)] = weekday as u8;
    }
    (date, weekday) = (NAMED, SUNDAY);
    while date != FIRST {
        (date, weekday) = (day_before(date), (weekday + 6) % 7);
        weekdays[place(date)] = weekday as u8;
    }
    weekdays
}

pub fn day_after((year, month, day): Date) -> Date {
    match (month, day) {
        (12, 31) => (year + 1, 1, 1),
        _ if day == days_in_month(year, month) => (year, month + 1, 1),
        _ => (year, month, day + 1),
    }
}

pub fn day_before((year, month, day): Date) -> Date {
    match (month, day) {
        (1, 1) => (year - 1, 12, 31),
        (_, 1) => (year, month - 1, days_in_month(year, month - 1)),
        _ => (year, month, day - 1),
    }
}
