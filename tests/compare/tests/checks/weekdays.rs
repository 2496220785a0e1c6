//! Weekdays (02 §1): days taken one by one. The weekdays expected come from going
//! on from one day to the next, through the one that the document names. Here they
//! are those of some years, and month ends; `cargo run --release -- days` takes all.

use crate::calendar::{days, Day, ALL};
use compare::days::counter;

/// Years of which every day is taken: plain ones and leap years, those that 100
/// or 400 divides and those next to them, the named day's, and the outermost.
#[rustfmt::skip]
const YEARS: [u16; 19] = [
    1, 4, 100, 399, 400, 401, 1582, 1899, 1900, 1901, 1979, 1999, 2000, 2001, 2024, 2025, 2026,
    2027, 9999,
];

/// Of every so many years the first and the last day of each month are taken. It
/// has no part in common with 400, so years of every sort come up.
const STEP: u16 = 7;

/// Every day with its weekday, 0 for Monday.
fn weekdays() -> impl Iterator<Item = (Day, usize)> {
    let all = days(ALL);
    let is_named = |day: &Day| (day.year, day.month, day.day) == (1979, 7, 8);
    let named = all.iter().position(is_named).unwrap();
    // The named day is a Sunday, so the one after it is a Monday.
    let of_monday = (named + 1) % 7;
    let weekday = move |at: usize| (at + 7 - of_monday) % 7;
    all.into_iter().zip((0..).map(weekday))
}

#[test]
fn weekdays_go_round_from_the_named_one() {
    let known = [
        ((1, 1, 1), 0),
        ((1582, 10, 15), 4),
        ((1900, 1, 1), 0),
        ((1979, 7, 8), 6),
        ((2000, 2, 29), 1),
        ((9999, 12, 31), 4),
    ];
    let all: Vec<(Day, usize)> = weekdays().collect();
    for (date, expected) in known {
        let of_date = all
            .iter()
            .find(|(day, _)| (day.year, day.month, day.day) == date);
        assert_eq!(of_date.unwrap().1, expected, "{date:?}");
    }
}

#[test]
fn every_day_of_some_years_has_its_weekday() {
    for (day, weekday) in weekdays().filter(|(day, _)| YEARS.contains(&day.year)) {
        for word in [day.by_day_of_year(), day.by_month_and_day()] {
            assert_eq!(counter(&word), Some(weekday), "{word}");
        }
    }
}

#[test]
fn ends_of_months_have_their_weekday() {
    let is_end = |day: Day| day.day == 1 || day.next().day == 1;
    for (day, weekday) in weekdays().filter(|(day, _)| day.year % STEP == 0 && is_end(*day)) {
        let word = day.by_month_and_day();
        assert_eq!(counter(&word), Some(weekday), "{word}");
    }
}

/// The clock at either end of the day, with offsets that would move it.
#[test]
fn offsets_move_no_day() {
    let times = [
        "T00:00+12:59",
        "T0:0+0:1",
        "T23:59-0:1",
        "t23:59:59.9-12:59",
        "T12:00Z",
    ];
    for (day, weekday) in weekdays().filter(|(day, _)| day.year == 2000 || day.year == 1979) {
        for time in times {
            let word = day.by_month_and_day() + time;
            assert_eq!(counter(&word), Some(weekday), "{word}");
        }
    }
    for (word, weekday) in [("0001-001T00:00+12:59", 0), ("9999-365T23:59-12:59", 4)] {
        assert_eq!(counter(word), Some(weekday), "{word}");
    }
}
