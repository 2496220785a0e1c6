//! The calendar (02 §7) and decimals of a second: answers worked out by hand,
//! and that random labels and tables come upon every case.

use crate::support::*;
use odl_model::dates::{self, Case, Place, Spelling};
use odl_model::random::{self, Random};
use std::collections::BTreeSet;

const LABELS: usize = 20_000;

const TABLES: usize = 20_000;

/// Of each month the last day, and the days of the year from its first day to
/// its last.
type Months = [(u8, u16, u16); 12];

#[rustfmt::skip]
const PLAIN: Months = [
    (31, 1, 31), (28, 32, 59), (31, 60, 90), (30, 91, 120), (31, 121, 151), (30, 152, 181),
    (31, 182, 212), (31, 213, 243), (30, 244, 273), (31, 274, 304), (30, 305, 334), (31, 335, 365),
];

#[rustfmt::skip]
const LEAP: Months = [
    (31, 1, 31), (29, 32, 60), (31, 61, 91), (30, 92, 121), (31, 122, 152), (30, 153, 182),
    (31, 183, 213), (31, 214, 244), (30, 245, 274), (31, 275, 305), (30, 306, 335), (31, 336, 366),
];

/// Years as they are written, and their months.
const YEARS: [(&str, Months); 8] = [
    ("0001", PLAIN),
    ("0004", LEAP),
    ("1900", PLAIN),
    ("1990", PLAIN),
    ("2000", LEAP),
    ("2004", LEAP),
    ("2100", PLAIN),
    ("9999", PLAIN),
];

/// A year's months with their numbers.
fn numbered(months: Months) -> impl Iterator<Item = (u8, (u8, u16, u16))> {
    (1..).zip(months)
}

#[test]
fn months_begin_and_end_on_these_days() {
    for (year, months) in YEARS {
        for (month, (last, first_of_year, last_of_year)) in numbered(months) {
            let first_day = format!("date {year}-{month:02}-01");
            value(&format!("{year}-{first_of_year}"), &first_day);
            value(&format!("{year}-{first_of_year:03}"), &first_day);
            value(&format!("{year}-{month}-1"), &first_day);
            let last_day = format!("date {year}-{month:02}-{last}");
            value(&format!("{year}-{last_of_year:03}"), &last_day);
            value(&format!("{year}-{month:02}-{last}"), &last_day);
        }
    }
}

#[test]
fn days_that_a_year_has_not_are_refused() {
    for (year, months) in YEARS {
        let days = months[11].2;
        for day in [0, days + 1, days + 2, 999] {
            value_refused(&format!("{year}-{day:03}"), 5);
        }
    }
}

#[test]
fn months_that_a_year_has_not_are_refused() {
    for (year, _) in YEARS {
        for month in [0, 13, 99] {
            value_refused(&format!("{year}-{month:02}-01"), 5);
        }
    }
}

#[test]
fn days_that_a_month_has_not_are_refused() {
    for (year, months) in YEARS {
        for (month, (last, ..)) in numbered(months) {
            let refused = |day| value_refused(&format!("{year}-{month:02}-{day:02}"), 5);
            [0, last + 1, 32, 99].into_iter().for_each(refused);
        }
    }
}

#[test]
fn year_0_is_refused() {
    for date in ["0000-001", "0000-366", "0000-01-01", "0000-02-29"] {
        value_refused(date, 5);
    }
}

#[test]
fn decimals_are_nanoseconds() {
    for (decimals, nanoseconds) in [
        ("", "000000000"),
        ("1", "100000000"),
        ("12", "120000000"),
        ("123", "123000000"),
        ("1234", "123400000"),
        ("12345", "123450000"),
        ("123456", "123456000"),
        ("1234567", "123456700"),
        ("12345678", "123456780"),
        ("123456789", "123456789"),
        ("000000001", "000000001"),
    ] {
        let time = format!("time 10:00:00.{nanoseconds} offset 0 no zone");
        value(&format!("10:00:00.{decimals}"), &time);
        value(&format!("10:00:00.{decimals}0000000000"), &time);
    }
    value_refused("10:00:00.1234567891", 5);
    value_refused("10:00:00.00000000010", 5);
}

/// Words that are refused for one thing.
const REFUSED: [(&str, Case); 21] = [
    ("0000-001", Case::YearZero(Spelling::DayOfYear)),
    ("0000-366", Case::YearZero(Spelling::DayOfYear)),
    ("0000-12-31", Case::YearZero(Spelling::MonthAndDay)),
    ("0000-02-29", Case::YearZero(Spelling::MonthAndDay)),
    ("1990-0", Case::DayOfYearZero),
    ("2004-000T23:59", Case::DayOfYearZero),
    ("1990-366", past_the_year(false, true)),
    ("1990-366t12:00-12:59", past_the_year(false, true)),
    ("1990-367", past_the_year(false, false)),
    ("1990-999", past_the_year(false, false)),
    ("2004-367", past_the_year(true, true)),
    ("2004-368", past_the_year(true, false)),
    ("1990-0-1", Case::MonthZero),
    ("1990-13-31", Case::MonthPast { by_one: true }),
    ("1990-14-01", Case::MonthPast { by_one: false }),
    ("1990-12-00", Case::DayZero),
    ("1990-02-30", Case::DayPastByMore),
    ("2004-12-33T1:1:1.5z", Case::DayPastByMore),
    ("10:00:00.1234567891", Case::DecimalsPast { by_one: true }),
    ("10:00:00.00000000010Z", Case::DecimalsPast { by_one: true }),
    (
        "2004-366T0:0:0.00000000001-1",
        Case::DecimalsPast { by_one: false },
    ),
];

const fn past_the_year(leap: bool, by_one: bool) -> Case {
    Case::DayOfYearPast { leap, by_one }
}

/// Words for each case of a day, and for each day just past a month.
fn days() -> Vec<(String, Case)> {
    let mut days = Vec::new();
    for (year, leap, months) in [("1990", false, PLAIN), ("2004", true, LEAP)] {
        for (month, (last, first_of_year, last_of_year)) in numbered(months) {
            for (place, day, of_year) in [
                (Place::First, 1, first_of_year),
                (Place::Between, 2, first_of_year + 1),
                (Place::Between, last - 1, last_of_year - 1),
                (Place::Last, last, last_of_year),
            ] {
                let case = |spelling| day_case(leap, month, place, spelling);
                days.push((format!("{year}-{of_year}"), case(Spelling::DayOfYear)));
                let date = format!("{year}-{month}-{day}");
                days.push((date, case(Spelling::MonthAndDay)));
            }
            let date = format!("{year}-{month}-{}", last + 1);
            days.push((date, Case::DayPastByOne { leap, month }));
        }
    }
    days
}

fn day_case(leap: bool, month: u8, place: Place, spelling: Spelling) -> Case {
    Case::Day {
        leap,
        month,
        place,
        spelling,
    }
}

/// Times for each case of decimals.
fn times() -> Vec<(String, Case)> {
    let mut times = Vec::new();
    for count in 0..=9 {
        let case = |zeros| Case::Decimals { count, zeros };
        let time = format!("10:00:00.{}", &"123456789"[..count]);
        times.push((time.clone() + "000Z", case(true)));
        times.push((time, case(false)));
    }
    // A zero counts if something else stands behind it.
    let case = |count, zeros| Case::Decimals { count, zeros };
    times.push(("10:00".to_string(), case(0, false)));
    times.push(("10:00:00.0".to_string(), case(0, true)));
    times.push(("10:00:00.05-12".to_string(), case(2, false)));
    times.push(("10:00:00.00000000100+0".to_string(), case(9, true)));
    times
}

/// Cases that come with one of a day.
const YEAR_CASES: [Case; 4] = [
    Case::FirstYear,
    Case::LastYear,
    Case::PlainHundred,
    Case::LeapHundred,
];

/// Checks the cases that `A=<value> END` shows.
#[track_caller]
fn shows(value: &str, expected: &[Case]) {
    let label = format!("A={value} END");
    assert_eq!(dates::in_label(label.as_bytes()), expected, "{value}");
}

#[test]
fn words_show_their_case() {
    let refused = REFUSED.map(|(word, case)| (word.to_string(), case));
    let examples = [&days()[..], &times(), &refused].concat();
    for (word, case) in &examples {
        shows(word, &[*case]);
        shows(&format!("(1, {word})"), &[*case]);
    }
    let named = examples.into_iter().map(|(_, case)| case).chain(YEAR_CASES);
    assert_eq!(
        named.collect::<BTreeSet<_>>(),
        dates::of_labels().into_iter().collect()
    );
    assert_eq!(dates::of_labels().len(), 206);
}

/// Days in years of each sort, and in the years beside them, which have none.
const DAYS_OF_YEARS: [(&str, bool, u8, Place, Option<Case>); 8] = [
    ("0001-002", false, 1, Place::Between, Some(Case::FirstYear)),
    ("0002-002", false, 1, Place::Between, None),
    ("9999-365", false, 12, Place::Last, Some(Case::LastYear)),
    ("9998-365", false, 12, Place::Last, None),
    ("1900-060", false, 3, Place::First, Some(Case::PlainHundred)),
    ("1901-060", false, 3, Place::First, None),
    ("2000-060", true, 2, Place::Last, Some(Case::LeapHundred)),
    ("2004-060", true, 2, Place::Last, None),
];

#[test]
fn years_show_their_case() {
    for (value, leap, month, place, year) in DAYS_OF_YEARS {
        let day = day_case(leap, month, place, Spelling::DayOfYear);
        shows(value, &[day].into_iter().chain(year).collect::<Vec<_>>());
    }
}

#[test]
fn a_label_shows_each_case_once() {
    let first = |month| day_case(false, month, Place::First, Spelling::MonthAndDay);
    let times = |count| Case::Decimals {
        count,
        zeros: false,
    };
    shows(
        "(1990-2-1T10:00, 1:00:0.5) B={1991-2-1} C=((1989-01-01))",
        &[first(1), first(2), times(0), times(1)],
    );
}

#[test]
fn other_labels_show_none() {
    for value in [
        // Two faults, or another one.
        "1990-13-32",
        "1990-00-00",
        "1990-02-29T24:00",
        "0000-367",
        "0000-02-30",
        "1990-366T10:00:00.1234567891",
        "24:00:00.1234567891",
        "24:00",
        "10:60",
        "10:00+13",
        "10:00:60.5",
        // No form, another one, or no word.
        "1990-1234",
        "1990-13-123",
        "1990-366Z",
        "9223372036854775808",
        "1E-1000",
        "-5",
        "1.5",
        "16#1990#",
        "\"1990-001\"",
        "'10:00'",
        "X /* 1990-001 */\n",
        // Refused for something else before or behind.
        "(1990-001",
        "1990-001 B=() C=1990-366",
        "1990-001,1990-366",
    ] {
        shows(value, &[]);
    }
    assert!(dates::in_label(b"END A=1990-001 END").is_empty());
}

/// The table of `A` with these values.
fn table(values: &[&[u8]]) -> Vec<u8> {
    [&[1, 0, 0, 0, 1], &values.concat()[..], &[99, 0, 0]].concat()
}

/// The row of a date without a time.
fn row(year: u16, month: u8, day: u8) -> [u8; 16] {
    let [high, low] = year.to_be_bytes();
    [12, 1, high, low, month, day, 0, 0, 0, 0, 0, 0, 0, 0, 0, 0]
}

/// The same with the time 23:59:58, one minute west.
fn with_time(mut row: [u8; 16]) -> [u8; 16] {
    row[1] = 3;
    row[6..9].copy_from_slice(&[23, 59, 58]);
    row[13..].copy_from_slice(&[255, 255, 2]);
    row
}

/// Dates that no proper table has, for one thing.
const IMPROPER: [((u16, u8, u8), Case); 12] = [
    ((0, 12, 31), Case::YearZero(Spelling::MonthAndDay)),
    ((0, 2, 29), Case::YearZero(Spelling::MonthAndDay)),
    ((10_000, 1, 1), Case::YearPast),
    ((u16::MAX, 12, 31), Case::YearPast),
    ((1990, 0, 31), Case::MonthZero),
    ((1990, 13, 31), Case::MonthPast { by_one: true }),
    ((1990, 14, 1), Case::MonthPast { by_one: false }),
    ((1990, 255, 1), Case::MonthPast { by_one: false }),
    ((1990, 12, 0), Case::DayZero),
    ((1990, 2, 30), Case::DayPastByMore),
    ((1990, 12, 33), Case::DayPastByMore),
    ((2004, 2, 255), Case::DayPastByMore),
];

/// Dates of tables for each case, each by itself in one of its months.
fn rows() -> Vec<((u16, u8, u8), Case)> {
    let mut rows = IMPROPER.to_vec();
    for (year, leap, months) in [(1990, false, PLAIN), (2004, true, LEAP)] {
        for (month, (last, ..)) in numbered(months) {
            let case = |place| day_case(leap, month, place, Spelling::MonthAndDay);
            rows.push(((year, month, 1), case(Place::First)));
            rows.push(((year, month, 2), case(Place::Between)));
            rows.push(((year, month, last), case(Place::Last)));
            let past = Case::DayPastByOne { leap, month };
            rows.push(((year, month, last + 1), past));
        }
    }
    rows
}

#[test]
fn tables_show_their_case() {
    for ((year, month, day), case) in rows() {
        let row = row(year, month, day);
        let refused = case >= Case::YearZero(Spelling::DayOfYear);
        let code = if refused { 12 } else { 0 };
        for table in [table(&[&row]), table(&[&with_time(row)])] {
            assert_eq!(writing(b"A", &table).0.code, code);
            assert_eq!(dates::in_table(b"A", &table), [case]);
        }
    }
    let named = rows().into_iter().map(|(_, case)| case).chain(YEAR_CASES);
    assert_eq!(
        named.collect::<BTreeSet<_>>(),
        dates::of_tables().into_iter().collect()
    );
    assert_eq!(dates::of_tables().len(), 107);
}

#[test]
fn tables_show_the_cases_of_years_and_each_once() {
    use {Place::*, Spelling::MonthAndDay};
    let [hundred, first] = [row(1900, 3, 1), row(1, 3, 1)];
    assert_eq!(
        dates::in_table(b"A", &table(&[&[20], &hundred, &first, &hundred, &[21]])),
        [
            day_case(false, 3, First, MonthAndDay),
            Case::FirstYear,
            Case::PlainHundred
        ]
    );
    let [four_hundred, last] = [row(2000, 2, 29), row(9999, 12, 31)];
    assert_eq!(
        dates::in_table(b"A", &table(&[&[22], &four_hundred, &last, &[23]])),
        [
            day_case(false, 12, Last, MonthAndDay),
            day_case(true, 2, Last, MonthAndDay),
            Case::LastYear,
            Case::LeapHundred
        ]
    );
}

#[test]
fn other_tables_show_none() {
    let (proper, improper) = (row(1990, 1, 1), row(1990, 2, 29));
    let time = [12, 2, 0, 0, 0, 0, 10, 0, 0, 0, 0, 0, 0, 0, 0, 0];
    let hour_24 = [12, 3, 7, 0xC6, 2, 29, 24, 0, 0, 0, 0, 0, 0, 0, 0, 0];
    let [mut no_parts, mut marked] = [improper; 2];
    no_parts[1] = 0;
    marked[15] = 1;
    for values in [
        // A time, and an integer.
        &[&time[..]][..],
        &[&[10, 0, 0, 0, 0, 0, 0, 0, 5]],
        // Two faults, another one, or a date in a wrong place.
        &[&row(1990, 13, 32)],
        &[&row(0, 0, 1)],
        &[&hour_24],
        &[&no_parts],
        &[&marked],
        &[&proper, &improper],
        &[&[20, 20], &proper, &[21], &improper],
    ] {
        assert_eq!(dates::in_table(b"A", &table(values)), []);
    }
    let cut_short = &table(&[&improper])[..20];
    assert_eq!(dates::in_table(b"A", cut_short), []);
}

#[test]
fn random_labels_show_every_case_of_the_calendar() {
    let mut random = Random::new(17);
    let shown = (0..LABELS).flat_map(|_| dates::in_label(&random::label(&mut random)));
    check_shown(dates::of_labels(), shown);
}

#[test]
fn random_tables_show_every_case_of_the_calendar() {
    let mut random = Random::new(18);
    let shown = (0..TABLES).flat_map(|_| {
        let case = random::table_case(&mut random);
        dates::in_table(&case.label, &case.table)
    });
    check_shown(dates::of_tables(), shown);
}
