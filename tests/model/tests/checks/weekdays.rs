//! Weekdays (02 §1): days whose weekday is known from elsewhere, and another way
//! to tell that of every day.

use odl_model::weekdays::{day_after, day_before, weekday, Date, FIRST, LAST};

const MONDAY: usize = 0;
const TUESDAY: usize = 1;
const WEDNESDAY: usize = 2;
const THURSDAY: usize = 3;
const FRIDAY: usize = 4;
const SATURDAY: usize = 5;
const SUNDAY: usize = 6;

/// The named day, then days by Python's datetime. Of some there is more to say:
/// the calendar came into use on a Friday, two days are those of the first step
/// on the Moon and of the epoch of clocks, and 2000 began as 1600 did, 20,871
/// whole weeks before.
#[rustfmt::skip]
const KNOWN: [(Date, usize); 24] = [
    ((1979, 7, 8), SUNDAY),
    ((1, 1, 1), MONDAY), ((4, 2, 29), SUNDAY), ((100, 2, 28), SUNDAY), ((100, 3, 1), MONDAY),
    ((400, 2, 29), TUESDAY), ((1582, 10, 14), THURSDAY), ((1582, 10, 15), FRIDAY),
    ((1600, 1, 1), SATURDAY), ((1600, 2, 29), TUESDAY), ((1752, 9, 14), THURSDAY),
    ((1900, 1, 1), MONDAY), ((1900, 2, 28), WEDNESDAY), ((1900, 3, 1), THURSDAY),
    ((1969, 7, 20), SUNDAY), ((1970, 1, 1), THURSDAY), ((2000, 1, 1), SATURDAY),
    ((2000, 2, 28), MONDAY), ((2000, 2, 29), TUESDAY), ((2000, 3, 1), WEDNESDAY),
    ((2000, 12, 31), SUNDAY), ((2024, 2, 29), THURSDAY), ((2100, 3, 1), MONDAY),
    ((9999, 12, 31), FRIDAY),
];

#[test]
fn known_days_have_their_weekday() {
    for (date, known) in KNOWN {
        assert_eq!(weekday(date), known, "{date:?}");
    }
}

/// All days, one after the other.
fn days() -> impl Iterator<Item = Date> {
    let next = |&date: &Date| (date != LAST).then(|| day_after(date));
    std::iter::successors(Some(FIRST), next)
}

#[test]
fn every_step_leads_back() {
    let later = || days().skip(1);
    assert!(days()
        .zip(later())
        .all(|(day, next)| day_before(next) == day));
    // Of the years to 9999, 4 divides 2499, 100 divides 99 and 400 divides 24.
    assert_eq!(days().count(), 365 * 9999 + 2499 - 99 + 24);
}

/// The days of the months, here in a plain or a leap year, that have the weekday
/// of the last of February: 4-4, 6-6, 8-8, 10-10 and 12-12, 5-9 and 9-5, 7-11 and
/// 11-7, and the same in the first three months.
fn doomsday(month: u8, leap: bool) -> i32 {
    match month {
        1 if leap => 4,
        1 => 3,
        2 if leap => 29,
        2 => 28,
        3 => 7,
        5 => 9,
        9 => 5,
        7 => 11,
        11 => 7,
        even => even.into(),
    }
}

/// Conway's rule. A year's own weekday goes on by one each year and by one more
/// each leap year; that of years which 400 divides is Tuesday.
fn by_doomsdays((year, month, day): Date) -> usize {
    let year = i32::from(year);
    let leap = year % 400 == 0 || year % 4 == 0 && year % 100 != 0;
    let of_century = [1, 6, 4, 2][(year / 100 % 4) as usize];
    let in_century = year % 100;
    let of_year = of_century + in_century + in_century / 4;
    let from = i32::from(day) - doomsday(month, leap);
    (of_year + from).rem_euclid(7) as usize
}

#[test]
fn every_day_has_the_weekday_that_conways_rule_gives() {
    for date in days() {
        assert_eq!(weekday(date), by_doomsdays(date), "{date:?}");
    }
}

#[test]
fn weekdays_come_again_after_400_years() {
    for date in days().take_while(|date| date.0 <= 9599) {
        let (year, month, day) = date;
        assert_eq!(weekday(date), weekday((year + 400, month, day)), "{date:?}");
    }
}
