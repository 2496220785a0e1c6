//! Decimals of a second: what each is worth in nanoseconds, with zeros behind
//! them and without, and one too many.

use crate::support::*;

/// How many decimals may be kept.
const PLACES: usize = 9;

/// The row of 10:00 and these nanoseconds, without a zone.
fn row(nanoseconds: u32) -> MomentRow {
    let [a, b, c, d] = nanoseconds.to_be_bytes();
    [12, 2, 0, 0, 0, 0, 10, 0, 0, a, b, c, d, 0, 0, 0]
}

/// The nanoseconds of these decimals: a tenth of a second for one in the first
/// place, and in each place a tenth of what it is in the one before.
fn nanoseconds(decimals: &str) -> u32 {
    let mut worth = 1_000_000_000;
    let mut sum = 0;
    for digit in decimals.bytes() {
        worth /= 10;
        sum += u32::from(digit - b'0') * worth;
    }
    sum
}

/// As it is written: without trailing zeros, and no period if there is nothing else.
fn form(decimals: &str) -> String {
    match decimals.trim_end_matches('0') {
        "" => "10:00:00Z".to_string(),
        kept => format!("10:00:00.{kept}Z"),
    }
}

/// Each digit by itself in each place.
fn single_digits() -> Vec<String> {
    let mut all = Vec::new();
    for place in 0..PLACES {
        let zeros = "0".repeat(place);
        all.extend((1..=9).map(|digit| format!("{zeros}{digit}")));
    }
    all
}

/// So many decimals of each count, and none.
fn beginnings() -> Vec<String> {
    let mut all = Vec::new();
    for digits in [
        "123456789",
        "987654321",
        "999999999",
        "100000001",
        "000000000",
    ] {
        all.extend((0..=PLACES).map(|count| digits[..count].to_string()));
    }
    all
}

#[test]
fn decimals_are_worth_what_their_place_says() {
    assert_eq!(nanoseconds("4575"), 457_500_000);
    assert_eq!(nanoseconds("000000001"), 1);
    let all = [single_digits(), beginnings()].concat();
    let rows: Vec<MomentRow> = all
        .iter()
        .map(|decimals| row(nanoseconds(decimals)))
        .collect();
    for zeros in (0..=20).chain([300]) {
        let zeros = "0".repeat(zeros);
        let words = all
            .iter()
            .map(|decimals| format!("10:00:00.{decimals}{zeros}"));
        check_read(&words.collect::<Vec<_>>(), &rows);
    }
    let forms = all.iter().map(|decimals| form(decimals));
    check_written(&rows, &forms.collect::<Vec<_>>());
}

#[test]
fn no_decimals_are_no_nanoseconds() {
    let words = ["10:00", "10:00:00", "10:00:00.", "10:0:0.", "10:00:00.0"];
    check_read(&words.map(String::from), &words.map(|_| row(0)));
}

#[test]
fn a_tenth_decimal_is_refused() {
    for digit in 1..=9 {
        for before in ["000000000", "123456789", "999999999", "100000000"] {
            check_word_refused(&format!("10:00:00.{before}{digit}"));
            check_word_refused(&format!("10:00:00.{before}{digit}000"));
            check_word_refused(&format!("1990-07T10:00:00.{before}{digit}Z"));
        }
    }
}

#[test]
fn a_decimal_far_behind_is_refused() {
    for zeros in 9..60 {
        let zeros = "0".repeat(zeros);
        check_word_refused(&format!("10:00:00.{zeros}1"));
        check_word_refused(&format!("10:00:00.9{zeros}1"));
    }
}

#[test]
fn tables_have_less_than_a_second_of_nanoseconds() {
    check_written(&[row(999_999_999)], &[form("999999999")]);
    for nanoseconds in [
        1_000_000_000,
        1_000_000_001,
        2_000_000_000,
        1 << 31,
        u32::MAX,
    ] {
        check_row_refused(row(nanoseconds));
    }
}
