//! Reals people can read (02 §4): forms worked out by hand, reading them back,
//! and that random labels and tables come upon every case.

use crate::support::*;
use odl_model::random::{self, Random};
use odl_model::{reals, relabel};
use std::collections::BTreeMap;

const LABELS: usize = 10_000;
const TABLES: usize = 10_000;

/// Numbers of 1, 2, 17 and 18 digits.
const NUMBERS: [i64; 4] = [5, 15, 12_345_678_901_234_567, 123_456_789_012_345_678];

fn row(number: i64, power: i16) -> Vec<u8> {
    [&[11], &number.to_be_bytes()[..], &power.to_be_bytes()].concat()
}

/// The table of `A` and these rows, over a label that begins with its name.
fn table(rows: &[&[u8]]) -> Vec<u8> {
    [&[1, 0, 0, 0, 1], &rows.concat()[..], &[99, 0, 0]].concat()
}

/// How the real of this number and power is written.
fn form(number: i64, power: i16) -> String {
    let (answer, written) = writing(b"A", &table(&[&row(number, power)]));
    assert_eq!(answer.code, 0, "{number} power {power}");
    let written = String::from_utf8(written).unwrap();
    let value = written.strip_prefix("A = ").unwrap();
    value.strip_suffix("\r\nEND\r\n").unwrap().to_string()
}

/// Checks the form of a real, and that of its negative.
#[track_caller]
fn written(number: i64, power: i16, expected: &str) {
    assert_eq!(form(number, power), expected, "{number} power {power}");
    assert_eq!(form(-number, power), format!("-{expected}"));
}

/// Checks the forms of the four numbers above at this power.
#[track_caller]
fn written_at(power: i16, forms: [&str; 4]) {
    for (number, form) in NUMBERS.into_iter().zip(forms) {
        written(number, power, form);
    }
}

#[test]
fn examples_of_the_document() {
    written(15, -1, "1.5");
    written(15, -3, "0.015");
    assert_eq!(form(0, 0), "0.0");
}

#[test]
fn powers_from_minus_18_to_minus_1_are_written_plainly() {
    written_at(
        -18,
        [
            "0.000000000000000005",
            "0.000000000000000015",
            "0.012345678901234567",
            "0.123456789012345678",
        ],
    );
    written_at(
        -17,
        [
            "0.00000000000000005",
            "0.00000000000000015",
            "0.12345678901234567",
            "1.23456789012345678",
        ],
    );
    written_at(
        -2,
        ["0.05", "0.15", "123456789012345.67", "1234567890123456.78"],
    );
    written_at(
        -1,
        ["0.5", "1.5", "1234567890123456.7", "12345678901234567.8"],
    );
}

#[test]
fn places_and_digits() {
    // Fewer digits than places, as many, and more.
    written(123, -5, "0.00123");
    written(123, -4, "0.0123");
    written(123, -3, "0.123");
    written(123, -2, "1.23");
    written(123, -1, "12.3");
    // Zeros within the number stay.
    written(1_000_001, -6, "1.000001");
    written(1_000_001, -9, "0.001000001");
    written(100_000_000_000_000_001, -17, "1.00000000000000001");
    written(100_000_000_000_000_001, -1, "10000000000000000.1");
    written(999_999_999_999_999_999, -18, "0.999999999999999999");
    written(999_999_999_999_999_999, -1, "99999999999999999.9");
}

#[test]
fn powers_below_minus_18_are_written_as_such() {
    written_at(
        -19,
        [
            "5.E-19",
            "15.E-19",
            "12345678901234567.E-19",
            "123456789012345678.E-19",
        ],
    );
    written(15, -20, "15.E-20");
    written(15, -30, "15.E-30");
    written(1, -999, "1.E-999");
    written(999_999_999_999_999_999, -999, "999999999999999999.E-999");
}

#[test]
fn up_to_18_digits_of_number_and_zeros_are_all_written() {
    written_at(
        0,
        ["5.0", "15.0", "12345678901234567.0", "123456789012345678.0"],
    );
    // Of number and zeros, 17 digits, and then 18.
    written(5, 16, "50000000000000000.0");
    written(15, 15, "15000000000000000.0");
    written(5, 17, "500000000000000000.0");
    written(15, 16, "150000000000000000.0");
    written(1, 17, "100000000000000000.0");
    written(999_999_999_999_999_999, 0, "999999999999999999.0");
    written(99_999_999_999_999_999, 1, "999999999999999990.0");
    written(123_456_789, 9, "123456789000000000.0");
}

#[test]
fn power_1_stands_at_the_border() {
    written_at(
        1,
        [
            "50.0",
            "150.0",
            "123456789012345670.0",
            "123456789012345678.E1",
        ],
    );
}

#[test]
fn over_18_digits_of_number_and_zeros_the_power_is_written() {
    // Of number and zeros, 19 digits, and then 20.
    written(5, 18, "5.E18");
    written(15, 17, "15.E17");
    written(123_456_789, 10, "123456789.E10");
    written(12_345_678_901_234_567, 2, "12345678901234567.E2");
    written(999_999_999_999_999_999, 1, "999999999999999999.E1");
    written(5, 19, "5.E19");
    written(15, 18, "15.E18");
    written(123_456_789_012_345_678, 2, "123456789012345678.E2");
    written(1, 999, "1.E999");
    written(999_999_999_999_999_999, 999, "999999999999999999.E999");
}

#[test]
fn spelling_does_not_change_what_is_written() {
    for (word, form) in [
        ("1.50", "1.5"),
        ("15.E-1", "1.5"),
        ("+0.15e1", "1.5"),
        (".015", "0.015"),
        ("-00.0150", "-0.015"),
        ("0.", "0.0"),
        ("-0.0E7", "0.0"),
        ("1E17", "100000000000000000.0"),
        ("1000000000000000000.", "1.E18"),
        ("1234567890123456780.0", "123456789012345678.E1"),
        ("0.0000000000000000001", "1.E-19"),
        ("-5E-19", "-5.E-19"),
        ("0.1E1000", "1.E999"),
        ("(1.5 <s>, -2.0)", "(1.5 <S>, -2.0)"),
        (
            "((1e3), (1e-3<m/s**2>, 1e30))",
            "((1000.0), (0.001 <M/S**2>, 1.E30))",
        ),
        ("{31459e1, 1E-40}", "{314590.0, 1.E-40}"),
        // Integers are not reals.
        ("15", "15"),
        ("-100000000000000000", "-100000000000000000"),
    ] {
        let output = relabel(format!("A={word} END").as_bytes());
        let expected = format!("A = {form}\r\nEND\r\n");
        assert_eq!(String::from_utf8(output).unwrap(), expected, "{word}");
    }
}

/// Numbers of 1 to 18 digits, either side of zero.
fn numbers() -> Vec<i64> {
    let mut numbers = Vec::new();
    for length in 1..=18 {
        let least = 10_i64.pow(length - 1);
        let counted = NUMBERS[3] / 10_i64.pow(18 - length);
        for number in [least + 1, counted, 10 * least - 1] {
            if number % 10 != 0 {
                numbers.extend([number, -number]);
            }
        }
    }
    numbers
}

#[test]
fn written_reals_read_back_to_the_same_number_and_power() {
    let numbers = numbers();
    assert!(numbers.len() > 100);
    for power in -999..=999 {
        let mut rows: Vec<Vec<u8>> = vec![vec![20]];
        rows.extend(numbers.iter().map(|&number| row(number, power)));
        rows.extend((power == 0).then(|| row(0, 0)));
        rows.push(vec![21]);
        let rows: Vec<&[u8]> = rows.iter().map(Vec::as_slice).collect();
        let table = table(&rows);
        let (answer, written) = writing(b"A", &table);
        assert_eq!(answer.code, 0, "{power}");
        let again = table_of(&written);
        // All but the last row, which has the written label's length.
        let last = table.len() - 3;
        assert_eq!(again[..last], table[..last], "{}", escaped(&written));
        assert_eq!(again.len(), table.len());
    }
}

/// Each case with a value that shows it and one that just does not.
const SHOWN: [(&str, &str, &str); 41] = [
    ("power -999", "1E-999", "1E-998"),
    ("power below -19", "1E-20", "1E-19"),
    ("power -19", "1E-19", "1E-18"),
    ("power -18", "1E-18", "1E-17"),
    ("power -17 to -2", "0.01", "0.1"),
    ("power -1", "1.5", "0.15"),
    ("power 0", "5.", "0.0"),
    ("power 1", "50.", "500."),
    ("power 999", "1E999", "1E998"),
    ("zero", "-0.0", "1."),
    ("fewer digits than places", "0.015", "0.15"),
    ("as many digits as places", "0.15", "1.5"),
    ("more digits than places", "1.5", "0.15"),
    ("number and zeros under 17 digits", "1E15", "1E16"),
    ("number and zeros of 17 digits", "12E15", "12E16"),
    ("number and zeros of 18 digits", "12E16", "12E17"),
    ("number and zeros of 19 digits", "12E17", "12E18"),
    ("number and zeros over 19 digits", "12E18", "12E17"),
    ("plain, one digit", "0.5", "1.5"),
    (
        "plain, 18 digits",
        "0.123456789012345678",
        "0.12345678901234567",
    ),
    ("whole, one digit", "5.", "15."),
    (
        "whole, 18 digits",
        "123456789012345678.",
        "12345678901234567.",
    ),
    ("scaled, one digit", "1E18", "1E17"),
    (
        "scaled, 18 digits",
        "123456789012345678E1",
        "123456789012345678E0",
    ),
    ("plain, minus before 0", "-0.15", "-1.5"),
    ("plain, minus before more", "-1.5", "-0.15"),
    ("whole, minus", "-5.", "5."),
    ("scaled down, minus", "-1E-19", "-1E18"),
    ("scaled up, minus", "-1E18", "-1E-19"),
    ("plain, units", "1.5<M>", "15.<M>"),
    ("whole, units", "15.<M>", "1.5<M>"),
    ("scaled, units", "1E18<M>", "1E17<M>"),
    ("plain, in a sequence", "(1,1.5)", "((1.5))"),
    ("whole, in a sequence", "(X,15.)", "{15.}"),
    ("scaled, in a sequence", "(1E18<M>)", "(1E17)"),
    ("plain, in a row", "((1),(1.5))", "(1.5)"),
    ("whole, in a row", "((15.))", "(15.)"),
    ("scaled, in a row", "((1,1E18))", "((1E17))"),
    ("plain, in a set", "{1.5}", "(1.5)"),
    ("whole, in a set", "{X,15.}", "(15.)"),
    ("scaled, in a set", "{1E18}", "{1E17}"),
];

#[test]
fn tables_show_their_case() {
    let shows = |value: &str, case| {
        let label = format!("A={value} END");
        let table = table_of(label.as_bytes());
        reals::cases(label.as_bytes(), &table).contains(&case)
    };
    for (case, shown, not) in SHOWN {
        assert!(shows(shown, case), "{case}: {shown}");
        assert!(!shows(not, case), "{case}: {not}");
    }
    let named: Vec<&str> = SHOWN.iter().map(|&(case, ..)| case).collect();
    assert_eq!(reals::names().collect::<Vec<_>>(), named);
    // Integers, and tables that are not proper, show none.
    assert!(reals::cases(b"A", &table(&[&[10, 0, 0, 0, 0, 0, 0, 0, 5]])).is_empty());
    assert!(reals::cases(b"A", &table(&[&row(10, 0)])).is_empty());
}

#[test]
fn tables_show_the_real_that_they_are_refused_for() {
    let named = [
        ("a trailing zero", row(-10, 0)),
        ("a zero with a power", row(0, 1)),
        ("a number of 19 digits", row(1_000_000_000_000_000_001, 0)),
        ("power 1000", row(1, 1_000)),
        ("power -1000", row(1, -1_000)),
        ("a power past 1000 either way", row(1, -1_001)),
    ];
    for (case, row) in &named {
        let table = table(&[row]);
        assert_eq!(writing(b"A", &table).0.place, 5);
        assert_eq!(reals::improper_case(b"A", &table), Some(*case));
    }
    let names: Vec<&str> = named.iter().map(|&(case, _)| case).collect();
    assert_eq!(reals::improper_names().collect::<Vec<_>>(), names);
    // Proper ones show none, nor do those with two faults or in a wrong place.
    let (proper, improper) = (row(1, 0), row(10, 0));
    for rows in [
        &[&proper[..]][..],
        &[&row(10, 1_000)],
        &[&row(1_000_000_000_000_000_000, 0)],
        &[&proper, &improper],
        &[&[20, 20], &proper, &[21], &improper],
    ] {
        assert_eq!(reals::improper_case(b"A", &table(rows)), None);
    }
    let cut_short = &table(&[&improper])[..15];
    assert_eq!(reals::improper_case(b"A", cut_short), None);
}

/// How often each of these cases came up.
fn counted(
    names: impl Iterator<Item = &'static str>,
    shown: impl Iterator<Item = &'static str>,
) -> BTreeMap<&'static str, usize> {
    let mut counts: BTreeMap<&str, usize> = names.map(|name| (name, 0)).collect();
    for case in shown {
        *counts.get_mut(case).unwrap() += 1;
    }
    counts
}

#[test]
fn random_labels_show_every_case() {
    let mut random = Random::new(15);
    let shown = (0..LABELS).flat_map(|_| {
        let label = random::label(&mut random);
        reals::cases(&label, &random::table_of(&label))
    });
    let counts = counted(reals::names(), shown);
    assert!(counts.values().all(|&count| count > 5), "{counts:#?}");
}

#[test]
fn random_tables_show_every_case() {
    let mut random = Random::new(16);
    let names = reals::names().chain(reals::improper_names());
    let shown = (0..TABLES).flat_map(|_| {
        let case = random::table_case(&mut random);
        let mut shown = reals::cases(&case.label, &case.table);
        shown.extend(reals::improper_case(&case.label, &case.table));
        shown
    });
    let counts = counted(names, shown);
    assert!(counts.values().all(|&count| count > 5), "{counts:#?}");
}
