//! Zones and their marks (02 §6): answers worked out by hand, and that random
//! labels and tables come upon every case.

use crate::support::*;
use odl_model::meaning;
use odl_model::random::{self, Random};
use odl_model::zones::{self, Case, Mark, MomentRow, Offset, Parts, Zone};
use std::collections::BTreeSet;

const LABELS: usize = 20_000;

const TABLES: usize = 20_000;

/// Zones as they are written, the offset and the mark of each, and their case.
#[rustfmt::skip]
const ZONES: [(&str, &str, Zone); 23] = [
    ("", "0 no zone", Zone::None),
    ("Z", "0 Z", Zone::UpperZ),
    ("z", "0 Z", Zone::LowerZ),
    ("+0", "0 signed zone", signed(false, true, false)),
    ("-0", "0 signed zone", signed(true, true, false)),
    ("+00", "0 signed zone", signed(false, true, false)),
    ("-00", "0 signed zone", signed(true, true, false)),
    ("+0:0", "0 signed zone", signed(false, true, true)),
    ("-0:0", "0 signed zone", signed(true, true, true)),
    ("+00:00", "0 signed zone", signed(false, true, true)),
    ("-00:00", "0 signed zone", signed(true, true, true)),
    ("+1", "60 signed zone", signed(false, false, false)),
    ("-1", "-60 signed zone", signed(true, false, false)),
    ("+07", "420 signed zone", signed(false, false, false)),
    ("-07", "-420 signed zone", signed(true, false, false)),
    ("+10:00", "600 signed zone", signed(false, false, true)),
    ("-10:00", "-600 signed zone", signed(true, false, true)),
    ("+0:1", "1 signed zone", signed(false, false, true)),
    ("-0:1", "-1 signed zone", signed(true, false, true)),
    ("+5:30", "330 signed zone", signed(false, false, true)),
    ("-03:30", "-210 signed zone", signed(true, false, true)),
    ("+12:59", "779 signed zone", signed(false, false, true)),
    ("-12:59", "-779 signed zone", signed(true, false, true)),
];

const fn signed(minus: bool, zero: bool, minutes: bool) -> Zone {
    Zone::Signed {
        minus,
        zero,
        minutes,
    }
}

#[test]
fn zones_are_marked_as_they_are_written() {
    for (zone, read, _) in ZONES {
        for time in ["10:00", "10:0:00", "10:00:00.", "10:00:00.000"] {
            let clock = "10:00:00.000000000 offset";
            value(&format!("{time}{zone}"), &format!("time {clock} {read}"));
            for date in ["1990-158T", "1990-6-7t"] {
                let row = format!("date-time 1990-06-07 {clock} {read}");
                value(&format!("{date}{time}{zone}"), &row);
            }
        }
    }
}

/// Every offset, with zeros before its numbers and without.
#[test]
fn all_signed_zones_have_mark_2() {
    for minutes in -779i32..=779 {
        let sign = if minutes < 0 { '-' } else { '+' };
        let (hour, minute) = (minutes.abs() / 60, minutes.abs() % 60);
        let row = format!("time 10:00:00.000000000 offset {minutes} signed zone");
        value(&format!("10:00{sign}{hour}:{minute}"), &row);
        value(&format!("10:00{sign}{hour:02}:{minute:02}"), &row);
    }
}

/// The table of `A` with these values.
fn table(values: &[&[u8]]) -> Vec<u8> {
    [&[1, 0, 0, 0, 1], &values.concat()[..], &[99, 0, 0]].concat()
}

/// The row of 1990-06-07, 10:00 or both, with this offset and this mark.
fn row(parts: Parts, offset: i16, mark: u8) -> MomentRow {
    let (number, date, hour) = match parts {
        Parts::Date => (1, [7, 0xC6, 6, 7], 0),
        Parts::Time => (2, [0; 4], 10),
        Parts::Both => (3, [7, 0xC6, 6, 7], 10),
    };
    let [a, b, c, d] = date;
    let [high, low] = offset.to_be_bytes();
    [
        12, number, a, b, c, d, hour, 0, 0, 0, 0, 0, 0, high, low, mark,
    ]
}

/// Parts of each sort with offsets that they may have.
fn moments() -> Vec<(Parts, i16)> {
    let mut all = vec![(Parts::Date, 0)];
    for offset in [-779, -256, -1, 0, 1, 255, 256, 779] {
        all.extend([Parts::Time, Parts::Both].map(|parts| (parts, offset)));
    }
    all
}

/// The marks that a row may have: none but 0 where there is no time, and none
/// but 2 with a nonzero offset.
fn proper_marks(parts: Parts, offset: i16) -> &'static [u8] {
    match (parts, offset) {
        (Parts::Date, _) => &[0],
        (_, 0) => &[0, 1, 2],
        _ => &[2],
    }
}

#[test]
fn tables_have_these_marks_and_no_others() {
    for (parts, offset) in moments() {
        for mark in 0..=u8::MAX {
            let row = row(parts, offset, mark);
            let answer = writing(b"A", &table(&[&[22], &row, &[23]])).0;
            match proper_marks(parts, offset).contains(&mark) {
                true => assert_eq!(answer.code, 0, "{row:?}"),
                false => assert_eq!((answer.code, answer.place), (12, 6), "{row:?}"),
            }
        }
    }
}

/// Offsets, and how they are written with 10:00.
const WRITTEN: [(i16, &str); 7] = [
    (0, "10:00:00Z"),
    (1, "10:00:00+00:01"),
    (-1, "10:00:00-00:01"),
    (60, "10:00:00+01:00"),
    (-330, "10:00:00-05:30"),
    (779, "10:00:00+12:59"),
    (-779, "10:00:00-12:59"),
];

#[test]
fn the_offset_is_written_whatever_the_mark() {
    for (offset, time) in WRITTEN {
        for &mark in proper_marks(Parts::Time, offset) {
            let label = format!("A = {time}\r\nEND\r\n");
            let rows = table(&[&row(Parts::Time, offset, mark)]);
            assert_eq!(writing(b"A", &rows).1, label.as_bytes());
            let label = format!("A = 1990-06-07T{time}\r\nEND\r\n");
            let rows = table(&[&row(Parts::Both, offset, mark)]);
            assert_eq!(writing(b"A", &rows).1, label.as_bytes());
        }
    }
    let date = table(&[&row(Parts::Date, 0, 0)]);
    assert_eq!(writing(b"A", &date).1, b"A = 1990-06-07\r\nEND\r\n");
}

/// Rows, and what they are once they have been written and read again.
#[test]
fn what_is_written_is_read_again_with_its_own_mark() {
    for (parts, offset, mark, again) in [
        (Parts::Date, 0, 0, 0),
        (Parts::Time, 0, 0, 1),
        (Parts::Time, 0, 1, 1),
        (Parts::Time, 0, 2, 1),
        (Parts::Time, 1, 2, 2),
        (Parts::Time, -779, 2, 2),
        (Parts::Both, 0, 0, 1),
        (Parts::Both, 0, 1, 1),
        (Parts::Both, 0, 2, 1),
        (Parts::Both, 779, 2, 2),
        (Parts::Both, -1, 2, 2),
    ] {
        let before = table(&[&row(parts, offset, mark)]);
        let again = [row(parts, offset, again)];
        let written = writing(b"A", &before).1;
        assert_eq!(zones::moments(&written, &table_of(&written)), again);
        assert_eq!(zones::moments_once_written(b"A", &before), again);
    }
}

/// Checks the cases that `A=<value> END` shows.
#[track_caller]
fn shows(value: &str, expected: &[Case]) {
    let label = format!("A={value} END");
    assert_eq!(zones::in_label(label.as_bytes()), expected, "{value}");
}

#[test]
fn words_show_their_case() {
    let date = Case::Written {
        parts: Parts::Date,
        zone: Zone::None,
    };
    shows("1990-158", &[date]);
    shows("{1990-06-07}", &[date]);
    let mut named = BTreeSet::from([date]);
    for (zone, _, case) in ZONES {
        let case = |parts| Case::Written { parts, zone: case };
        let [time, both] = [Parts::Time, Parts::Both].map(case);
        shows(&format!("1:0{zone}"), &[time]);
        shows(&format!("(X, 10:00:00.50{zone})"), &[time]);
        shows(&format!("1990-10-10T10:10{zone}"), &[both]);
        shows(&format!("1990-101t1:1:1.1{zone}"), &[both]);
        shows(&format!("(1990-158T1:0{zone}, 1:0{zone})"), &[time, both]);
        named.extend([time, both]);
    }
    assert_eq!(named, zones::of_labels().into_iter().collect());
    assert_eq!(zones::of_labels().len(), 23);
}

#[test]
fn other_labels_show_none() {
    for value in [
        "T",
        "'10:00Z'",
        "\"10:00\"",
        "-5",
        "X /* 10:00Z */\n",
        "10:00+13",
        "1990-158Z",
        "(10:00Z",
        "10:00 B=()",
    ] {
        shows(value, &[]);
    }
    assert!(zones::in_label(b"END A=10:00Z END").is_empty());
}

/// Marks as the cases of tables name them.
const MARKS: [(u8, Mark); 9] = [
    (0, Mark::NoZone),
    (1, Mark::Z),
    (2, Mark::SignedZone),
    (3, Mark::Three),
    (4, Mark::More),
    (127, Mark::More),
    (128, Mark::More),
    (254, Mark::More),
    (255, Mark::Largest),
];

fn sort(offset: i16) -> Offset {
    match offset {
        0 => Offset::Zero,
        ..0 => Offset::West,
        _ => Offset::East,
    }
}

#[test]
fn tables_show_their_case() {
    let mut named = BTreeSet::new();
    for (parts, offset) in moments() {
        for (byte, mark) in MARKS {
            let case = Case::Held {
                parts,
                offset: sort(offset),
                mark,
            };
            named.insert(case);
            let table = table(&[&row(parts, offset, byte)]);
            let is_refused = !proper_marks(parts, offset).contains(&byte);
            assert_eq!(case.is_refused(), is_refused, "{case:?}");
            assert_eq!(zones::in_table(b"A", &table), [case]);
        }
    }
    assert_eq!(named, zones::of_tables().into_iter().collect());
    assert_eq!(zones::of_tables().len(), 42);
    let proper = zones::of_tables().into_iter().filter(|c| !c.is_refused());
    assert_eq!(proper.count(), 11);
}

#[test]
fn other_tables_show_none() {
    let (proper, improper) = (row(Parts::Time, 0, 0), row(Parts::Time, 0, 3));
    let mut hour_24 = improper;
    hour_24[6] = 24;
    for values in [
        // No date or time, two faults, another one, or a row in a wrong place.
        &[&[10, 0, 0, 0, 0, 0, 0, 0, 5][..]][..],
        &[&hour_24],
        &[&row(Parts::Date, 1, 2)],
        &[&row(Parts::Time, 780, 2)],
        &[&proper, &improper],
        &[&[20, 20], &proper, &[21], &improper],
    ] {
        assert_eq!(zones::in_table(b"A", &table(values)), []);
    }
    let cut_short = &table(&[&improper])[..20];
    assert_eq!(zones::in_table(b"A", cut_short), []);
}

#[test]
fn other_marks_are_put_where_they_can_be() {
    let rows = |marks: [u8; 3]| {
        let [a, b, c] = marks;
        table(&[
            &[20],
            &row(Parts::Time, 0, a),
            &row(Parts::Both, 0, b),
            &row(Parts::Both, 0, c),
            &row(Parts::Time, -1, 2),
            &row(Parts::Date, 0, 0),
            &[21],
        ])
    };
    let others = [rows([1, 2, 0]), rows([2, 0, 1])];
    assert_eq!(zones::remarked(b"A", &rows([0, 1, 2])), others);
    // No mark can be another one, and no table at all.
    let fixed = [row(Parts::Date, 0, 0), row(Parts::Time, 1, 2)];
    for table in [table(&[&fixed[0]]), table(&[&fixed[1]]), rows([0, 1, 3])] {
        assert!(zones::remarked(b"A", &table).is_empty());
    }
}

#[test]
fn random_labels_show_every_case_of_zones() {
    let mut random = Random::new(19);
    let shown = (0..LABELS).flat_map(|_| zones::in_label(&random::label(&mut random)));
    check_shown(zones::of_labels(), shown);
}

#[test]
fn random_tables_show_every_case_of_marks() {
    let mut random = Random::new(20);
    let shown = (0..TABLES).flat_map(|_| {
        let case = random::table_case(&mut random);
        zones::in_table(&case.label, &case.table)
    });
    check_shown(zones::of_tables(), shown);
}

#[test]
fn random_tables_mean_the_same_with_other_marks() {
    let mut random = Random::new(21);
    let mut remarked = 0;
    for _ in 0..TABLES {
        let case = random::table_case(&mut random);
        let (label, table) = (&case.label, &case.table);
        for other in zones::remarked(label, table) {
            assert_ne!(other, *table);
            assert!(meaning(label, &other).is_some());
            assert_eq!(meaning(label, &other), meaning(label, table));
            assert_eq!(writing(label, &other), writing(label, table));
            remarked += 1;
        }
    }
    assert!(remarked > TABLES / 5, "{remarked} tables with other marks");
}
