//! Zones and their marks (02 §6): every zone as it is written, every offset,
//! every mark of a table, and that the mark is no part of the meaning. What is
//! expected is written out from the request's sentences.

use crate::support::*;
use compare::{Call, Case};
use odl_model::zones::Parts;

/// The row of 1990-06-07, 10:00 or both, with this offset and this mark.
fn row(parts: Parts, offset: i16, mark: u8) -> MomentRow {
    let (number, [a, b, c, d], hour) = match parts {
        Parts::Date => (1, [7, 0xC6, 6, 7], 0),
        Parts::Time => (2, [0; 4], 10),
        Parts::Both => (3, [7, 0xC6, 6, 7], 10),
    };
    let [e, f] = offset.to_be_bytes();
    [12, number, a, b, c, d, hour, 0, 0, 0, 0, 0, 0, e, f, mark]
}

/// Zones as they are written, with the offset and the mark of each.
const ZONES: [(&str, i16, u8); 25] = [
    ("", 0, 0),
    ("Z", 0, 1),
    ("z", 0, 1),
    ("+0", 0, 2),
    ("-0", 0, 2),
    ("+00", 0, 2),
    ("-00", 0, 2),
    ("+0:0", 0, 2),
    ("-0:0", 0, 2),
    ("+00:0", 0, 2),
    ("-0:00", 0, 2),
    ("+00:00", 0, 2),
    ("-00:00", 0, 2),
    ("+0:1", 1, 2),
    ("-0:1", -1, 2),
    ("+1", 60, 2),
    ("-1", -60, 2),
    ("+07", 420, 2),
    ("-07", -420, 2),
    ("+5:30", 330, 2),
    ("-03:30", -210, 2),
    ("+12", 720, 2),
    ("-12", -720, 2),
    ("+12:59", 779, 2),
    ("-12:59", -779, 2),
];

/// Words for 10:00 with each of these zones, alone and behind 1990-06-07, and
/// their rows.
fn words_and_rows(zones: &[(String, i16, u8)]) -> (Vec<String>, Vec<MomentRow>) {
    let mut all = Vec::new();
    for (zone, offset, mark) in zones {
        let [time, both] = [Parts::Time, Parts::Both].map(|parts| row(parts, *offset, *mark));
        for clock in ["10:00", "10:0:0", "10:00:00.", "10:00:00.00"] {
            all.push((format!("{clock}{zone}"), time));
            all.push((format!("1990-158T{clock}{zone}"), both));
            all.push((format!("1990-6-7t{clock}{zone}"), both));
        }
    }
    all.into_iter().unzip()
}

#[test]
fn zones_are_marked_as_they_are_written() {
    let zones = ZONES.map(|(zone, offset, mark)| (zone.to_string(), offset, mark));
    let (words, rows) = words_and_rows(&zones);
    check_read(&words, &rows);
}

#[test]
fn dates_without_a_time_have_mark_0() {
    let words = ["1990-158", "1990-06-07", "1990-6-7"].map(String::from);
    check_read(&words, &[row(Parts::Date, 0, 0); 3]);
}

/// From -779 to 779.
fn all_offsets() -> impl Iterator<Item = i16> {
    -779..=779
}

/// The signed zones of an offset: with zeros before the numbers and without,
/// and without minutes where there are none. Zero has either sign.
fn signed_zones(offset: i16) -> Vec<String> {
    let (hour, minute) = (offset.abs() / 60, offset.abs() % 60);
    let mut sizes = vec![format!("{hour:02}:{minute:02}"), format!("{hour}:{minute}")];
    if minute == 0 {
        sizes.extend([format!("{hour:02}"), format!("{hour}")]);
    }
    let signs: &[&str] = match offset {
        ..=-1 => &["-"],
        0 => &["+", "-"],
        1.. => &["+"],
    };
    let mut zones = Vec::new();
    for sign in signs {
        zones.extend(sizes.iter().map(|size| format!("{sign}{size}")));
    }
    zones
}

#[test]
fn every_signed_zone_has_mark_2() {
    let of_offset = |offset| {
        signed_zones(offset)
            .into_iter()
            .map(move |zone| (zone, offset, 2))
    };
    let zones: Vec<(String, i16, u8)> = all_offsets().flat_map(of_offset).collect();
    // Two spellings of each offset, two more of each of 25 whole hours, and all
    // four of zero once more with the other sign.
    assert_eq!(zones.len(), 2 * 1559 + 2 * 25 + 4);
    for zones in zones.chunks(250) {
        let (words, rows) = words_and_rows(zones);
        check_read(&words, &rows);
    }
}

/// The zone that the canonical label has for this offset.
fn written_zone(offset: i16) -> String {
    let (hour, minute) = (offset.abs() / 60, offset.abs() % 60);
    match offset {
        ..=-1 => format!("-{hour:02}:{minute:02}"),
        0 => "Z".to_string(),
        1.. => format!("+{hour:02}:{minute:02}"),
    }
}

#[test]
fn every_offset_is_written_with_its_zone() {
    let times = |date: &str| {
        all_offsets()
            .map(|offset| format!("{date}10:00:00{}", written_zone(offset)))
            .collect::<Vec<_>>()
    };
    let rows = |parts| {
        all_offsets()
            .map(|offset| row(parts, offset, 2))
            .collect::<Vec<_>>()
    };
    check_written(&rows(Parts::Time), &times(""));
    check_written(&rows(Parts::Both), &times("1990-06-07T"));
}

#[test]
fn offset_0_is_written_z_whatever_the_mark() {
    let rows = |parts| [0, 1, 2].map(|mark| row(parts, 0, mark));
    check_written(&rows(Parts::Time), &["10:00:00Z"; 3].map(String::from));
    let form = "1990-06-07T10:00:00Z";
    check_written(&rows(Parts::Both), &[form; 3].map(String::from));
    check_written(&[row(Parts::Date, 0, 0)], &["1990-06-07".to_string()]);
}

#[test]
fn marks_0_and_1_with_a_nonzero_offset_are_refused() {
    for offset in all_offsets().filter(|&offset| offset != 0) {
        for mark in [0, 1] {
            check_row_refused(row(Parts::Time, offset, mark));
            check_row_refused(row(Parts::Both, offset, mark));
        }
    }
}

#[test]
fn marks_above_2_are_refused() {
    for mark in 3..=u8::MAX {
        check_row_refused(row(Parts::Date, 0, mark));
        for offset in [-779, -1, 0, 1, 255, 256, 779] {
            check_row_refused(row(Parts::Time, offset, mark));
            check_row_refused(row(Parts::Both, offset, mark));
        }
    }
}

#[test]
fn marks_other_than_0_without_a_time_are_refused() {
    for mark in 1..=u8::MAX {
        check_row_refused(row(Parts::Date, 0, mark));
    }
}

#[test]
fn offsets_past_their_limit_are_refused_with_every_mark() {
    for offset in [780, -780, i16::MAX, i16::MIN] {
        for mark in 0..=3 {
            check_row_refused(row(Parts::Time, offset, mark));
            check_row_refused(row(Parts::Both, offset, mark));
        }
    }
    for mark in 0..=3 {
        check_row_refused(row(Parts::Date, 1, mark));
        check_row_refused(row(Parts::Date, -1, mark));
    }
}

/// The table of `A` with this value; the row of the value is at 5.
fn table(value: &[u8]) -> Vec<u8> {
    [&[1, 0, 0, 0, 1], value, &[99, 0, 0]].concat()
}

/// Checks that library and model give this answer.
#[track_caller]
fn check_answer(case: Case, expected: compare::Answer) {
    assert_eq!(case.check(), Ok(expected));
}

#[test]
fn all_calls_refuse_a_table_at_a_mark() {
    for improper in [
        row(Parts::Time, 1, 0),
        row(Parts::Both, -1, 1),
        row(Parts::Time, 0, 3),
        row(Parts::Date, 0, 1),
        row(Parts::Date, 0, 2),
    ] {
        for call in [Call::Write, Call::Text, Call::Find] {
            let case = Case::over(call, b"A", &table(&improper));
            check_answer(Case { room: 40, ..case }, (12, 5, 0));
        }
        let case = Case::over(Call::Name, b"A", &table(&improper));
        check_answer(case, (0, 0, 0));
    }
}

#[test]
fn all_calls_take_each_mark_that_may_be() {
    for mark in 0..=2 {
        let over = |call| Case::over(call, b"A", &table(&row(Parts::Time, 0, mark)));
        // `A = 10:00:00Z`, END and their line ends.
        check_answer(
            Case {
                room: 40,
                ..over(Call::Write)
            },
            (0, 20, 20),
        );
        check_answer(over(Call::Text), (15, 0, 0));
        let name = b"a".to_vec();
        check_answer(
            Case {
                name,
                ..over(Call::Find)
            },
            (0, 0, 0),
        );
        check_answer(over(Call::Name), (0, 0, 1));
    }
}

/// A row of 15 bytes takes the first byte behind it for its mark.
#[test]
fn a_row_that_lacks_its_mark_is_refused() {
    let whole = row(Parts::Time, 0, 0);
    let case = |table: &[u8]| Case::over(Call::Write, b"A", table);
    check_answer(case(&table(&whole[..15])), (12, 5, 0));
    check_answer(case(&table(&whole)[..20]), (12, 5, 0));
    check_answer(case(&table(&whole)[..21]), (12, 21, 0));
}

#[test]
fn the_mark_takes_one_byte_of_room() {
    // 5 for the name, 16 for the time, 3 for the last row.
    for value in ["10:00", "10:00Z", "10:00+0", "10:00-1", "1990-158"] {
        let label = format!("A={value} END");
        let end = label.len();
        check_answer(Case::read(label.as_bytes(), 24), (0, end, 24));
        check_answer(Case::read(label.as_bytes(), 23), (11, end, 24));
    }
}

/// A label of zones of every sort.
const MIXED: &[u8] = b"A=(10:00,10:00Z,10:00z,10:00+0,10:00-00:00,10:00+7,1990-158) \
    B={1990-158T10:00,1990-158T10:00Z,1990-158T10:00-0} \
    C=((10:00),(1990-158T10:00,1990-158T10:00-0:30)) END";

/// How it is written.
const MIXED_WRITTEN: &str = "A = (10:00:00Z, 10:00:00Z, 10:00:00Z, 10:00:00Z, 10:00:00Z, \
    10:00:00+07:00, 1990-06-07)\r\n\
    B = {1990-06-07T10:00:00Z, 1990-06-07T10:00:00Z, 1990-06-07T10:00:00Z}\r\n\
    C = ((10:00:00Z), (1990-06-07T10:00:00Z, 1990-06-07T10:00:00-00:30))\r\nEND\r\n";

/// Where its marks stand in its table. Each row of 16 bytes ends with one; A
/// begins at 0, B at 119 and C at 174, and brackets are rows of 1 byte.
const MARKS_AT: [usize; 13] = [21, 37, 53, 69, 85, 101, 117, 140, 156, 172, 196, 214, 230];

/// Those of times with offset 0, which may be any of the three.
const FREE_AT: [usize; 10] = [21, 37, 53, 69, 85, 140, 156, 172, 196, 214];

fn marks(table: &[u8]) -> Vec<u8> {
    MARKS_AT.map(|at| table[at]).to_vec()
}

#[test]
fn what_is_written_is_read_with_the_marks_of_its_zones() {
    let (answer, table) = reading(MIXED, 5 * MIXED.len());
    assert_eq!((answer.code, answer.length), (0, 236));
    assert_eq!(marks(&table), [0, 1, 1, 2, 2, 2, 0, 0, 1, 2, 0, 0, 2]);
    let (_, written) = writing(MIXED, &table);
    assert_eq!(String::from_utf8_lossy(&written), MIXED_WRITTEN);
    let (answer, again) = reading(&written, 5 * written.len());
    assert_eq!((answer.code, answer.length), (0, 236));
    assert_eq!(marks(&again), [1, 1, 1, 1, 1, 2, 0, 1, 1, 1, 1, 1, 2]);
    assert_eq!(writing(&written, &again).1, written);
}

#[test]
fn tables_that_differ_in_marks_alone_are_written_alike() {
    let (_, table) = reading(MIXED, 5 * MIXED.len());
    let meaning = odl_model::meaning(MIXED, &table);
    assert!(meaning.is_some());
    for at in FREE_AT {
        for mark in [0, 1, 2] {
            let mut other = table.clone();
            other[at] = mark;
            assert_eq!(odl_model::meaning(MIXED, &other), meaning);
            assert_eq!(writing(MIXED, &other).1, MIXED_WRITTEN.as_bytes());
        }
    }
}

#[test]
fn tables_that_differ_in_all_marks_are_written_alike() {
    let (_, table) = reading(MIXED, 5 * MIXED.len());
    for mark in [0, 1, 2] {
        let mut other = table.clone();
        for at in FREE_AT {
            other[at] = mark;
        }
        assert_eq!(
            odl_model::meaning(MIXED, &other),
            odl_model::meaning(MIXED, &table)
        );
        assert_eq!(writing(MIXED, &other).1, MIXED_WRITTEN.as_bytes());
    }
}

/// The canonical label's zone stands for others, its offset for no other.
#[test]
fn zones_of_offset_0_mean_the_same() {
    let label = |zone: &str| format!("A=10:00{zone} END").into_bytes();
    for (one, one_offset, _) in ZONES {
        for (other, other_offset, _) in ZONES {
            let told = odl::same_meaning(&label(one), &label(other));
            assert_eq!(told, Ok(one_offset == other_offset), "{one} {other}");
        }
    }
}

#[test]
fn zones_past_a_limit_are_refused() {
    for zone in [
        "+13", "-13", "+13:00", "+99", "-99:59", "+12:60", "-0:60", "+0:99",
    ] {
        check_word_refused(&format!("10:00{zone}"));
        check_word_refused(&format!("1990-158T10:00{zone}"));
    }
}

#[test]
fn zones_of_no_form_are_refused() {
    for word in [
        "1990-158Z",
        "1990-06-07z",
        "1990-158+7",
        "1990-06-07-7",
        "1990-06-07+00:00",
        "10:00+",
        "10:00-",
        "10:00+:30",
        "10:00+007",
        "10:00+0:000",
        "10:00+0:",
        "10:00+0:0:0",
        "10:00ZZ",
        "10:00Z+0",
        "10:00+0Z",
        "10:00+7-7",
        "10:00Y",
        "10:00UTC",
        "10:00+0.0",
    ] {
        let label = format!("A={word} END");
        check_answer(Case::read(label.as_bytes(), 40), (4, 2, 0));
    }
}
