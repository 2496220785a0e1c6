//! Cases of the session book (02 §1) that labels show, worked out by hand; random
//! labels show every one.

use crate::support::*;
use odl_model::random::{self, Random};
use odl_model::sessions::{self, Again, Case, Day, Letters, Members, Other, Value, Zone, NEAR};
use std::collections::BTreeSet;

const LABELS: usize = 20_000;

const MONDAY: usize = 0;
const SUNDAY: usize = 6;

/// The cases of this sort that the label shows.
fn shown(label: &str, sort: fn(&Case) -> bool) -> Vec<Case> {
    let mut shown = sessions::in_label(label.as_bytes());
    shown.retain(sort);
    shown
}

fn of_start_time(value: &str) -> String {
    format!("START_TIME={value} END")
}

#[test]
fn a_label_shows_each_case_once() {
    let sunday = |time| Case::Weekday {
        weekday: SUNDAY,
        time,
    };
    let spelled = |by_day_of_year, time| Case::Spelled {
        by_day_of_year,
        time,
    };
    let upper = Case::Letters(Letters::Upper);
    let (between, first) = (Case::On(Day::Between), Case::Behind(Other::Nothing));
    assert_eq!(
        sessions::in_label(b"START_TIME=1979-07-08 END"),
        [sunday(false), spelled(false, false), between, upper, first]
    );
    let zone = Case::Zone(Zone::DayAfter);
    assert_eq!(
        sessions::in_label(b"START_TIME=1979-189T23:00-2 END"),
        [
            sunday(true),
            spelled(true, true),
            between,
            zone,
            upper,
            first
        ]
    );
    let blocks = [Other::BlockInBlock, Other::InBlockInBlock, Other::AsGroup];
    let mut expected = blocks.map(Case::Without).to_vec();
    expected.sort_unstable();
    let start_times = "START_TIME=1979-07-08 START_TIME=1979-07-09";
    let label = format!("GROUP=START_TIME OBJECT=B {start_times} END_OBJECT END_GROUP END");
    assert_eq!(sessions::in_label(label.as_bytes()), expected);
}

#[test]
fn weekdays_and_spellings_show_their_case() {
    for (weekday, day) in (0..7).zip(2..) {
        for (word, by_day_of_year, time) in [
            (format!("1979-07-0{day}"), false, false),
            (format!("1979-7-{day}t0:0-1"), false, true),
            (format!("1979-{}", 181 + day), true, false),
            (format!("1979-{}T10:00-10:00", 181 + day), true, true),
        ] {
            let sort = |case: &Case| matches!(case, Case::Weekday { .. } | Case::Spelled { .. });
            let expected = [
                Case::Weekday { weekday, time },
                Case::Spelled {
                    by_day_of_year,
                    time,
                },
            ];
            assert_eq!(shown(&of_start_time(&word), sort), expected, "{word}");
        }
    }
}

fn turn(march: bool, leap: bool, hundred: bool) -> Day {
    Day::Turn {
        march,
        leap,
        hundred,
    }
}

/// Dates and all that is said of their day.
fn days() -> Vec<(&'static str, Vec<Day>)> {
    use Day::*;
    vec![
        (
            "0001-01-01",
            vec![FirstOfAll, FirstOfYear, FirstOfMonth, BeforeUse],
        ),
        ("0001-01-02", vec![Between, BeforeUse]),
        ("9999-12-31", vec![LastOfAll, LastOfYear, LastOfMonth]),
        ("9999-12-30", vec![Between]),
        ("1582-10-14", vec![Between, BeforeUse]),
        ("1582-10-15", vec![Between]),
        ("1979-001", vec![FirstOfYear, FirstOfMonth]),
        ("1979-365", vec![LastOfYear, LastOfMonth]),
        ("1979-04-30", vec![LastOfMonth]),
        ("1979-05-01", vec![FirstOfMonth]),
        ("1979-02-27", vec![Between]),
        ("1979-02-28", vec![LastOfMonth, turn(false, false, false)]),
        ("1979-03-01", vec![FirstOfMonth, turn(true, false, false)]),
        ("2004-02-28", vec![Between]),
        ("2004-02-29", vec![LastOfMonth, turn(false, true, false)]),
        ("2004-03-01", vec![FirstOfMonth, turn(true, true, false)]),
        ("1900-02-28", vec![LastOfMonth, turn(false, false, true)]),
        ("1900-03-01", vec![FirstOfMonth, turn(true, false, true)]),
        ("2000-02-29", vec![LastOfMonth, turn(false, true, true)]),
        ("2000-03-01", vec![FirstOfMonth, turn(true, true, true)]),
    ]
}

#[test]
fn days_show_their_cases() {
    for (word, days) in days() {
        let expected: Vec<Case> = days.into_iter().map(Case::On).collect();
        for word in [word.to_string(), format!("{word}T12:00")] {
            let label = of_start_time(&word);
            assert_eq!(shown(&label, |case| matches!(case, Case::On(_))), expected);
        }
    }
}

const ZONES: [(&str, Zone); 17] = [
    ("1979-07-08T12:00", Zone::None),
    ("1979-07-08T12:00Z", Zone::Z),
    ("1979-07-08T12:00z", Zone::Z),
    ("1979-07-08T00:00+0", Zone::Zero),
    ("1979-07-08T23:59-00:00", Zone::Zero),
    ("1979-07-08T00:01+00:01", Zone::SameDay),
    ("1979-07-08T23:58:59-00:01", Zone::SameDay),
    ("1979-07-08T12:59+12:59", Zone::SameDay),
    ("1979-07-08T00:00:59+00:01", Zone::DayBefore),
    ("1979-07-08T12:58+12:59", Zone::DayBefore),
    ("1979-07-08T23:59-00:01", Zone::DayAfter),
    ("1979-07-08T11:01-12:59", Zone::DayAfter),
    ("0001-01-01T00:59+1", Zone::BeforeFirstOfAll),
    ("0001-01-01T23:00-1", Zone::DayAfter),
    ("9999-12-31T23:00-1", Zone::AfterLastOfAll),
    ("9999-12-31T00:59+1", Zone::DayBefore),
    ("9999-12-30T23:00-1", Zone::DayAfter),
];

#[test]
fn zones_show_where_the_day_would_be() {
    let sort = |case: &Case| matches!(case, Case::Zone(_));
    for (word, zone) in ZONES {
        let expected = [Case::Zone(zone)];
        assert_eq!(shown(&of_start_time(word), sort), expected, "{word}");
    }
    assert_eq!(shown(&of_start_time("1979-07-08"), sort), []);
}

const LETTERS: [(&str, Letters); 4] = [
    ("START_TIME", Letters::Upper),
    ("start_time", Letters::Lower),
    ("Start_Time", Letters::Mixed),
    ("START_TIMe", Letters::Mixed),
];

#[test]
fn letters_show_their_case() {
    for (name, letters) in LETTERS {
        let label = format!("{name}=1979-07-08 END");
        let given = shown(&label, |case| matches!(case, Case::Letters(_)));
        assert_eq!(given, [Case::Letters(letters)]);
    }
}

const VALUES: [(&str, Value); 31] = [
    ("1979", Value::Integer { units: false }),
    ("-5 <KM>", Value::Integer { units: true }),
    ("10#5#", Value::BasedInteger { units: false }),
    ("16#F# <KM/SEC**2>", Value::BasedInteger { units: true }),
    ("1979.", Value::Real { units: false }),
    ("1E5 <KM>", Value::Real { units: true }),
    ("12:00", Value::Time),
    ("12:00Z", Value::Time),
    ("\"Sunday\"", Value::Text { of_date: false }),
    ("\"1979-07-08 \"", Value::Text { of_date: false }),
    ("\"\"", Value::Text { of_date: false }),
    ("\"1979-07-08\"", Value::Text { of_date: true }),
    ("'12:00'", Value::Quoted { of_date: false }),
    ("'1979-189T12:00'", Value::Quoted { of_date: true }),
    ("SUNDAY", Value::Name),
    ("T", Value::Name),
    ("(1979-07-08)", Value::Sequence(Members::OneDate)),
    ("(12:00)", Value::Sequence(Members::Others)),
    ("(1979-07-08,1979-07-08)", Value::Sequence(Members::Dates)),
    ("(1979-07-08,12:00)", Value::Sequence(Members::Others)),
    ("(1 <KM>)", Value::Sequence(Members::Others)),
    ("((1979-07-08))", Value::Rows(Members::OneDate)),
    ("((1979-07-08),(1979-07-08))", Value::Rows(Members::Dates)),
    ("((1979-07-08,1979-07-08))", Value::Rows(Members::Dates)),
    ("((1979-07-08),(A))", Value::Rows(Members::Others)),
    ("{}", Value::Set(Members::None)),
    ("{ /* 1979-07-08 */\n }", Value::Set(Members::None)),
    ("{1979-07-08T12:00}", Value::Set(Members::OneDate)),
    ("{1979-07-08,1979-189}", Value::Set(Members::Dates)),
    ("{A}", Value::Set(Members::Others)),
    ("{1979-07-08,'A'}", Value::Set(Members::Others)),
];

#[test]
fn undated_values_show_their_case() {
    for (value, sort) in VALUES {
        for behind in ["", "A=1 ", "START_TIME=UNKNOWN ", "OBJECT=B END_OBJECT "] {
            let label = format!("START_TIME={value} {behind}END");
            let expected = [Case::Undated(sort)];
            assert_eq!(sessions::in_label(label.as_bytes()), expected, "{label}");
        }
    }
}

/// Statements that decide nothing, and what they are; dates in them are Mondays.
#[rustfmt::skip]
const OTHERS: [(&str, &[Other]); 27] = [
    ("", &[Other::Nothing]),
    ("A=1979-07-09", &[Other::Attribute]),
    ("A=1", &[]),
    ("^A=1979-07-09", &[Other::Pointer]),
    ("^A={1979-07-09}", &[]),
    ("OBJECT=A END_OBJECT", &[Other::Object]),
    ("OBJECT=A A=1979-07-09 END_OBJECT=A", &[Other::Object]),
    ("GROUP=A END_GROUP=a", &[Other::Group]),
    ("GROUP=A OBJECT=B END_OBJECT END_GROUP", &[Other::Group, Other::BlockInBlock]),
    ("OBJECT=A START_TIME=1979-07-09 END_OBJECT", &[Other::Object, Other::InObject]),
    ("object=A start_time=1979-190 end_object", &[Other::Object, Other::InObject]),
    ("OBJECT=A START_TIME=0 END_OBJECT", &[Other::Object]),
    ("GROUP=A START_TIME=1979-07-09 END_GROUP", &[Other::Group, Other::InGroup]),
    ("GROUP=A ^START_TIME=1979-07-09 END_GROUP", &[Other::Group]),
    (
        "OBJECT=A GROUP=B START_TIME=1979-07-09 END_GROUP END_OBJECT",
        &[Other::Object, Other::BlockInBlock, Other::InBlockInBlock],
    ),
    ("^START_TIME=1979-07-09T10:00", &[Other::AsPointer]),
    ("^START_TIME=0", &[]),
    ("OBJECT=START_TIME END_OBJECT", &[Other::AsObject]),
    ("GROUP=Start_Time END_GROUP=START_TIME", &[Other::AsGroup]),
    ("A=START_TIME", &[Other::AsSymbol]),
    ("A=(B,'start_time')", &[Other::AsSymbol]),
    ("A='START_TIME '", &[]),
    ("A=1 <START_TIME>", &[Other::AsUnit]),
    ("A={1 <M>, 1.5 <M/START_TIME*S>}", &[Other::AsUnit]),
    ("A=\"In START_TIME\"", &[Other::InText]),
    ("/* START_TIME */\n", &[Other::Nothing, Other::InGap]),
    ("/**/ start_time=1979-07-09\n", &[Other::Nothing, Other::InGap]),
];

/// These, and names that are nearly START_TIME.
fn others() -> Vec<(String, Vec<Other>)> {
    let listed = OTHERS.map(|(statements, others)| (statements.to_string(), others.to_vec()));
    let mut all = listed.to_vec();
    for near in NEAR {
        all.push((format!("{near}=1979-07-09"), vec![Other::Near(near)]));
        let lower = near.to_ascii_lowercase();
        all.push((lower + "=1979-190T1:0", vec![Other::Near(near)]));
        all.push((format!("{near}=12:00"), vec![]));
    }
    all
}

#[test]
fn labels_without_a_start_time_show_what_they_have() {
    for (statements, others) in others() {
        let expected: Vec<Case> = others.into_iter().map(Case::Without).collect();
        let label = format!("{statements} END");
        assert_eq!(sessions::in_label(label.as_bytes()), expected, "{label}");
    }
    let behind_end = [Other::Nothing, Other::BehindEnd].map(Case::Without);
    assert_eq!(
        sessions::in_label(b"END\nstart_time=1979-07-09"),
        behind_end
    );
}

#[test]
fn labels_with_a_start_time_show_what_is_before_it() {
    let sort = |case: &Case| matches!(case, Case::Behind(_));
    for (statements, others) in others() {
        let expected: Vec<Case> = others.into_iter().map(Case::Behind).collect();
        let label = format!("{statements} START_TIME=1979-07-08 A=1979-07-10 END");
        assert_eq!(shown(&label, sort), expected, "{label}");
        let label = format!("{statements} START_TIME=UNKNOWN END");
        assert_eq!(shown(&label, sort), [], "{label}");
    }
    // What has the same weekday shows nothing.
    for statement in [
        "A=1979-07-08",
        "^START_TIME=1979-07-01",
        "STOP_TIME=1979-07-15",
    ] {
        let label = format!("{statement} START_TIME=1979-07-08 END");
        assert_eq!(shown(&label, sort), [], "{label}");
    }
}

#[test]
fn second_ones_show_their_case() {
    use Again::*;
    let sort = |case: &Case| matches!(case, Case::Again(_));
    for (statements, expected) in [
        ("START_TIME=1979-07-08", &[][..]),
        ("START_TIME=1979-07-08 START_TIME=1979-07-15", &[]),
        (
            "START_TIME=1979-07-08 START_TIME=1979-07-09",
            &[OtherWeekday],
        ),
        (
            "START_TIME=1979-07-08 START_TIME=12:00",
            &[UndatedBehindDated],
        ),
        (
            "START_TIME=12:00 START_TIME=1979-07-08",
            &[DatedBehindUndated],
        ),
        ("START_TIME=12:00 ^START_TIME=1979-07-08", &[]),
        (
            "START_TIME=1 GROUP=A START_TIME=1979-07-08 END_GROUP",
            &[InBlockBehindUndated],
        ),
        (
            "START_TIME=1979-07-08 GROUP=A START_TIME=1979-07-09 END_GROUP",
            &[],
        ),
        ("GROUP=A START_TIME=1979-07-08 END_GROUP START_TIME=1", &[]),
    ] {
        let expected: Vec<Case> = expected.iter().copied().map(Case::Again).collect();
        assert_eq!(
            shown(&format!("{statements} END"), sort),
            expected,
            "{statements}"
        );
    }
}

#[test]
fn refused_labels_show_none() {
    for label in [
        "",
        "START_TIME=1979-07-08",
        "START_TIME=1979-02-29 END",
        "START_TIME=1979-07-08 END;",
    ] {
        assert_eq!(sessions::in_label(label.as_bytes()), [], "{label}");
        assert_eq!(sessions::counter(label.as_bytes()), None, "{label}");
    }
}

#[test]
fn counters_are_told_from_the_elements() {
    for (label, counter) in [
        ("START_TIME=1979-07-08 END", SUNDAY),
        (
            "OBJECT=A START_TIME=1979-07-08 END_OBJECT start_time=1979-07-09 END",
            MONDAY,
        ),
        ("START_TIME=(1979-07-08) START_TIME=1979-07-08 END", 7),
        ("^START_TIME=1979-07-08 END", 7),
    ] {
        assert_eq!(
            sessions::counter(label.as_bytes()),
            Some(counter),
            "{label}"
        );
    }
}

/// Every case is named above, and no other.
#[test]
fn there_are_no_more_cases() {
    let mut named: BTreeSet<Case> = days()
        .into_iter()
        .flat_map(|(_, days)| days)
        .map(Case::On)
        .collect();
    named.extend(ZONES.map(|(_, zone)| Case::Zone(zone)));
    named.extend(LETTERS.map(|(_, letters)| Case::Letters(letters)));
    named.extend(VALUES.map(|(_, value)| Case::Undated(value)));
    for other in others().into_iter().flat_map(|(_, others)| others) {
        named.extend([Case::Without(other), Case::Behind(other)]);
    }
    named.insert(Case::Without(Other::BehindEnd));
    let mut all = sessions::all();
    all.retain(|case| {
        !matches!(
            case,
            Case::Weekday { .. } | Case::Spelled { .. } | Case::Again(_)
        )
    });
    assert_eq!(named.into_iter().collect::<Vec<_>>(), all);
    // Weekdays with and without a time, spellings likewise, second ones.
    assert_eq!(sessions::all().len(), all.len() + 14 + 4 + 4);
}

#[test]
fn random_labels_of_sessions_show_every_case() {
    let mut random = Random::new(33);
    let shown = (0..LABELS).flat_map(|_| {
        let label = random::session_label(&mut random);
        assert_eq!(reading(&label).0.code, 0, "{}", escaped(&label));
        sessions::in_label(&label)
    });
    check_shown(sessions::all(), shown);
}
