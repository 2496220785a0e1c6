//! Random cases; ODL_SEED chooses others.

use crate::support::seed;
use compare::chance::{self, Tally, Until, NO_KINDS, ROWS_WRITTEN};
use compare::{books, Call};
use odl::Row;
use odl_model::random::Random;
use odl_model::{dates, reals, rows, sessions, zones};
use std::io::Write;

const CASES: u64 = 205_000;

/// Every case of the rule for rows, of written reals, of the calendar and
/// decimals, of zones and their marks, of the session book, and of kinds that no
/// row has must come up more often than this.
const LEAST: u64 = 20;

#[test]
fn random_cases_agree_and_reach_every_code_and_case() {
    let seed = seed();
    // Past the test's capture, so that it is seen even if the library crashes.
    let _ = writeln!(std::io::stderr(), "random cases with seed {seed}");
    let tally = chance::run(seed, Until::Cases(CASES)).unwrap_or_else(|text| panic!("{text}"));
    assert_eq!(tally.codes.values().sum::<u64>(), CASES);
    check_codes(&tally);
    for case in rows::names().chain([ROWS_WRITTEN]) {
        let count = tally.rows.get(case).copied().unwrap_or(0);
        assert!(count > LEAST, "{case}: {count}");
    }
    check_reals(&tally);
    check_dates(&tally);
    check_zones(&tally);
    check_sessions(&tally);
    let no_kinds = NO_KINDS.iter().zip(tally.no_kinds);
    let rare: Vec<_> = no_kinds.filter(|&(_, count)| count <= LEAST).collect();
    assert!(rare.is_empty(), "{rare:?}");
}

/// Reals of tables and of labels were written in every case, and tables were
/// refused for a real in every case.
fn check_reals(tally: &Tally) {
    let of_tables = reals::names().chain(reals::improper_names());
    let cases = of_tables.map(|case| (Call::Write, case));
    for case in cases.chain(reals::names().map(|case| (Call::Rewrite, case))) {
        let count = tally.reals.get(&case).copied().unwrap_or(0);
        assert!(count > LEAST, "{case:?}: {count}");
    }
}

/// Labels were read and refused in every case of the calendar and of decimals,
/// and tables were written and refused in every case of the calendar.
fn check_dates(tally: &Tally) {
    let of_labels = dates::of_labels()
        .into_iter()
        .map(|case| (Call::Read, case));
    let of_tables = dates::of_tables()
        .into_iter()
        .map(|case| (Call::Write, case));
    for case in of_labels.chain(of_tables) {
        let count = tally.dates.get(&case).copied().unwrap_or(0);
        assert!(count > LEAST, "{case:?}: {count}");
    }
}

/// Labels were read with every zone, tables were written and refused with every
/// mark, and labels of every mark were read and then written.
fn check_zones(tally: &Tally) {
    let of_labels = zones::of_labels().into_iter();
    let of_tables = zones::of_tables().into_iter();
    let proper = of_tables.clone().filter(|case| !case.is_refused());
    let cases = of_labels.map(|case| (Call::Read, case));
    let cases = cases.chain(of_tables.map(|case| (Call::Write, case)));
    for case in cases.chain(proper.map(|case| (Call::Rewrite, case))) {
        let count = tally.zones.get(&case).copied().unwrap_or(0);
        assert!(count > LEAST, "{case:?}: {count}");
    }
}

/// Labels were taken in every case of the session book, with books and rooms in
/// every case; in histories labels were taken, and refused by the label, the room
/// and the book.
fn check_sessions(tally: &Tally) {
    for case in sessions::all() {
        let count = tally.sessions.get(&case).copied().unwrap_or(0);
        assert!(count > LEAST, "{case:?}: {count}");
    }
    for case in books::all() {
        let count = tally.takings.get(&case).copied().unwrap_or(0);
        assert!(count > LEAST, "{case:?}: {count}");
    }
    for codes in [0..=0, 1..=10, 11..=11, 16..=16] {
        let count: u64 = tally.histories.range(codes.clone()).map(|(_, n)| n).sum();
        assert!(count > LEAST, "codes {codes:?} in histories: {count}");
    }
}

/// Every call answered with every code that it has.
fn check_codes(tally: &Tally) {
    let expected: [(Call, &[u8]); 7] = [
        (Call::Read, &[0, 1, 2, 3, 4, 5, 6, 7, 8, 9, 10, 11]),
        (Call::Write, &[0, 1, 11, 12, 13]),
        (Call::Rewrite, &[0, 1, 2, 3, 4, 5, 6, 7, 8, 9, 10, 11, 13]),
        (Call::Text, &[0, 1, 11, 12, 15]),
        (Call::Find, &[0, 1, 12, 14, 15]),
        (Call::Name, &[0, 15]),
        (Call::Take, &[0, 1, 2, 3, 4, 5, 6, 7, 8, 9, 10, 11, 16]),
    ];
    let expected: Vec<(Call, u8)> = expected
        .iter()
        .flat_map(|&(call, codes)| codes.iter().map(move |&code| (call, code)))
        .collect();
    let reached: Vec<(Call, u8)> = tally.codes.keys().copied().collect();
    assert_eq!(reached, expected);
}

/// The name that a row shows, as the label has it.
fn name_of(row: Row<'_>) -> Option<&str> {
    let name = match row {
        Row::Attribute(name) | Row::Pointer(name) => name,
        Row::Object(name) | Row::Group(name) | Row::Symbol(name) => name,
        Row::Unit { name, .. } => name,
        _ => return None,
    };
    Some(name.as_written())
}

#[test]
fn random_relabelling_agrees_and_rows_decode() {
    let mut random = Random::new(3);
    let mut accepted = 0;
    for _ in 0..5_000 {
        let label = odl_model::random::label(&mut random);
        let library = odl::relabel(&label).unwrap_or_else(|error| {
            format!("REFUSED {} {}\r\n", error.code as u8, error.place).into_bytes()
        });
        let shown = label.escape_ascii();
        assert_eq!(library, odl_model::relabel(&label), "{shown}");
        // Each name and text is looked up anew, which is too much for long ones.
        let Ok(read) = odl::read(&label) else {
            continue;
        };
        accepted += 1;
        let looked_up = label.len() < 2_000;
        let mut end = 0;
        for entry in &read {
            assert_eq!(entry.offset, end, "{shown}");
            end = entry.next;
            if looked_up {
                assert_eq!(read.name(entry.offset), name_of(entry.row), "{shown}");
                let is_text = matches!(entry.row, Row::Text(_));
                assert_eq!(read.text(entry.offset).is_ok(), is_text, "{shown}");
            }
        }
        assert_eq!(end, read.table().as_bytes().len(), "{shown}");
        // What the header promises of the room needed.
        assert!(end <= 5 * label.len(), "{shown}");
    }
    assert!(
        (1_000..4_000).contains(&accepted),
        "{accepted} labels accepted"
    );
}
