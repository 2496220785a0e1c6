//! Tables and written labels about as long as the array of 16,384 bytes that
//! the library fills before it touches the room, and much longer ones: the
//! place where the array is full may fall anywhere in a row. Sessions too, whose
//! START_TIME stands about there.

use compare::{Call, Case};
use odl_model::random::{self, Random};

const ARRAY: usize = 16_384;

/// Statements, each with the length of its rows.
const STATEMENTS: [(&str, usize); 7] = [
    ("A=12\n", 5 + 9),
    ("A=B\n", 5 + 5),
    ("A={}\n", 5 + 2),
    ("A=2026-11-15T08:00+01:00\n", 5 + 16),
    ("A=((B),(C))\n", 5 + 2 + 2 * 7),
    ("A=-1.5E-17\n", 5 + 11),
    ("A=15E9\n", 5 + 11),
];

/// The row of END.
const LAST: usize = 3;

/// A label whose table has this length. Its statements come in the order that
/// the number gives, so that the last rows before a place differ.
fn label_for(table: usize, number: usize) -> Vec<u8> {
    let mut rest = Vec::new();
    let mut left = table - LAST;
    for at in number.. {
        let (statement, rows) = STATEMENTS[(at * at + at / 3) % STATEMENTS.len()];
        if left < 200 {
            break;
        }
        rest.extend_from_slice(statement.as_bytes());
        left -= rows;
    }
    // What is left is at least 179, and any such number is sevens and tens. It
    // stands first, so that the array is full among the other statements.
    let tens = (0..7).find(|tens| (left - 10 * tens) % 7 == 0).unwrap();
    let mut label = "A=B\n".repeat(tens).into_bytes();
    label.extend("A={}\n".repeat((left - 10 * tens) / 7).bytes());
    label.extend(rest);
    label.extend(b"END\n");
    label
}

#[test]
fn tables_about_as_long_as_the_array_agree() {
    for table in ARRAY - 20..=ARRAY + 20 {
        for number in 0..12 {
            let case = Case::read(&label_for(table, number), 0);
            assert_eq!(case.room_needed(), table);
            case.check_rooms().unwrap_or_else(|text| panic!("{text}"));
        }
    }
}

/// The label, with a START_TIME behind its other statements: 21 bytes of rows.
fn with_start_time(mut label: Vec<u8>) -> Vec<u8> {
    label.truncate(label.len() - b"END\n".len());
    label.extend(b"START_TIME=1979-07-08 END\n");
    label
}

#[test]
fn sessions_whose_start_time_is_about_where_the_array_ends_agree() {
    for before in ARRAY - 30..=ARRAY + 10 {
        let label = with_start_time(label_for(before, before));
        for book in [[0; 8], [125_000; 8]] {
            let case = Case::take(book, &label, 0);
            assert_eq!(case.room_needed(), before + 21);
            case.check_rooms().unwrap_or_else(|text| panic!("{text}"));
        }
    }
}

#[test]
fn sessions_with_long_tables_agree() {
    for before in [ARRAY, 2 * ARRAY, 65_535, 80_000] {
        let last = with_start_time(label_for(before, 0));
        let first = [b"start_time=1979-07-09T00:30+1 ", &last[..]].concat();
        for (label, weekday) in [(last, 6), (first, 0)] {
            let mut book = odl::raw::Book { counts: [0; 8] };
            let mut room = vec![0; 5 * label.len()];
            assert_eq!(odl::raw::take(&mut book, &label, &mut room).code, 0);
            assert_eq!((book.counts[weekday], book.counts[7]), (1, 0));
            for book in [[0; 8], [u32::MAX; 8]] {
                let rooms = Case::take(book, &label, 0).check_rooms();
                rooms.unwrap_or_else(|text| panic!("{text}"));
            }
        }
    }
}

/// Whether the array is full in the midst of a real of this longer label.
fn parts_a_real(written: &[u8]) -> bool {
    ["-0.000000000000000015", "15000000000.0"]
        .iter()
        .flat_map(|form| (1..form.len()).map(move |before| (form, ARRAY - before)))
        .any(|(form, at)| written[at..].starts_with(form.as_bytes()))
}

#[test]
fn labels_written_about_as_long_as_the_array_agree() {
    let mut lengths = std::collections::BTreeSet::new();
    let mut parted = 0;
    for table in (ARRAY - 3_000..ARRAY + 1_000).step_by(13) {
        let label = label_for(table, table);
        let table = random::table_of(&label);
        let case = Case::over(Call::Write, &label, &table);
        lengths.insert(case.room_needed().abs_diff(ARRAY) / 100);
        let written = odl_model::relabel(&label);
        parted += usize::from(written.len() > ARRAY && parts_a_real(&written));
        case.check_rooms().unwrap_or_else(|text| panic!("{text}"));
    }
    assert!(
        lengths.contains(&0),
        "no label was about as long: {lengths:?}"
    );
    assert!(parted > 20, "the array was full in {parted} reals");
}

#[test]
fn long_labels_good_and_damaged_agree() {
    let mut random = Random::new(5);
    let mut longer = 0;
    for _ in 0..400 {
        let mut label = random::long_label(&mut random);
        let case = Case::read(&label, 0);
        longer += usize::from(case.room_needed() > ARRAY);
        case.check_rooms().unwrap_or_else(|text| panic!("{text}"));
        random::damage(&mut random, &mut label);
        let case = Case::read(&label, 0);
        case.check_rooms().unwrap_or_else(|text| panic!("{text}"));
    }
    assert!(longer > 200, "{longer} tables longer than the array");
}
