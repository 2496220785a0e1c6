//! What must hold of every label and every table, tried on random ones.

use crate::support::*;
use odl_model::random::{self, Random};
use odl_model::{find, meaning, name, read, relabel, text, write, LONGEST_LABEL};
use std::collections::BTreeSet;

const LABELS: usize = 10_000;
const TABLES: usize = 10_000;

#[test]
fn good_labels_are_accepted() {
    let mut random = Random::new(1);
    for _ in 0..LABELS {
        let label = random::good_label(&mut random);
        let (answer, table) = reading(&label);
        let expected = if label.len() > LONGEST_LABEL { 1 } else { 0 };
        assert_eq!(answer.code, expected, "{answer:?} {}", escaped(&label));
        assert_eq!(answer.length, table.len());
    }
}

#[test]
fn room_is_used_only_on_success() {
    let mut random = Random::new(2);
    let mut accepted = 0;
    for _ in 0..LABELS {
        let label = random::label(&mut random);
        let (answer, table) = reading(&label);
        assert!(answer.place <= label.len().min(LONGEST_LABEL));
        match answer.code {
            0 => {
                accepted += 1;
                check_exact_room(|room| read(&label, room));
                assert_eq!(offset(&table[table.len() - 2..]), answer.place);
            }
            _ => assert_eq!(answer.length, 0),
        }
    }
    assert!(accepted > LABELS / 4 && accepted < LABELS * 3 / 4);
}

#[test]
fn only_what_stands_up_to_end_counts() {
    let mut random = Random::new(3);
    let mut longer = 0;
    for _ in 0..LABELS {
        let label = random::good_label(&mut random);
        let (answer, table) = reading(&label);
        if answer.code == 0 {
            longer += usize::from(answer.place < label.len());
            assert_eq!(reading(&label[..answer.place]), (answer, table));
        }
    }
    assert!(longer > LABELS / 4);
}

#[test]
fn written_labels_read_back_with_the_same_meaning() {
    let mut random = Random::new(4);
    let mut written_back = 0;
    for _ in 0..LABELS {
        let label = random::good_label(&mut random);
        let (answer, table) = reading(&label);
        let (written_answer, written) = writing(&label, &table);
        if answer.code != 0 || written_answer.code != 0 {
            continue;
        }
        written_back += 1;
        let (again, table_again) = reading(&written);
        assert_eq!((again.code, again.place), (0, written.len() - 2));
        let meant = meaning(&label, &table).unwrap();
        assert_eq!(meaning(&written, &table_again).unwrap(), meant);
        assert_eq!(writing(&written, &table_again).1, written);
        if table.len() <= LONGEST_LABEL {
            assert_eq!(relabel(&label), written);
        }
    }
    assert!(written_back > LABELS * 9 / 10);
}

#[test]
fn tables_are_judged_alike_by_all_calls() {
    let mut random = Random::new(5);
    for _ in 0..TABLES {
        let case = random::table_case(&mut random);
        let (label, table) = (&case.label[..], &case.table[..]);
        let (written, _) = writing(label, table);
        let (text_answer, _) = filled(|room| text(label, table, case.row, room));
        let (code, place, at) = find(label, table, &case.name, case.row);
        let (start, end) = name(label, table, case.row);
        assert!(start <= end && end <= label.len().min(LONGEST_LABEL));
        match written.code {
            1 | 12 => {
                assert_eq!(text_answer, written);
                assert_eq!((code, place, at), (written.code, written.place, 0));
                assert_eq!((start, end), (0, 0));
                assert!(written.place <= table.len() || written.code == 1);
            }
            0 => {
                check_exact_room(|room| write(label, table, room));
                check_found(&case, code, at);
            }
            _ => check_found(&case, code, at),
        }
    }
}

fn check_found(case: &random::TableCase, code: u8, at: usize) {
    if code != 0 {
        assert!(matches!(code, 14 | 15) && at == 0);
        return;
    }
    assert!(at >= case.row);
    assert_eq!(case.table[at], 1);
    let (start, end) = name(&case.label, &case.table, at);
    assert!(case.label[start..end].eq_ignore_ascii_case(&case.name));
}

#[test]
fn improper_tables_are_proper_before_their_place() {
    let mut random = Random::new(6);
    let mut improper = 0;
    for _ in 0..TABLES {
        let case = random::table_case(&mut random);
        let (answer, _) = writing(&case.label, &case.table);
        if answer.code == 12 {
            improper += 1;
            // Cut off there, the rows are faultless: they lack their end, or
            // they have it and what follows was too much.
            let cut = writing(&case.label, &case.table[..answer.place]).0;
            assert!(cut.code != 12 || cut.place == answer.place);
        }
    }
    assert!(improper > TABLES / 5);
}

#[test]
fn the_generator_reaches_every_code() {
    let mut random = Random::new(7);
    let mut codes = BTreeSet::new();
    for _ in 0..LABELS {
        let label = random::label(&mut random);
        codes.insert(read(&label, &mut [0; 40]).code);
    }
    for _ in 0..TABLES {
        let case = random::table_case(&mut random);
        codes.insert(write(&case.label, &case.table, &mut [0; 40]).code);
        codes.insert(text(&case.label, &case.table, case.row, &mut []).code);
        codes.insert(find(&case.label, &case.table, &case.name, case.row).0);
    }
    assert_eq!(codes, (0..=15).collect());
}

#[test]
fn the_generator_repeats_itself() {
    let labels = |seed| {
        let mut random = Random::new(seed);
        let labels: Vec<Vec<u8>> = (0..200).map(|_| random::label(&mut random)).collect();
        labels
    };
    assert_eq!(labels(8), labels(8));
    assert_ne!(labels(8), labels(9));
}
