//! The list of sessions, each taken by the model.

use crate::support::{escaped, unescaped};
use odl_model::book::Book;
use odl_model::{take, Answer};
use std::collections::HashSet;

const LIST: &str = include_str!("../../../../examples/sessions.txt");

const COUNTERS: [&str; 8] = [
    "Monday",
    "Tuesday",
    "Wednesday",
    "Thursday",
    "Friday",
    "Saturday",
    "Sunday",
    "undated",
];

struct Session {
    name: &'static str,
    label: Vec<u8>,
    room: usize,
    before: Book,
    answer: Answer,
    after: Book,
}

fn sessions() -> impl Iterator<Item = Session> {
    let is_session = |line: &&str| !line.is_empty() && !line.starts_with('#');
    LIST.lines().filter(is_session).map(|line| {
        let fields: Vec<&str> = line.split('\t').collect();
        let [name, _place, label, room, book, answer, counter, _shows] = fields[..] else {
            panic!("not eight fields: {line}");
        };
        let label = unescaped(label);
        let before = match book {
            "empty" => [0; 8],
            counts => numbers(counts),
        };
        let [code, place, length]: [usize; 3] = numbers(answer);
        Session {
            name,
            room: match room {
                "ample" => 5 * label.len(),
                length => length.parse().unwrap(),
            },
            label,
            before,
            answer: Answer {
                code: code as u8,
                place,
                length,
            },
            after: counted(before, counter),
        }
    })
}

fn numbers<N: std::str::FromStr, const COUNT: usize>(text: &str) -> [N; COUNT] {
    let numbers: Option<Vec<N>> = text.split(' ').map(|n| n.parse().ok()).collect();
    let numbers: Option<[N; COUNT]> = numbers.and_then(|numbers| numbers.try_into().ok());
    numbers.unwrap_or_else(|| panic!("not {COUNT} numbers: {text}"))
}

fn counted(mut book: Book, counter: &str) -> Book {
    match COUNTERS.iter().position(|name| *name == counter) {
        Some(at) => book[at] += 1,
        None => assert_eq!(counter, "none"),
    }
    book
}

#[test]
fn the_model_takes_every_listed_session() {
    assert!(sessions().count() > 150);
    for session in sessions() {
        let (mut book, mut table) = (session.before, vec![0; session.room]);
        let answer = take(&mut book, &session.label, &mut table);
        assert_eq!(answer, session.answer, "{}", session.name);
        assert_eq!(book, session.after, "{}", session.name);
    }
}

#[test]
fn the_list_has_every_counter_and_every_code_but_that_of_long_labels() {
    let counted = |session: Session| (0..8).find(|&at| session.before[at] != session.after[at]);
    let counters: HashSet<usize> = sessions().filter_map(counted).collect();
    assert_eq!(counters, (0..8).collect());
    let codes: HashSet<u8> = sessions().map(|session| session.answer.code).collect();
    assert_eq!(codes, (2..=11).chain([0, 16]).collect());
}

#[test]
fn names_are_unique_and_labels_escaped_in_one_way() {
    let mut seen = HashSet::new();
    for session in sessions() {
        assert!(seen.insert(session.name), "{}", session.name);
    }
    for line in LIST.lines().filter(|line| line.contains('\t')) {
        let label = line.split('\t').nth(2).unwrap();
        assert_eq!(escaped(&unescaped(label)), label);
    }
}
