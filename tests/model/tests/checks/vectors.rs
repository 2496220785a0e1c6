//! The list of examples, each compared with the model.

use crate::support::{described, escaped, reading, unescaped};
use odl_model::Answer;
use std::collections::HashSet;

const LIST: &str = include_str!("../../../../examples/vectors.txt");

struct Example {
    name: &'static str,
    label: Vec<u8>,
    answer: Answer,
    rows: &'static str,
}

fn examples() -> impl Iterator<Item = Example> {
    LIST.lines()
        .filter(|line| !line.is_empty() && !line.starts_with('#'))
        .map(|line| {
            let fields: Vec<&str> = line.split('\t').collect();
            let [name, _place, label, answer, rows] = fields[..] else {
                panic!("not five fields: {line}");
            };
            let label = unescaped(label);
            let answer = parsed_answer(answer);
            Example {
                name,
                label,
                answer,
                rows,
            }
        })
}

fn parsed_answer(text: &str) -> Answer {
    let numbers: Vec<usize> = text.split(' ').map(|n| n.parse().unwrap()).collect();
    let [code, place, length] = numbers[..] else {
        panic!("not three numbers: {text}");
    };
    Answer {
        code: code as u8,
        place,
        length,
    }
}

#[test]
fn the_model_gives_every_listed_answer() {
    let mut wrong = Vec::new();
    assert!(examples().count() > 200);
    for example in examples() {
        let (answer, table) = reading(&example.label);
        let same_rows = match answer.code {
            0 => described(&example.label, &table) == example.rows,
            _ => example.rows.starts_with("refused: "),
        };
        if answer != example.answer || !same_rows {
            wrong.push(format!(
                "{}: {answer:?} {}",
                example.name,
                described(&example.label, &table)
            ));
        }
    }
    assert!(wrong.is_empty(), "{}", wrong.join("\n"));
}

#[test]
fn names_are_unique_and_fit_for_source() {
    let mut seen = HashSet::new();
    for example in examples() {
        let plain = |c: char| c.is_ascii_lowercase() || c.is_ascii_digit() || c == '_';
        assert!(example.name.chars().all(plain), "{}", example.name);
        assert!(seen.insert(example.name), "{}", example.name);
    }
}

#[test]
fn labels_are_escaped_in_one_way() {
    for line in LIST.lines().filter(|line| line.contains('\t')) {
        let label = line.split('\t').nth(2).unwrap();
        assert_eq!(escaped(&unescaped(label)), label);
    }
}
