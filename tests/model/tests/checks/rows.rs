//! Commas between rows (02 §2): answers worked out by hand, and that random
//! labels and tables come upon every case of the rule.

use crate::support::*;
use odl_model::random::{self, Random};
use odl_model::{relabel, rows};
use std::collections::BTreeMap;

const LABELS: usize = 10_000;
const TABLES: usize = 10_000;

#[test]
fn one_comma_stands_between_rows() {
    value(
        "((1,2),(3,4))",
        "sequence; sequence; integer 1; integer 2; end of sequence; sequence; integer 3; \
         integer 4; end of sequence; end of sequence",
    );
    value(
        "((1) /* , */ ,\n,\r\n\t(x) , (2<m>))",
        "sequence; sequence; integer 1; end of sequence; sequence; symbol x; end of sequence; \
         sequence; integer 2; unit first m 1; end of sequence; end of sequence",
    );
    value(
        "((1))",
        "sequence; sequence; integer 1; end of sequence; end of sequence",
    );
}

#[test]
fn rows_side_by_side_are_refused_at_the_second() {
    refused("A=((1,2)(3,4)) END", 6, 8);
    refused("A=((1,2) (3,4)) END", 6, 9);
    refused("A=((1),(2)(3)) END", 6, 10);
    // The comma stands in a comment, or in the ignored rest after one.
    refused("A=((1)/*,*/\n(2)) END", 6, 12);
    refused("A=((1)/**/,\n(2)) END", 6, 12);
}

#[test]
fn commas_stand_between_rows_only() {
    refused("A=(,(1)) END", 6, 3);
    refused("A=((1,2),) END", 6, 9);
    refused("A=((1,2),,(3)) END", 6, 9);
    refused("A=((1)),(2) END", 6, 7);
}

#[test]
fn only_a_row_follows_the_comma() {
    refused("A=((1),2) END", 6, 7);
    refused("A=((1),{}) END", 6, 7);
    refused("A=((1),{2}) END", 6, 7);
    refused("A=((1),END", 6, 7);
    refused("A=((1),()) END", 6, 8);
    refused("A=((1,2),((3))) END", 6, 10);
    refused("A=((1),(2,(3))) END", 6, 10);
    // 2 to 5 go before 6.
    refused("A=((1),&) END", 2, 7);
    refused("A=((1),/*) END", 3, 7);
    refused("A=((1),1E) END", 4, 7);
    refused("A=((1),1990-366) END", 5, 7);
}

#[test]
fn rows_and_scalars_do_not_mix() {
    refused("A=((1) 2) END", 6, 7);
    refused("A=((1){}) END", 6, 6);
    refused("A=(1,(2)) END", 6, 5);
    refused("A=(1(2)) END", 6, 4);
    refused("A={(1),(2)} END", 6, 3);
    refused("A=((1)<M>,(2)) END", 6, 6);
}

#[test]
fn rows_that_break_off() {
    for label in [
        "A=((1)",
        "A=((1),",
        "A=((1), /* (2)) */ (2)) END",
        "A=((1),(",
    ] {
        refused(label, 10, label.len());
    }
    refused("A=((1),(2) END", 6, 11);
}

#[test]
fn rows_are_written_with_a_comma_and_a_space() {
    for (value, written) in [
        ("((1,2),(3,4))", "((1, 2), (3, 4))"),
        ("((a),(b,'c d')\n,\n(1<m>))", "((A), (B, 'C D'), (1 <M>))"),
        ("((1))", "((1))"),
    ] {
        let output = relabel(format!("A={value} END").as_bytes());
        assert_eq!(escaped(&output), format!("A = {written}\\r\\nEND\\r\\n"));
    }
}

/// A label for each case by its shape, with the case's name.
const SHAPED: [(&str, &str); 21] = [
    ("A=((1<M>)) END", "one row"),
    ("A=((1),('x')) END", "two rows"),
    ("B={} A=((1,2),(3),(4)) END", "three rows"),
    ("A=((1)(2)) END", "rows side by side"),
    ("A=((1),(2)(3)) END", "later rows side by side"),
    ("A=(,(1)) END", "a comma first"),
    ("A=((1,2<M*S>),,(3)) END", "a comma doubled"),
    ("A=((1),) END", "a comma last"),
    ("A=((1),\"t\") END", "a scalar for a row"),
    ("A=((1),{}) END", "a set for a row"),
    ("A=((1),END", "a reserved word for a row"),
    ("A=((1),()) END", "an empty row"),
    ("A=((1),((2))) END", "a row that begins with a row"),
    ("A=((1),(2,(3))) END", "a row with a row further on"),
    ("A=(((1))) END", "a first row that begins with a row"),
    ("A=((1) 2) END", "a scalar beside a row"),
    ("A=((1){}) END", "a set beside a row"),
    ("A=(1,(2)) END", "a row after a scalar"),
    ("A=(1(2)) END", "a row beside a scalar"),
    ("A=((1),(2),/**/", "the input's end after a comma"),
    ("A=((1) ", "the input's end after a row"),
];

#[test]
fn labels_show_their_case() {
    for (label, case) in SHAPED {
        assert_eq!(rows::cases(label.as_bytes())[0], case, "{label}");
    }
    let named: Vec<&str> = SHAPED.iter().map(|&(_, case)| case).collect();
    let all: Vec<&str> = rows::names().collect();
    assert_eq!(all[..named.len()], named);
    // Flat sequences, and what stands after END or in a text, show none.
    for label in [
        "A=(1,2) B={1} END",
        "END ((1)(2))",
        "A=\"((1),(2))\" END",
        "A=(1)(2) END",
    ] {
        assert!(rows::cases(label.as_bytes()).is_empty(), "{label}");
    }
}

#[test]
fn labels_show_what_stands_around_the_comma() {
    let gaps = [
        ("", "nothing"),
        (" \t", "spacing"),
        (" \r\n", "a line end"),
        ("/*,*/ ,\n", "a comment"),
    ];
    for (before, sort_before) in gaps {
        for (after, sort_after) in gaps {
            let label = format!("A=((1){before},{after}(2)) END");
            let expected = [
                "two rows".to_string(),
                format!("{sort_before} before the comma"),
                format!("{sort_after} after the comma"),
            ];
            assert_eq!(rows::cases(label.as_bytes()), expected, "{label:?}");
        }
    }
}

#[test]
fn tables_show_rows_that_follow_each_other() {
    for (label, expected) in [
        ("A=((1),(2)) END", true),
        ("A=((1)) B=(2) END", false),
        ("A=(1) B=(2) END", false),
    ] {
        let table = table_of(label.as_bytes());
        assert_eq!(rows::follow_each_other(label.as_bytes(), &table), expected);
        assert!(!rows::follow_each_other(label.as_bytes(), &table[1..]));
    }
}

#[test]
fn random_labels_show_every_case() {
    let mut random = Random::new(13);
    let mut counts: BTreeMap<&str, usize> = rows::names().map(|name| (name, 0)).collect();
    for _ in 0..LABELS {
        for case in rows::cases(&random::label(&mut random)) {
            *counts.get_mut(case).unwrap() += 1;
        }
    }
    assert!(counts.values().all(|&count| count > 5), "{counts:#?}");
}

#[test]
fn random_tables_have_rows_that_follow_each_other() {
    let mut random = Random::new(14);
    let mut written = 0;
    for _ in 0..TABLES {
        let case = random::table_case(&mut random);
        let follow = rows::follow_each_other(&case.label, &case.table);
        let answer = writing(&case.label, &case.table).0;
        written += usize::from(follow && answer.code == 0);
    }
    assert!(written > TABLES / 50, "{written} written");
}
