//! Meaning and writing: two labels are written alike exactly if they mean the
//! same, by the model's own meaning of the library's tables; and the crate's
//! `same_meaning` tells it.

use crate::support::*;
use odl::Refused;
use odl_model::layout::{list, relaid};
use odl_model::random::{self, Random};
use odl_model::{meaning, LONGEST_LABEL};

const LABELS: usize = 1_500;
const SMALL_LABELS: usize = 800;

/// A label that the library accepts and writes.
struct Known {
    label: Vec<u8>,
    meaning: Vec<Vec<u8>>,
    written: Vec<u8>,
}

impl Known {
    fn new(label: &[u8]) -> Option<Known> {
        let (answer, table) = reading(label, 5 * label.len());
        if answer.code != 0 {
            return None;
        }
        let (answer, written) = writing(label, &table);
        (answer.code == 0).then(|| Known {
            label: label.to_vec(),
            meaning: meaning(label, &table).expect("a table that was written is proper"),
            written,
        })
    }

    /// Whether the two mean the same, and so must be written alike.
    fn means_the_same_as(&self, other: &Known) -> bool {
        let is_same = self.meaning == other.meaning;
        let (one, two) = (self.label.escape_ascii(), other.label.escape_ascii());
        assert_eq!(self.written == other.written, is_same, "{one}\n{two}");
        is_same
    }
}

#[test]
fn another_layout_and_the_written_label_mean_the_same() {
    let mut random = Random::new(seed());
    let mut relaid_labels = 0;
    for _ in 0..LABELS {
        let Some(known) = Known::new(&random::good_label(&mut random)) else {
            continue;
        };
        let anew = relaid(&mut random, &list(&known.label).unwrap());
        if let Some(anew) = Known::new(&anew) {
            assert!(known.means_the_same_as(&anew));
            assert_eq!(odl::same_meaning(&known.label, &anew.label), Ok(true));
            relaid_labels += 1;
        }
        let written = Known::new(&known.written).unwrap();
        assert!(known.means_the_same_as(&written));
        assert_eq!(odl::same_meaning(&written.label, &known.label), Ok(true));
    }
    assert!(relaid_labels > LABELS / 2, "{relaid_labels} relaid");
}

/// The code and place with which the model refuses to read a label, or to
/// write it.
fn model_refusal(label: &[u8]) -> (u8, usize) {
    let mut table = vec![0; 5 * label.len()];
    let read = odl_model::read(label, &mut table);
    if read.code != 0 {
        return (read.code, read.place);
    }
    let mut out = vec![0; LONGEST_LABEL];
    let written = odl_model::write(label, &table[..read.length], &mut out);
    (written.code, written.place)
}

#[test]
fn damaged_labels_mean_the_same_or_not_or_are_refused() {
    let mut random = Random::new(seed());
    let (mut same, mut other, mut refused) = (0, 0, 0);
    for _ in 0..LABELS {
        let Some(known) = Known::new(&random::good_label(&mut random)) else {
            continue;
        };
        let mut damaged = known.label.clone();
        random::damage(&mut random, &mut damaged);
        let told = odl::same_meaning(&known.label, &damaged);
        let expected = Known::new(&damaged).map(|damaged| known.means_the_same_as(&damaged));
        match (told, expected) {
            (Ok(true), Some(true)) => same += 1,
            (Ok(false), Some(false)) => other += 1,
            (Err(Refused::Second(error)), None) => {
                let told = (error.code as u8, error.place);
                assert_eq!(told, model_refusal(&damaged), "{}", damaged.escape_ascii());
                refused += 1;
            }
            differs => panic!("{differs:?} {}", damaged.escape_ascii()),
        }
    }
    assert!(same > LABELS / 30, "{same} mean the same");
    assert!(other > LABELS / 30, "{other} do not");
    assert!(refused > LABELS / 3, "{refused} are refused");
}

/// A label of one or two statements, with values that have many spellings, so
/// that two of them often mean the same.
fn small_label(random: &mut Random) -> Vec<u8> {
    #[rustfmt::skip]
    const VALUES: &[&str] = &[
        "1", "+1", "01", "16#1#", "1.", "1.0", "10E-1", "-1", "0", "-0", "0.", "-0.0E7",
        "1.5", "15.E-1", "0.15", "-1.5", "1E17", "100000000000000000.0", "1E18",
        "1000000000000000000.", "1E-18", "0.000000000000000001", "1E-19", ".1E-18",
        "x", "X", "'x'", "\"x\"", "\"X\"", "\"x\0\"", "\"x-\n\"", "'end'", "'END'", "\"END\"",
        "\"a b\"", "\"a\nb\"", "\"a \r\n b\"", "\"a  b\"", "\"ab\"", "\"a-\nb\"", "\"a- \nb\"",
        "1990-07", "1990-1-7", "1990-007T0:0", "12:00", "12:00:00.0z", "12:00+0", "12:00-0:01",
        "12:00Z", "12:00-00:00", "1990-7T00:00Z", "1990-01-07t0:0:0+0:0",
        "(1)", "( 01 )", "((1))", "{1}", "{1,1}", "{}", "{ }", "(1,x)", "(1)",
        "((1),(x))", "( (1.),('X') )", "((01)\n,\n(X))", "((1,x))", "((1),(x),(1))",
        "1<m>", "1<M**1>", "1<M**0>", "1.<m>", "1<m*s>", "1<M/S>", "1<m /S**+1>",
    ];
    let mut label = Vec::new();
    for _ in 0..1 + usize::from(random.one_in(4)) {
        let name = random.pick(&["A", "a", "\n/* c */\nA ", "^A"]);
        let value = random.pick(VALUES);
        label.extend(format!("{name}={value} ").bytes());
    }
    label.extend_from_slice(b"END");
    label
}

#[test]
fn small_labels_are_written_alike_exactly_if_they_mean_the_same() {
    let mut random = Random::new(seed());
    let known: Vec<Known> = (0..SMALL_LABELS)
        .map(|_| Known::new(&small_label(&mut random)).unwrap())
        .collect();
    let (mut same, mut other) = (0, 0);
    for (number, one) in known.iter().enumerate() {
        for two in &known[..number] {
            match one.means_the_same_as(two) {
                true => same += 1,
                false => other += 1,
            }
        }
    }
    assert!(same > 2 * SMALL_LABELS, "{same} mean the same");
    assert!(other > 2 * SMALL_LABELS, "{other} do not");
}
