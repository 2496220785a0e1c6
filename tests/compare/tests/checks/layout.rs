//! Layout means nothing (02 §14): the library over labels that have the same
//! elements.

use crate::support::*;
use odl::raw::Answer;
use odl_model::layout::{list, relaid, Ending, List, Place};
use odl_model::random::{self, Random};
use odl_model::{meaning, LONGEST_LABEL};
use std::collections::BTreeMap;

const LABELS: usize = 15_000;

/// A label with its list, if it has one, and the library's reading of it.
struct Read<'a> {
    label: &'a [u8],
    list: Option<List<'a>>,
    answer: Answer,
    table: Vec<u8>,
}

impl<'a> Read<'a> {
    /// Reads a label of at most 65,535 bytes with ample room, and holds the
    /// answer against the list.
    fn new(label: &'a [u8], room: usize) -> Read<'a> {
        let (answer, table) = reading(label, room);
        let read = Read {
            label,
            list: list(label),
            answer,
            table,
        };
        assert!(!matches!(answer.code, 1 | 11), "{}", read.shown());
        match &read.list {
            Some(list) => read.check_listed(list),
            None => assert_ne!(answer.code, 0, "{}", read.shown()),
        }
        read
    }

    fn check_listed(&self, list: &List) {
        let Answer { code, place, .. } = self.answer;
        let shown = self.shown();
        assert!(!matches!(code, 2 | 3), "{shown}");
        if code == 0 {
            let (start, end) = list.elements.last().unwrap();
            assert_eq!(list.ending, Ending::SetOff, "{shown}");
            assert_eq!(place, start + end.len(), "{shown}");
        } else {
            let place = list.place(place).unwrap_or_else(|| panic!("{shown}"));
            assert_eq!(place == Place::InputEnd, code == 10, "{shown}");
        }
    }

    /// Where in its list the label is refused.
    fn refused_at(&self) -> Option<Place> {
        match self.answer.code {
            0 => None,
            _ => self.list.as_ref()?.place(self.answer.place),
        }
    }

    fn has_list_of(&self, other: &Read) -> bool {
        match (&self.list, &other.list) {
            (Some(list), Some(other)) => list.is_same(other),
            _ => false,
        }
    }

    fn shown(&self) -> String {
        format!("{:?} \"{}\"", self.answer, self.label.escape_ascii())
    }
}

/// The table with nothing in its spans, nor in the last row's offset.
fn without_places(table: &[u8]) -> Vec<u8> {
    let mut bare = table.to_vec();
    let mut at = 0;
    while at < bare.len() {
        let (places, length) = match bare[at] {
            1 | 2 | 3 | 5 | 13 | 14 => (1..5, 5),
            15 => (2..6, 7),
            99 => (1..3, 3),
            10 => (0..0, 9),
            11 => (0..0, 11),
            12 => (0..0, 16),
            _ => (0..0, 1),
        };
        bare[at..at + length][places].fill(0);
        at += length;
    }
    bare
}

/// Two layouts of one list are read alike.
fn check_alike(one: &Read, other: &Read) {
    let shown = format!("{}\n{}", one.shown(), other.shown());
    assert!(one.has_list_of(other), "{shown}");
    assert_eq!(one.answer.code, other.answer.code, "{shown}");
    assert_eq!(one.refused_at(), other.refused_at(), "{shown}");
    assert_eq!(one.answer.length, other.answer.length, "{shown}");
    if one.answer.code == 0 {
        let (bare, other_bare) = (without_places(&one.table), without_places(&other.table));
        assert_eq!(bare, other_bare, "{shown}");
        let meant = meaning(one.label, &one.table).expect(&shown);
        let other_meant = meaning(other.label, &other.table).expect(&shown);
        assert_eq!(meant, other_meant, "{shown}");
    }
}

/// Two layouts of one accepted label are written alike: the code of both.
fn check_written_alike(one: &Read, other: &Read) -> u8 {
    let (written, bytes) = writing(one.label, &one.table);
    let (other_written, other_bytes) = writing(other.label, &other.table);
    let shown = format!("{}\n{}", one.shown(), other.shown());
    assert_eq!(written, other_written, "{shown}");
    assert!(bytes == other_bytes, "{shown}");
    written.code
}

/// How often each thing that matters came up.
#[derive(Default)]
struct Tally {
    codes: BTreeMap<u8, usize>,
    written: BTreeMap<u8, usize>,
    endings: BTreeMap<Ending, usize>,
    without_list: usize,
}

/// Reads and writes a label in two layouts.
fn try_label(random: &mut Random, label: &[u8], tally: &mut Tally) {
    let read = Read::new(label, 5 * label.len());
    let Some(list) = &read.list else {
        tally.without_list += 1;
        return;
    };
    let anew = relaid(random, list);
    if anew.len() > LONGEST_LABEL {
        return;
    }
    // The table needs as much room in the one layout as in the other.
    let read_anew = Read::new(&anew, read.answer.length);
    check_alike(&read, &read_anew);
    *tally.codes.entry(read.answer.code).or_default() += 1;
    *tally.endings.entry(list.ending).or_default() += 1;
    if read.answer.code == 0 {
        let code = check_written_alike(&read, &read_anew);
        *tally.written.entry(code).or_default() += 1;
    }
}

#[test]
fn random_labels_mean_the_same_in_any_layout() {
    let mut random = Random::new(seed());
    let mut tally = Tally::default();
    for _ in 0..LABELS {
        let label = random::label(&mut random);
        if label.len() <= LONGEST_LABEL {
            try_label(&mut random, &label, &mut tally);
        }
    }
    let Tally { codes, endings, .. } = &tally;
    let reached: Vec<u8> = codes.keys().copied().collect();
    assert_eq!(reached, [0, 4, 5, 6, 7, 8, 9, 10]);
    assert!(codes.values().all(|&n| n > LABELS / 1_000), "{codes:?}");
    assert!(codes[&0] > LABELS / 3, "{codes:?}");
    assert!(endings[&Ending::SetOff] > LABELS / 2, "{endings:?}");
    assert!(endings[&Ending::NotSetOff] > LABELS / 100, "{endings:?}");
    assert!(endings[&Ending::Lacking] > LABELS / 20, "{endings:?}");
    assert!(tally.without_list > LABELS / 10, "{}", tally.without_list);
    assert!(tally.written[&0] > LABELS / 3, "{:?}", tally.written);
}

/// So many statements in 80 blocks. Of the written label each takes 160 + 108
/// bytes, the openings and closings 7,280 and 7,600, and END 5.
fn deep_label(statements: usize) -> Vec<u8> {
    let statement = format!("A=\"{}\" ", "x".repeat(100));
    let (opening, closing) = ("OBJECT=A ".repeat(80), "END_OBJECT ".repeat(80));
    let label = opening + &statement.repeat(statements) + &closing + "END";
    label.into_bytes()
}

#[test]
fn labels_are_too_long_to_write_in_any_layout() {
    let mut random = Random::new(seed());
    for (statements, code) in [(188, 0), (189, 13)] {
        let label = deep_label(statements);
        let mut tally = Tally::default();
        for _ in 0..15 {
            try_label(&mut random, &label, &mut tally);
        }
        let codes: Vec<u8> = tally.written.keys().copied().collect();
        assert_eq!(codes, [code]);
        assert!(tally.written[&code] > 5, "{:?}", tally.written);
    }
}

/// Two layouts that are both answered with this code, and refused there.
#[track_caller]
fn alike(one: impl AsRef<[u8]>, other: impl AsRef<[u8]>, code: u8, place: Option<Place>) {
    let (one, other) = (one.as_ref(), other.as_ref());
    let read = Read::new(one, 5 * one.len());
    let read_other = Read::new(other, 5 * other.len());
    check_alike(&read, &read_other);
    assert_eq!(read.answer.code, code, "{}", read.shown());
    assert_eq!(read.refused_at(), place, "{}", read.shown());
}

#[test]
fn accepted_layouts() {
    alike("A=1 END", "/* x */ y\n A =1\n\tEND &", 0, None);
    alike("END", b"/*\"*/ \xff END;\r\x0b\x0c\tEND\n\x80", 0, None);
    alike(
        "A=(1)END",
        "A /**/\n=/***/\n( /* ) */ )\n1\n)\nEND ",
        0,
        None,
    );
    alike("A=1<M**2/S>END", "A=1 < M **\n2 //**/>\nS > END", 0, None);
    alike(
        "OBJECT=A END_OBJECT=a END",
        "OBJECT = A\tEND_OBJECT\n=\na\nEND\n",
        0,
        None,
    );
    alike(
        "A='/*'B=\"*/\" END",
        "A = '/*' /* ' */\n B = \"*/\" END",
        0,
        None,
    );
    alike(
        "A=((1,2),(3),(X))END",
        "A = ( (1,2)/* , */ ,\n, (3)\n\t,/* ( */ (\n\r\n(X) ) END",
        0,
        None,
    );
}

#[test]
fn layouts_refused_at_an_element() {
    let at = |number| Some(Place::Element(number));
    alike("A=10# END", "A\n=\n10#\nEND", 4, at(2));
    alike("A='' END", "A = /* '' */ ''\n'' END", 4, at(2));
    alike(
        "A=1990-366 END",
        "\tA=/* 1990-365 */\n1990-366\tEND",
        5,
        at(2),
    );
    alike("A=1<M**100>END", "A=1 /**/\n<M ** 100 > END", 5, at(6));
    alike("A == 1 END", "A/**/\n=\x0b=\x0c1 END", 6, at(2));
    alike("A=1<M* *2>END", "A=1<M*/*/*/*\n*2>END", 6, at(6));
    alike("A=\"t\"<M> END", "A = \"t\" /* x */\n <M> END", 6, at(3));
    alike("A=END;", "A = END\"", 6, at(2));
    alike("A=((1)(2))END", "A=((1)/*,*/ ,\n(2)) END", 6, at(6));
    alike(
        "A=((1),)END",
        "A = ( ( 1 )\n,/* (2) */ (2)\n) END",
        6,
        at(7),
    );
    alike("A=((1),,(2))END", "A=((1) , /* */\n, (2)) END", 6, at(7));
    alike("A=((1),2)END", "A=((1),\n/*(*/(\n2) END", 6, at(7));
    alike("OBJECT=X END", "OBJECT=X/**/\nEND x", 6, at(3));
    alike(
        "OBJECT=X END_OBJECT=Y END",
        "OBJECT = X END_OBJECT /* =X */ =X\n=\tY END",
        7,
        at(5),
    );
    alike("END;", " END/", 9, at(0));
    alike("A=1 end=", "/* end */\nA=1\nend/* x */", 9, at(3));
}

#[test]
fn layouts_refused_at_a_limit() {
    let at = |number| Some(Place::Element(number));
    let long = "x".repeat(256);
    alike(
        format!("A='{long}'END"),
        format!("A =\n'{long}' END"),
        5,
        at(2),
    );
    alike(
        format!("{long}=1 END"),
        format!("\n{long} = 1 END"),
        5,
        at(0),
    );
    // The 81st opening follows 80 of three elements each.
    let deep = "object=a ".repeat(81);
    let lines = "object\n=\n/* END */\na\n".repeat(81);
    alike(deep, lines, 8, at(240));
}

#[test]
fn layouts_refused_at_the_inputs_end() {
    let end = Some(Place::InputEnd);
    alike("", " \t\r\n\x0b\x0c", 10, end);
    alike("", "/* END */ END", 10, end);
    alike("A=(1,2", "A=(1,2 ", 10, end);
    alike("A=(1,2", "A = ( 1 , 2 /* ) */ ) END", 10, end);
    alike("A=((1),", "A = ( (1) , /* (2)) */ (2)) END", 10, end);
    alike("A=1", "A\n=\n1\n", 10, end);
    alike(
        "OBJECT=A B=1 END_OBJECT",
        "OBJECT=A B=1 END_OBJECT /* =A */",
        10,
        end,
    );
}

/// Two labels that differ by more than their layout, with their codes.
#[track_caller]
fn unlike(one: &str, code: u8, other: &str, other_code: u8) {
    let read = Read::new(one.as_bytes(), 5 * one.len());
    let read_other = Read::new(other.as_bytes(), 5 * other.len());
    assert!(!read.has_list_of(&read_other), "{one:?} {other:?}");
    let codes = (read.answer.code, read_other.answer.code);
    assert_eq!(codes, (code, other_code), "{one:?} {other:?}");
}

#[test]
fn what_is_more_than_layout() {
    unlike("A=1<M**2> END", 0, "A=1<M* *2> END", 6);
    unlike("A=1<M/S> END", 0, "A=1<M/*S> END*/", 10);
    unlike("A=BC END", 0, "A=B C END", 6);
    unlike("A=1 END", 0, "A=1END", 4);
    unlike("A=1 /* x */\nB=2 END", 0, "A=1 /* x */ B=2 END", 10);
    unlike("A=1 /* x */\nEND", 0, "A=1 /* x *\nEND", 3);
    unlike("A=((1),(2)) END", 0, "A=((1) (2)) END", 6);
    unlike("A=((1),(2)) END", 0, "A=((1)/*,*/\n(2)) END", 6);
    unlike("END ", 0, "END;", 9);
    unlike("END", 0, "", 10);
    // Elements are the same byte for byte only, whatever they mean.
    unlike("A=1 END", 0, "a=1 END", 0);
    unlike("A=1 END", 0, "A=1 end", 0);
    unlike("A=\"a b\" END", 0, "A=\"a\nb\" END", 0);
}
