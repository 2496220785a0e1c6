//! The list of a label's elements, and the same elements laid out anew.

use crate::support::*;
use odl_model::layout::{list, relaid, Ending, List, Place};
use odl_model::random::{self, Random};
use odl_model::{meaning, LONGEST_LABEL};
use std::collections::BTreeMap;

const LABELS: usize = 10_000;

/// Checks a list, its elements given with single spaces between them.
#[track_caller]
fn listed(label: impl AsRef<[u8]>, elements: &str, ending: Ending) {
    let label = label.as_ref();
    let found = list(label).unwrap();
    let written: Vec<&[u8]> = found.elements.iter().map(|&(_, bytes)| bytes).collect();
    assert_eq!(
        escaped(&written.join(&b' ')),
        elements,
        "{}",
        escaped(label)
    );
    assert_eq!(found.ending, ending, "{}", escaped(label));
    for &(place, element) in &found.elements {
        assert_eq!(&label[place..place + element.len()], element);
    }
}

#[test]
fn lists_run_through_the_first_end_or_to_the_inputs_end() {
    listed("", "", Ending::Lacking);
    listed(" /* x */ END", "", Ending::Lacking);
    listed("A=1", "A = 1", Ending::Lacking);
    listed("A=1 END", "A = 1 END", Ending::SetOff);
    listed("A=1\teNd\n B", "A = 1 eNd", Ending::SetOff);
    listed("A=END B=1 END", "A = END", Ending::SetOff);
    listed(
        "A='END' END_1 END. END-",
        "A = 'END' END_1 END. END-",
        Ending::Lacking,
    );
    listed("/**/ END\nB END", "B END", Ending::SetOff);
}

#[test]
fn end_is_set_off_by_a_blank_or_the_inputs_end() {
    for after in ["", " ", "\t", "\r", "\n", "\x0b", "\x0c", " &", "\n\""] {
        listed(format!("END{after}"), "END", Ending::SetOff);
    }
    for after in [";", "=", "/*x*/", "\"", "'", "&", "\0", "\x7f"] {
        listed(format!("END{after}"), "END", Ending::NotSetOff);
    }
    listed(b"END\x80", "END", Ending::NotSetOff);
}

#[test]
fn elements_are_as_long_as_they_can_be() {
    listed("***", "** *", Ending::Lacking);
    listed("****", "** **", Ending::Lacking);
    listed("* *", "* *", Ending::Lacking);
    listed("//**/", "/", Ending::Lacking);
    listed("**/**/", "**", Ending::Lacking);
    listed("A-1:+#._=B", "A-1:+#._ = B", Ending::Lacking);
    listed(
        "'a''b'\"c\"\"\"",
        "'a' 'b' \\\"c\\\" \\\"\\\"",
        Ending::Lacking,
    );
    listed("=,*/^<>(){}", "= , * / ^ < > ( ) { }", Ending::Lacking);
}

#[test]
fn elements_need_no_form_and_keep_no_limit() {
    listed(
        "+ 1..2 A__B 99:99 16##",
        "+ 1..2 A__B 99:99 16##",
        Ending::Lacking,
    );
    listed("''", "''", Ending::Lacking);
    let long = "x".repeat(256);
    listed(&long, &long, Ending::Lacking);
    listed(format!("'{long}'"), &format!("'{long}'"), Ending::Lacking);
}

#[test]
fn a_fault_outside_the_elements_leaves_no_list() {
    #[rustfmt::skip]
    let faults: [&[u8]; 16] = [
        b"&", b";", b"\0", b"\x7f", b"\x80", b"\"", b"\"\x80\"", b"'", b"'\n'", b"'\t'",
        b"'\x80'", b"'\x7f'", b"/*", b"/*/", b"/*\n*/", b"/*\x80*/",
    ];
    for fault in faults {
        assert_eq!(list(fault), None, "{}", escaped(fault));
        let before_end = [b"= ", fault, b" \n END"].concat();
        assert_eq!(list(&before_end), None, "{}", escaped(fault));
        listed([b"= END ", fault].concat(), "= END", Ending::SetOff);
        listed(
            [b"/**/", &fault[..1], b"\n= END"].concat(),
            "= END",
            Ending::SetOff,
        );
    }
}

#[test]
fn places_are_those_of_elements_or_the_inputs_end() {
    let label = b" A =12 END &";
    let list = list(label).unwrap();
    let places: Vec<Option<Place>> = (0..=label.len() + 1).map(|at| list.place(at)).collect();
    let mut expected = vec![None; label.len() + 2];
    for (number, at) in [1, 3, 4, 7].into_iter().enumerate() {
        expected[at] = Some(Place::Element(number));
    }
    expected[label.len()] = Some(Place::InputEnd);
    assert_eq!(places, expected);
}

#[test]
fn lists_are_the_same_byte_for_byte_and_end_alike() {
    let is_same = |one: &str, other: &str| {
        let (one, other) = (list(one.as_bytes()), list(other.as_bytes()));
        one.unwrap().is_same(&other.unwrap())
    };
    assert!(is_same("A=1 END", "\tA\n=/* B */ C\n1 END &"));
    assert!(is_same("END;", " END/"));
    assert!(is_same("", "/* END */"));
    for (one, other) in [
        ("A", "a"),
        ("* *", "**"),
        ("A B", "AB"),
        ("A B", "B A"),
        ("A \n B", "A /**/ \\ B"),
        ("END ", "END;"),
        ("END", "END."),
        ("END", ""),
        ("''", "' '"),
        ("\"a b\"", "\"a  b\""),
    ] {
        assert!(!is_same(one, other), "{one:?} {other:?}");
    }
}

#[test]
fn a_label_laid_out_anew_keeps_its_list() {
    let mut random = Random::new(10);
    let mut endings = BTreeMap::new();
    for _ in 0..LABELS {
        let label = random::label(&mut random);
        let Some(list_before) = list(&label) else {
            continue;
        };
        let anew = relaid(&mut random, &list_before);
        let list_after = list(&anew).unwrap_or_else(|| panic!("{}", escaped(&anew)));
        assert!(list_after.is_same(&list_before), "{}", escaped(&anew));
        *endings.entry(list_before.ending).or_insert(0) += 1;
    }
    assert!(endings[&Ending::SetOff] > LABELS / 3, "{endings:?}");
    assert!(endings[&Ending::NotSetOff] > LABELS / 200, "{endings:?}");
    assert!(endings[&Ending::Lacking] > LABELS / 20, "{endings:?}");
}

/// What stands between the elements, before the first one included.
fn gaps<'a>(label: &'a [u8], list: &List) -> Vec<&'a [u8]> {
    let mut end = 0;
    let mut gaps = Vec::new();
    for &(place, element) in &list.elements {
        gaps.push(&label[end..place]);
        end = place + element.len();
    }
    gaps
}

#[test]
fn layouts_are_of_many_sorts() {
    let label = b"A=((1,\"t\"),(2)) B=2 <M*S**2/V> END";
    let list_before = list(label).unwrap();
    let mut random = Random::new(11);
    let mut layouts = BTreeMap::new();
    for _ in 0..1_000 {
        let anew = relaid(&mut random, &list_before);
        let list_after = list(&anew).unwrap();
        let gaps = gaps(&anew, &list_after);
        let every = |sort: fn(&[u8]) -> bool| gaps.iter().all(|gap| sort(gap));
        let has_line_end = |gap: &[u8]| gap.iter().any(|byte| b"\r\n\x0b\x0c".contains(byte));
        let mut count = |sort, is_so| *layouts.entry(sort).or_insert(0) += usize::from(is_so);
        count("tight", every(|gap| gap.len() < 2));
        count("on one line", !gaps.iter().any(|gap| has_line_end(gap)));
        count("on lines", gaps.iter().all(|gap| has_line_end(gap)));
        count("remarked", every(|gap| gap.starts_with(b"/*")));
        count("ends with END", anew.ends_with(b"END"));
        for (name, bytes) in [
            ("CR", b"\r"),
            ("LF", b"\n"),
            ("VT", b"\x0b"),
            ("FF", b"\x0c"),
        ] {
            count(name, gaps.iter().any(|gap| gap.ends_with(bytes)));
        }
    }
    assert!(layouts.values().all(|&count| count > 100), "{layouts:?}");
}

#[test]
fn layout_means_nothing_to_the_model() {
    let mut random = Random::new(12);
    let mut refused = 0;
    for _ in 0..LABELS {
        let label = random::label(&mut random);
        let Some(list_before) = list(&label) else {
            continue;
        };
        let anew = relaid(&mut random, &list_before);
        if label.len().max(anew.len()) > LONGEST_LABEL {
            continue;
        }
        let list_after = list(&anew).unwrap();
        let (before, table) = reading(&label);
        let (after, table_anew) = reading(&anew);
        let shown = escaped(&anew);
        assert_eq!(
            (after.code, after.length),
            (before.code, before.length),
            "{shown}"
        );
        if before.code == 0 {
            let meaning_anew = meaning(&anew, &table_anew).unwrap();
            assert_eq!(meaning_anew, meaning(&label, &table).unwrap(), "{shown}");
            continue;
        }
        refused += 1;
        let place = list_before.place(before.place).unwrap();
        assert_eq!(list_after.place(after.place), Some(place), "{shown}");
    }
    assert!(refused > LABELS / 5, "{refused} refused");
}
