//! The meaning of tables, worked out by hand.

use crate::support::*;
use odl_model::meaning;

fn meaning_of(label: &str) -> Vec<Vec<u8>> {
    meaning(label.as_bytes(), &table_of(label.as_bytes())).unwrap()
}

#[test]
fn spans_are_replaced_by_what_they_mean() {
    let label = "a=(1<km*s**-2>,'io','x y',\"Jupi-\n ter\") ^p={} object=b end_object group=c end_group END";
    let one = [10, 0, 0, 0, 0, 0, 0, 0, 1];
    let expected: [&[u8]; 17] = [
        b"\x01A",
        &[20],
        &one,
        b"\x0f\x00KM\x01",
        b"\x0f\x01S\xfe",
        b"\x0eIO",
        b"\x0eX Y",
        b"\x0dJupiter",
        &[21],
        b"\x02P",
        &[22],
        &[23],
        b"\x03B",
        &[4],
        b"\x05C",
        &[6],
        &[99],
    ];
    assert_eq!(meaning_of(label), expected);
}

/// All of a row but the mark of its zone (02 §6), which stands last.
#[test]
fn dates_and_times_mean_what_stands_before_their_mark() {
    let expected: [&[u8]; 7] = [
        b"\x01A",
        &[20],
        &[12, 2, 0, 0, 0, 0, 10, 30, 0, 0, 0, 0, 0, 0, 0],
        &[12, 3, 7, 0xC6, 1, 7, 10, 30, 0, 0, 0, 0, 0, 255, 255],
        &[12, 1, 7, 0xC6, 1, 7, 0, 0, 0, 0, 0, 0, 0, 0, 0],
        &[21],
        &[99],
    ];
    for time in ["10:30", "10:30Z", "10:30z", "10:30+0", "10:30-00:00"] {
        let label = format!("A=({time},1990-07T10:30-0:1,1990-07) END");
        assert_eq!(meaning_of(&label), expected, "{time}");
    }
}

#[test]
fn spelling_and_layout_do_not_count() {
    for (one, other) in [
        ("A=1 END", "\ta =+01/**/\nend rest"),
        ("A=16#-F# END", "A=-15 END"),
        ("A=1.50 END", "A=15E-1 END"),
        ("A=0.0 END", "A=-0E5 END"),
        ("A=0.015 END", "A=15.E-3 END"),
        ("A=1E17 END", "A=100000000000000000.0 END"),
        ("A=io END", "A='IO' END"),
        ("A=\"a \n b\" END", "A=\"a\r\n\r\nb\" END"),
        ("A=\"\x01\" END", "A=\"\" END"),
        ("A=1990-07 END", "A=1990-1-7 END"),
        ("A=12:00 END", "A=12:00:00.000Z END"),
        ("A=12:00z END", "A=12:00+0 END"),
        ("A=1990-07T12:00 END", "A=1990-007t12:0-00:00 END"),
        ("A=1<m> END", "A=1<M**+1> END"),
        ("A=((1),(x)) END", "A=( (01) /* , */\n, ('X') ) END"),
        ("OBJECT=A END_OBJECT END", "object=a end_object=A END"),
    ] {
        assert_eq!(meaning_of(one), meaning_of(other), "{one:?} {other:?}");
    }
}

#[test]
fn all_else_counts() {
    for (one, other) in [
        ("A=1 END", "B=1 END"),
        ("A=1 END", "^A=1 END"),
        ("A=1 END", "A=1. END"),
        ("A=1.5 END", "A=-1.5 END"),
        ("A=1E-18 END", "A=1E-19 END"),
        ("A=io END", "A=\"IO\" END"),
        ("A=\"io\" END", "A=\"IO\" END"),
        ("A=\"a b\" END", "A=\"a  b\" END"),
        ("A=\"a-b\" END", "A=\"ab\" END"),
        ("A=1 END", "A=(1) END"),
        ("A=(1) END", "A=((1)) END"),
        ("A=((1,2)) END", "A=((1),(2)) END"),
        ("A=((1),(2,3)) END", "A=((1,2),(3)) END"),
        ("A=(1) END", "A={1} END"),
        ("A={1,2} END", "A={2,1} END"),
        ("A=1 B=2 END", "B=2 A=1 END"),
        ("A=1<M> END", "A=1 END"),
        ("A=1<M*S> END", "A=1<M/S> END"),
        ("A=1<M> END", "A=1<M**2> END"),
        ("A=10:00+01 END", "A=09:00 END"),
        ("A=10:00+0:1 END", "A=10:00-0:1 END"),
        ("A=1990-07-04 END", "A=1990-07-04T0:0 END"),
        ("OBJECT=A END_OBJECT END", "GROUP=A END_GROUP END"),
        ("A=\"c\" END", "A=\"\" END"),
    ] {
        assert_ne!(meaning_of(one), meaning_of(other), "{one:?} {other:?}");
    }
}

#[test]
fn only_proper_tables_over_labels_have_a_meaning() {
    assert_eq!(meaning(b"", &[99, 0, 0]), Some(vec![vec![99]]));
    assert_eq!(meaning(b"END", &[99, 0, 3]), Some(vec![vec![99]]));
    assert_eq!(meaning(b"END", &[99, 0, 4]), None);
    assert_eq!(meaning(b"END", &[]), None);
    assert_eq!(meaning(&[b' '; 65_536], &[99, 0, 0]), None);
}
