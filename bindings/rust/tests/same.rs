//! Whether two labels mean the same: by the meaning that document 01 gives a
//! table, and with the refusals of its table of codes.

use odl::{same_meaning, Code, Error, Refused};

/// The two values in a label each, in either order.
fn values(one: &str, other: &str) -> [Result<bool, Refused>; 2] {
    let label = |value| format!("A={value} END").into_bytes();
    both_ways(&label(one), &label(other))
}

fn both_ways(one: &[u8], other: &[u8]) -> [Result<bool, Refused>; 2] {
    [same_meaning(one, other), same_meaning(other, one)]
}

fn refusal(code: Code, place: usize) -> Error {
    Error { code, place }
}

/// `A="xx..x" END`, written with 13 bytes more than the text has.
fn label_of_text(length: usize) -> Vec<u8> {
    format!("A=\"{}\" END", "x".repeat(length)).into_bytes()
}

/// `A=(1,1,..,1,last)`: the table has 7 bytes, 9 for each member, 3 for END.
fn label_of_members(members: usize, last: u8) -> String {
    format!("A=({}{last}) END", "1,".repeat(members - 1))
}

#[test]
fn layout_has_no_meaning() {
    let plain = b"OBJECT=CAM A=(1,2) F={} N=\"a  b\" END_OBJECT=CAM END";
    let relaid = b"/* a remark */ END\r\nOBJECT\t= CAM\r\n\n  A = ( 1 ,\x0c 2 /* of 2 */\n )\r\n  \
        F = { /* none */ }\x0b }\r\n  N\n=\n\"a  b\"\r\nEND_OBJECT = CAM\r\nEND\r\nand frames \xff\"";
    assert_eq!(both_ways(plain, relaid), [Ok(true); 2]);
    assert_eq!(both_ways(b"END", b" END &"), [Ok(true); 2]);
    assert_eq!(
        values("((1),(2))", "( (1) /* a row */\n, (2) )"),
        [Ok(true); 2]
    );
}

#[test]
fn case_and_closing_names_have_no_meaning() {
    let folded = b"GROUP=RIG A=IO B='NEAR-IR' C=1<KM> END_GROUP=RIG END";
    let mixed = b"group=Rig a='io' b='near-IR' c=1<km> End_Group end";
    assert_eq!(both_ways(folded, mixed), [Ok(true); 2]);
}

#[test]
fn spelling_has_no_meaning() {
    for (one, other) in [
        ("16#-4B#", "-75"),
        ("+0099", "99"),
        ("2#-0#", "0"),
        ("1.50", "15.E-1"),
        ("31459e1", "314590."),
        ("0E5000", "-0.0"),
        ("1E-18", "0.000000000000000001"),
        ("1E18", "1000000000000000000.0"),
        ("1990-158", "1990-06-07"),
        ("1990-07", "1990-1-7"),
        ("10:00", "10:00:00.000Z"),
        ("10:00", "10:00+00:00"),
        ("10:00z", "10:00-0"),
        ("1990-158T1:2+2", "1990-06-07t01:02:00+02:00"),
        ("-2 <DEG/SEC**1>", "-2<deg/sec>"),
        ("\"Jupi-\n  ter\r\n\tring\"", "\"Jupiter ring\""),
        ("\"a\n\n  b\"", "\"a b\""),
    ] {
        assert_eq!(values(one, other), [Ok(true); 2], "{one} and {other}");
    }
}

#[test]
fn other_values_have_another_meaning() {
    for (one, other) in [
        ("1", "2"),
        ("1", "1."),
        ("1.5", "-1.5"),
        ("1E-18", "1E-19"),
        ("1E17", "1E18"),
        ("1", "1 <M>"),
        ("1 <M>", "1 <S>"),
        ("1 <M*S>", "1 <M/S>"),
        ("{1, 2}", "{2, 1}"),
        ("{1}", "(1)"),
        ("((1, 2))", "((1), (2))"),
        ("'A'", "\"A\""),
        ("\"io\"", "\"IO\""),
        ("\"Jupi-\nter\"", "\"Jupi- \nter\""),
        ("1990-07", "1990-07-01"),
        ("10:00+01", "09:00Z"),
        ("10:00-00:30", "10:00+00:30"),
    ] {
        assert_eq!(values(one, other), [Ok(false); 2], "{one} and {other}");
    }
}

#[test]
fn other_statements_have_another_meaning() {
    for (one, other) in [
        ("A=1 END", "B=1 END"),
        ("A=1 END", "^A=1 END"),
        ("A=1 END", "A=1 A=1 END"),
        ("A=1 B=1 END", "B=1 A=1 END"),
        ("OBJECT=X END_OBJECT END", "GROUP=X END_GROUP END"),
        (
            "OBJECT=X A=1 END_OBJECT B=2 END",
            "OBJECT=X A=1 B=2 END_OBJECT END",
        ),
        ("END", "A=1 END"),
    ] {
        let answers = both_ways(one.as_bytes(), other.as_bytes());
        assert_eq!(answers, [Ok(false); 2], "{one} and {other}");
    }
}

#[test]
fn a_refused_label_is_named() {
    let deep = "OBJECT=X ".repeat(81);
    let long = format!("END{}", " ".repeat(65_533));
    for (label, code, place) in [
        (&long[..], Code::LabelTooLong, 65_535),
        ("A=& END", Code::BadByte, 2),
        ("A=1 /*/ END", Code::LeftOpen, 4),
        ("A='' END", Code::NoForm, 2),
        ("A=1990-366 END", Code::PastLimit, 2),
        ("A=() END", Code::Misplaced, 3),
        ("OBJECT=X END_OBJECT=Y END", Code::OtherName, 20),
        (&deep, Code::TooDeep, 80 * 9),
        ("END;", Code::EndNotSetOff, 0),
        ("", Code::EndsEarly, 0),
    ] {
        let (label, error) = (label.as_bytes(), refusal(code, place));
        let [first, second] = both_ways(label, b"END");
        assert_eq!(first, Err(Refused::First(error)));
        assert_eq!(second, Err(Refused::Second(error)));
        // The same bytes twice are refused too, and the first label is named.
        assert_eq!(same_meaning(label, label), Err(Refused::First(error)));
    }
}

#[test]
fn the_first_label_is_judged_whole_before_the_second() {
    let long = label_of_text(65_523);
    assert_eq!(
        both_ways(b"END;", b"A=() END"),
        [
            Err(Refused::First(refusal(Code::EndNotSetOff, 0))),
            Err(Refused::First(refusal(Code::Misplaced, 3)))
        ]
    );
    assert_eq!(
        both_ways(&long, b"END;"),
        [
            Err(Refused::First(refusal(Code::WrittenTooLong, 65_535))),
            Err(Refused::First(refusal(Code::EndNotSetOff, 0)))
        ]
    );
}

#[test]
fn a_canonical_label_over_the_limit_gives_no_answer() {
    let (longest, over) = (label_of_text(65_522), label_of_text(65_523));
    assert_eq!(both_ways(&longest, b"END"), [Ok(false); 2]);
    assert_eq!(same_meaning(&longest, &longest), Ok(true));
    let error = refusal(Code::WrittenTooLong, 65_535);
    assert_eq!(
        both_ways(&over, b"END"),
        [Err(Refused::First(error)), Err(Refused::Second(error))]
    );
    assert_eq!(same_meaning(&over, &over), Err(Refused::First(error)));
}

#[test]
fn a_long_table_is_no_hindrance() {
    // 7 + 9 * 7,281 + 3 = 65,539 bytes of table.
    let label = label_of_members(7_281, 1);
    let error = odl::relabel(label.as_bytes()).unwrap_err();
    assert_eq!(error, refusal(Code::RoomTooShort, label.len()));
    let relaid = label.replace(',', ", ");
    let answers = both_ways(label.as_bytes(), relaid.as_bytes());
    assert_eq!(answers, [Ok(true); 2]);
    let changed = label_of_members(7_281, 2);
    let answers = both_ways(label.as_bytes(), changed.as_bytes());
    assert_eq!(answers, [Ok(false); 2]);
}

#[test]
fn refusals_are_shown() {
    let [first, second] = both_ways(b"END;", b"END").map(Result::unwrap_err);
    assert_eq!(
        first.to_string(),
        "the first label: code 9 at 0: END without spacing or a line end after it"
    );
    let second: Box<dyn std::error::Error> = second.into();
    assert_eq!(
        second.to_string(),
        "the second label: code 9 at 0: END without spacing or a line end after it"
    );
}
