//! The crate's types on labels whose answers stand in the documents.

use odl::{Code, Date, Error, Join, Label, Moment, Real, Row, Time, Zone};

fn rows(label: &[u8]) -> Vec<String> {
    let label = odl::read(label).unwrap();
    label
        .rows()
        .map(|entry| format!("{:?}", entry.row))
        .collect()
}

fn value(text: &str) -> String {
    let rows = rows(format!("A={text} END").as_bytes());
    rows[1..rows.len() - 1].join(" ")
}

fn refusal(label: &[u8]) -> (Code, usize) {
    let error = odl::read(label).unwrap_err();
    (error.code, error.place)
}

const CAMERA: &[u8] = b"object = cam /* rig 4 */ ignored\n start = 1990-158T15:24:12\n \
    hold = 1.50 <sec**1>\nend_object\nEND\n";

const CANONICAL: &[u8] = b"OBJECT = CAM\r\n  START = 1990-06-07T15:24:12Z\r\n  \
    HOLD = 1.5 <SEC>\r\nEND_OBJECT = CAM\r\nEND\r\n";

#[test]
fn rows_are_decoded() {
    let label = odl::read(CAMERA).unwrap();
    let rows: Vec<Row> = label.rows().map(|entry| entry.row).collect();
    let [Row::Object(cam), Row::Attribute(start), Row::Moment(moment), Row::Attribute(hold), Row::Real(real), Row::Unit {
        join: Join::First,
        name,
        exponent: 1,
    }, Row::EndObject, Row::Last { end }] = rows[..]
    else {
        panic!("{rows:?}");
    };
    assert_eq!((cam.as_written(), cam.to_string()), ("cam", "CAM".into()));
    assert!(start == "START" && hold == "Hold" && name == "SEC");
    assert_eq!(
        moment,
        Moment::DateTime(
            Date {
                year: 1990,
                month: 6,
                day: 7
            },
            Time {
                hour: 15,
                minute: 24,
                second: 12,
                nanoseconds: 0,
                zone: Zone::NotGiven
            }
        )
    );
    let half = Real {
        number: 15,
        power: -1,
    };
    assert_eq!((real, real.to_f64()), (half, 1.5));
    assert_eq!(end, CAMERA.len() - 1);
}

#[test]
fn values_have_their_types() {
    assert_eq!(value("16#-4B#"), "Integer(-75)");
    assert_eq!(value("9223372036854775807"), "Integer(9223372036854775807)");
    assert_eq!(
        value("1990-07"),
        "Moment(Date(Date { year: 1990, month: 1, day: 7 }))"
    );
    assert!(value("10:00-00:30").contains("hour: 10, minute: 0, second: 0"));
    assert!(value("10:00-00:30").contains("zone: Signed(-30)"));
    assert_eq!(value("{}"), "Set EndSet");
    assert_eq!(
        value("((1),(2))"),
        "Sequence Sequence Integer(1) EndSequence Sequence Integer(2) EndSequence EndSequence"
    );
    assert_eq!(value("'it'"), "Symbol(Name(\"it\"))");
    assert_eq!(value("\"IO\""), "Text(Text(\"IO\"))");
    assert_eq!(
        value("1<KM/SEC**-2>"),
        "Integer(1) Unit { join: First, name: Name(\"KM\"), exponent: 1 } \
         Unit { join: Divided, name: Name(\"SEC\"), exponent: -2 }"
    );
}

#[test]
fn labels_are_written() {
    assert_eq!(odl::read(CAMERA).unwrap().write().unwrap(), CANONICAL);
    assert_eq!(odl::relabel(CAMERA).unwrap(), CANONICAL);
    assert_eq!(odl::relabel(CANONICAL).unwrap(), CANONICAL);
    assert_eq!(odl::relabel(b"END").unwrap(), b"END\r\n");
    assert_eq!(
        odl::relabel(b"A=((1,2),(3)) END").unwrap(),
        b"A = ((1, 2), (3))\r\nEND\r\n"
    );
}

#[test]
fn reals_are_written_so_that_people_can_read_them() {
    for (real, form) in [
        ("1.50", "1.5"),
        ("15E-3", "0.015"),
        ("-.5", "-0.5"),
        ("-15.", "-15.0"),
        ("-0E5", "0.0"),
        ("1E-18", "0.000000000000000001"),
        ("-123456789012345678E-17", "-1.23456789012345678"),
        ("1E-19", "1.E-19"),
        ("15E-30", "15.E-30"),
        ("1E17", "100000000000000000.0"),
        ("12E16", "120000000000000000.0"),
        ("12E17", "12.E17"),
        ("1E18", "1.E18"),
        ("-9999999999999999990.", "-999999999999999999.E1"),
    ] {
        let canonical = format!("A = {form} <SEC>\r\nEND\r\n").into_bytes();
        let label = format!("A={real}<sec> END");
        assert_eq!(odl::relabel(label.as_bytes()).unwrap(), canonical, "{real}");
        assert_eq!(odl::relabel(&canonical).unwrap(), canonical, "{form}");
    }
}

#[test]
fn refusals_have_code_and_place() {
    assert_eq!(refusal(b""), (Code::EndsEarly, 0));
    assert_eq!(refusal(b"A=1990-366 END"), (Code::PastLimit, 2));
    assert_eq!(refusal(b"A='' END"), (Code::NoForm, 2));
    assert_eq!(refusal(b"A=() END"), (Code::Misplaced, 3));
    assert_eq!(refusal(b"A=((1)(2)) END"), (Code::Misplaced, 6));
    assert_eq!(refusal(b"OBJECT=X END_OBJECT=Y END"), (Code::OtherName, 20));
    assert_eq!(refusal(b"END;"), (Code::EndNotSetOff, 0));
    assert_eq!(refusal(b"A=1 /*/ END"), (Code::LeftOpen, 4));
    assert_eq!(refusal(&[b' '; 65_536]), (Code::LabelTooLong, 65_535));
    let error = odl::relabel(b"END;").unwrap_err();
    assert_eq!(
        error.to_string(),
        "code 9 at 0: END without spacing or a line end after it"
    );
}

#[test]
fn a_long_table_is_read_but_not_relabelled() {
    let label = format!("A=({}1) END", "1,".repeat(10_000));
    let read = odl::read(label.as_bytes()).unwrap();
    assert_eq!(read.table().as_bytes().len(), 5 + 1 + 9 * 10_001 + 1 + 3);
    assert_eq!(read.write().unwrap().len(), 5 + 3 * 10_000 + 1 + 1 + 2 + 5);
    let error = odl::relabel(label.as_bytes()).unwrap_err();
    assert_eq!((error.code, error.place), (Code::RoomTooShort, label.len()));
}

#[test]
fn names_and_texts_are_looked_up() {
    let bytes = b"OBJECT=X A=1 END_OBJECT A=\"Jupi-\n  ter\nring\" B=2 END";
    let label = odl::read(bytes).unwrap();
    let at = label.find("a", 0).unwrap();
    assert_eq!(label.name(at), Some("A"));
    let text = label.row(at).unwrap().next;
    assert_eq!(label.text(text).unwrap(), "Jupiter ring");
    assert_eq!(label.name(text), None);
    assert_eq!(label.find("C", 0).unwrap_err().code, Code::NameAbsent);
    assert_eq!(label.find("B", 1).unwrap_err().code, Code::NoSuchRow);
    assert_eq!(label.text(at).unwrap_err().code, Code::NoSuchRow);
    assert_eq!(label.row(1), None);
    assert_eq!(label.row(usize::MAX), None);
    let inside = label.rows().nth(1).unwrap();
    assert_eq!(label.find("A", inside.offset).unwrap(), inside.offset);
    assert_eq!(
        label.find("B", inside.offset).unwrap_err().code,
        Code::NameAbsent
    );
}

#[test]
fn tables_from_elsewhere_are_judged() {
    let proper = [1, 0, 0, 0, 1, 10, 0, 0, 0, 0, 0, 0, 0, 7, 99, 0, 0];
    let label = Label::with_table(b"a", proper.to_vec()).unwrap();
    assert_eq!(label.write().unwrap(), b"A = 7\r\nEND\r\n");
    let error = |place| Error {
        code: Code::ImproperTable,
        place,
    };
    assert_eq!(
        Label::with_table(b"a", proper[..14].to_vec()),
        Err(error(14))
    );
    assert_eq!(Label::with_table(b"1", proper.to_vec()), Err(error(0)));
    assert_eq!(odl::write(b"", &proper), Err(error(0)));
    assert_eq!(odl::name(b"", &proper, 0), b"");
}

#[test]
fn reals_from_elsewhere_are_judged() {
    let write = |number: i64, power: i16| {
        let row = [&[11], &number.to_be_bytes()[..], &power.to_be_bytes()].concat();
        odl::write(b"A", &[&[1, 0, 0, 0, 1], &row[..], &[99, 0, 0]].concat())
    };
    assert_eq!(
        write(-15, -18).unwrap(),
        b"A = -0.000000000000000015\r\nEND\r\n"
    );
    let error = Error {
        code: Code::ImproperTable,
        place: 5,
    };
    for (number, power) in [(10, 0), (0, 1), (1_000_000_000_000_000_001, 0), (1, 1_000)] {
        assert_eq!(write(number, power), Err(error), "{number} {power}");
    }
}
