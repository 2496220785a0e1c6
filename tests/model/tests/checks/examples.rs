//! The checked examples and traps of the scope paper, the reassembly examples
//! of the standard, and the bytes of one table of each kind, by hand.

use crate::support::*;
use odl_model::{read, relabel, text, write, Answer};

#[test]
fn empty_input() {
    refused("", 10, 0);
}

#[test]
fn end_alone() {
    accepted("END", "last 3");
    assert_eq!(table_of(b"END"), [99, 0, 3]);
}

#[test]
fn based_integer() {
    accepted("A=16#-4B# END", "attribute A; integer -75; last 13");
}

#[test]
fn one_hyphen_means_day_of_year() {
    value("1990-07", "date 1990-01-07");
}

#[test]
fn day_366() {
    refused("A=1990-366 END", 5, 2);
    value("2000-366", "date 2000-12-31");
}

#[test]
fn empty_symbol_sequence_and_set() {
    refused("A='' END", 4, 2);
    refused("A=() END", 6, 3);
    accepted("A={} END", "attribute A; set; end of set; last 8");
}

#[test]
fn closing_name() {
    refused("OBJECT=X END_OBJECT=Y END", 7, 20);
}

#[test]
fn end_with_semicolon() {
    refused("END;", 9, 0);
}

#[test]
fn offset_keeps_its_sign() {
    value(
        "10:00-00:30",
        "time 10:00:00.000000000 offset -30 signed zone",
    );
}

#[test]
fn comment_does_not_close_on_its_own_opening() {
    refused("A=1 /*/ END", 3, 4);
}

#[test]
fn last_digit_of_the_largest_integer() {
    value("9223372036854775807", "integer 9223372036854775807");
    refused("A=9223372036854775808 END", 5, 2);
}

fn nested(depth: usize) -> String {
    "GROUP=X ".repeat(depth) + &"END_GROUP ".repeat(depth) + "END"
}

#[test]
fn depth() {
    let label = nested(80);
    let answer = reading(label.as_bytes()).0;
    let expected = Answer {
        code: 0,
        place: label.len(),
        length: 80 * 5 + 80 + 3,
    };
    assert_eq!(answer, expected);
    refused(nested(81), 8, 80 * 8);
}

#[test]
fn relabel_example() {
    let input = "object = cam /* rig 4 */ ignored\n start = 1990-158T15:24:12\n \
                 hold = 1.50 <sec**1>\nend_object\nEND\n";
    let output = "OBJECT = CAM\r\n  START = 1990-06-07T15:24:12Z\r\n  \
                  HOLD = 1.5 <SEC>\r\nEND_OBJECT = CAM\r\nEND\r\n";
    assert_eq!(relabel(input.as_bytes()), output.as_bytes());
    assert_eq!(relabel(output.as_bytes()), output.as_bytes());
}

#[test]
fn relabel_refusals() {
    assert_eq!(relabel(b"END;"), b"REFUSED 9 0\r\n");
    assert_eq!(relabel(b""), b"REFUSED 10 0\r\n");
    assert_eq!(relabel(&[b' '; 65_536]), b"REFUSED 1 65535\r\n");
}

#[test]
fn longest_label() {
    let mut label = vec![b' '; 65_535];
    label[65_532..].copy_from_slice(b"END");
    assert_eq!(table_of(&label), [99, 0xFF, 0xFF]);
    label.push(b' ');
    refused(label, 1, 65_535);
}

#[test]
fn trap_end_is_written_in_apostrophes() {
    assert_eq!(relabel(b"A='end' END"), b"A = 'END'\r\nEND\r\n");
    refused("A = END\r\nEND\r\n", 6, 4);
}

#[test]
fn trap_double_quotes_are_texts() {
    value("\"IO\"", "text IO");
}

/// The reassembled text of `A="<raw>" END`.
fn reassembled(raw: &str) -> String {
    let label = format!("A=\"{raw}\" END");
    let table = table_of(label.as_bytes());
    let (answer, bytes) = filled(|room| text(label.as_bytes(), &table, 5, room));
    assert_eq!((answer.code, answer.place), (0, 0));
    String::from_utf8(bytes).unwrap()
}

#[test]
fn trap_space_before_the_line_end() {
    assert_eq!(reassembled("Jupi- \nter"), "Jupi- ter");
}

#[test]
fn reassembly_in_the_standard() {
    assert_eq!(reassembled("To be or not to be"), "To be or not to be");
    assert_eq!(reassembled("To be or\nnot to be"), "To be or not to be");
    assert_eq!(
        reassembled("The planet Jupi-\nter is very big"),
        "The planet Jupiter is very big"
    );
}

#[test]
fn print_marks_are_plain_bytes() {
    assert_eq!(reassembled("line \\n and"), "line \\n and");
}

#[test]
fn table_bytes_of_blocks_and_names() {
    let table = table_of(b"OBJECT=X ^P=a GROUP=Y B='q' END_GROUP END_OBJECT=X END");
    let expected = [
        [3, 0, 7, 0, 8].to_vec(),
        [2, 0, 10, 0, 11].to_vec(),
        [14, 0, 12, 0, 13].to_vec(),
        [5, 0, 20, 0, 21].to_vec(),
        [1, 0, 22, 0, 23].to_vec(),
        [14, 0, 25, 0, 26].to_vec(),
        [6].to_vec(),
        [4].to_vec(),
        [99, 0, 54].to_vec(),
    ];
    assert_eq!(table, expected.concat());
}

#[test]
fn table_bytes_of_numbers_and_units() {
    let table = table_of(b"A=(-75, -1.5E-9 <KM/S**-2>) END");
    let expected = [
        [1, 0, 0, 0, 1].to_vec(),
        [20].to_vec(),
        [10, 255, 255, 255, 255, 255, 255, 255, 0xB5].to_vec(),
        [11, 255, 255, 255, 255, 255, 255, 255, 0xF1, 255, 0xF6].to_vec(),
        [15, 0, 0, 17, 0, 19, 1].to_vec(),
        [15, 2, 0, 20, 0, 21, 0xFE].to_vec(),
        [21].to_vec(),
        [99, 0, 31].to_vec(),
    ];
    assert_eq!(table, expected.concat());
}

#[test]
fn table_bytes_of_dates_times_and_texts() {
    let table = table_of(b"A={1990-07-04T12:30:15.5-01:30, 2:3, 4:5z, 2001-1, \"\"} END");
    let expected = [
        [1, 0, 0, 0, 1].to_vec(),
        [22].to_vec(),
        // 1990 is 0x07C6; half a second is 0x1DCD6500 nanoseconds; -90 is 0xFFA6.
        [
            12, 3, 7, 0xC6, 7, 4, 12, 30, 15, 0x1D, 0xCD, 0x65, 0, 0xFF, 0xA6, 2,
        ]
        .to_vec(),
        [12, 2, 0, 0, 0, 0, 2, 3, 0, 0, 0, 0, 0, 0, 0, 0].to_vec(),
        [12, 2, 0, 0, 0, 0, 4, 5, 0, 0, 0, 0, 0, 0, 0, 1].to_vec(),
        [12, 1, 7, 0xD1, 1, 1, 0, 0, 0, 0, 0, 0, 0, 0, 0, 0].to_vec(),
        [13, 0, 52, 0, 52].to_vec(),
        [23].to_vec(),
        [99, 0, 58].to_vec(),
    ];
    assert_eq!(table, expected.concat());
}

#[test]
fn written_label_has_every_form() {
    let label = b"a=1 ^b=(1,-2.0) c=((x,'y z'),(3)) d={} e={t,\"T\n u\"} \
        object=o group=g f=16#-ff# <m*s**-2/kg**1> end_group end_object \
        h=(0.0, -5e3, 12:0, 0001-1-2, 1999-365t1:2:3.040-0:5, 9:9+12:59) END";
    let written = "A = 1\r\n^B = (1, -2.0)\r\nC = ((X, 'Y Z'), (3))\r\nD = {}\r\n\
        E = {T, \"T u\"}\r\nOBJECT = O\r\n  GROUP = G\r\n    F = -255 <M*S**-2/KG>\r\n  \
        END_GROUP = G\r\nEND_OBJECT = O\r\n\
        H = (0.0, -5000.0, 12:00:00Z, 0001-01-02, 1999-12-31T01:02:03.04-00:05, \
        09:09:00+12:59)\r\nEND\r\n";
    assert_eq!(
        String::from_utf8(relabel(label)).unwrap(),
        written.to_string()
    );
}

#[test]
fn room_is_judged_last() {
    check_exact_room(|room| read(b"A=1 END", room));
    check_exact_room(|room| write(b"", &[99, 0, 0], room));
    let label = b"A=\"to\nbe\" END";
    let table = table_of(label);
    check_exact_room(|room| text(label, &table, 5, room));
}
