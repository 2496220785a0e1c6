//! The rulings on open points, each with its inputs and answers.

use crate::support::*;
use odl_model::{find, name, read, relabel, text, write, Answer};

// Elements

#[test]
fn comments_open_inside_units() {
    refused("A=1 <KM/*SEC>", 3, 7);
    accepted(
        "A=1 <KM//* per */ x\nSEC> END",
        "attribute A; integer 1; unit first KM 1; unit divided SEC 1; last 28",
    );
    accepted(
        "A=1 <KM**/*c*/\n2> END",
        "attribute A; integer 1; unit first KM 2; last 21",
    );
}

#[test]
fn stars_are_taken_two_at_a_time() {
    // `**` then `*`: the `*` is where the exponent should be.
    refused("A=1 <KM***2> END", 6, 9);
    // `*` then `*`: the second is where a unit should be.
    refused("A=1 <KM* *2> END", 6, 9);
}

#[test]
fn every_line_end_ends_comments_and_rests() {
    for end in ["\r", "\n", "\x0c", "\x0b"] {
        refused(format!("/* c{end}*/ END"), 3, 0);
        accepted(format!("/* c */ END{end}END"), "last 15");
    }
}

#[test]
fn rest_of_a_comments_line() {
    refused("/* c */ END", 10, 11);
    accepted(b"/*c*/ \xff\x80\0\"'\nEND", "last 15");
    refused("/*/", 3, 0);
    accepted("/**/\nEND", "last 8");
}

#[test]
fn bytes_in_comments() {
    accepted("/*\0\x7f\t'\"*/\nEND", "last 13");
    refused(b"A=1 /* \x80 */\nEND", 2, 4);
    refused(b"/* \n \x80 */", 3, 0);
    refused(b"/* \x80 \n */", 2, 0);
}

#[test]
fn bytes_in_texts() {
    value("\"\0\x01'\x7f\"", "text \\x00\\x01'\\x7F");
    refused(b"A=\"\x80\" END", 2, 2);
    refused(b"A=\"x\x80", 2, 2);
    refused("A=\"x END", 3, 2);
}

#[test]
fn bytes_in_symbols() {
    for byte in ["\t", "\0", "\x7f"] {
        value_refused(&format!("'a{byte}b'"), 2);
    }
    refused(b"A='a\x80b' END", 2, 2);
    for end in ["\r", "\n", "\x0c", "\x0b"] {
        value_refused(&format!("'a{end}b'"), 3);
    }
    refused("A='a", 3, 2);
}

#[test]
fn length_of_symbols_counts_last() {
    let long = "s".repeat(255);
    value(&format!("'{long}'"), &format!("symbol {long}"));
    value_refused(&format!("'{long}s'"), 5);
    value_refused(&format!("'{long}s\t'"), 2);
    value_refused(&format!("'{long}s\n'"), 3);
    refused(format!("A='{long}s"), 3, 2);
    value_refused("''", 4);
}

#[test]
fn bytes_that_begin_no_element() {
    for byte in b"&!$%;?@[]\\|~`\0\x01\x08\x0e\x1f\x7f\x80\xff" {
        refused([b"A=1 ", &[*byte][..]].concat(), 2, 4);
    }
    for byte in ["+", "-", ".", ":", "#", "_"] {
        refused(format!("A=1 {byte} END"), 4, 4);
    }
}

#[test]
fn no_spacing_is_needed() {
    accepted(
        "A=(1)END",
        "attribute A; sequence; integer 1; end of sequence; last 8",
    );
    accepted(
        "A='x'B=2 END",
        "attribute A; symbol x; attribute B; integer 2; last 12",
    );
}

// Words

#[test]
fn based_integers() {
    for word in ["16#G#", "2#2#", "1#0#", "0#0#", "17#0#"] {
        value_refused(word, 5);
    }
    for word in ["16##", "16#-#", "16#4", "-16#F#"] {
        value_refused(word, 4);
    }
    value("016#F#", "integer 15");
    value("16#-0#", "integer 0");
    value("16#7FFFFFFFFFFFFFFF#", "integer 9223372036854775807");
    value_refused("16#8000000000000000#", 5);
    value_refused("16#-8000000000000000#", 5);
    value_refused("100000000000000000000000#1#", 5);
}

#[test]
fn integers() {
    value("-0", "integer 0");
    value("-9223372036854775807", "integer -9223372036854775807");
    value_refused("-9223372036854775808", 5);
    value("0000000000000000000000000001", "integer 1");
}

#[test]
fn limits_of_reals_hold_as_held() {
    value("0.1E1000", "real 1 power 999");
    value_refused("10E999", 5);
    value("0E5000", "real 0 power 0");
    value("-0.0", "real 0 power 0");
    value("1E0000000001", "real 1 power 1");
    value("1E-999", "real 1 power -999");
    value_refused("1E-1000", 5);
    value_refused("-8.1E-99999999999999999999", 5);
    value_refused("0.1E-999", 5);
    value("0E99999999999999999999999", "real 0 power 0");
    value_refused("1E99999999999999999999999", 5);
    value("999999999999999999.", "real 999999999999999999 power 0");
    value("9999999999999999990.", "real 999999999999999999 power 1");
    value_refused("9999999999999999999.", 5);
    value_refused("1000000000000000001.", 5);
    value("000.00000000000000000000150", "real 15 power -22");
}

#[test]
fn forms_of_reals() {
    for word in ["1E", "1E5.", ".E5", "."] {
        value_refused(word, 4);
    }
    value("5.", "real 5 power 0");
    value(".5", "real 5 power -1");
    value("1e+5", "real 1 power 5");
    value("-1e5", "real -1 power 5");
    value("E5", "symbol E5");
}

#[test]
fn digit_counts_of_dates_and_times() {
    let words = [
        "199-01",
        "1990-1234",
        "1990-7-123",
        "100:00",
        "10:00:001",
        "10:00:.5",
        "10:00+007",
    ];
    for word in words {
        value_refused(word, 4);
    }
}

#[test]
fn ranges_of_dates_and_times() {
    let words = [
        "0000-01-01",
        "0000-001",
        "1990-13-01",
        "1990-00-01",
        "1990-01-00",
        "1990-000",
        "1990-366",
        "1990-02-29",
        "1900-02-29",
        "24:00",
        "10:60",
        "10:00:60",
        "10:00+13",
        "10:00+12:60",
    ];
    for word in words {
        value_refused(word, 5);
    }
}

#[test]
fn digit_counts_go_before_ranges() {
    for word in ["0000-1234", "1990-13-123", "24:00:001", "10:60+007"] {
        value_refused(word, 4);
    }
}

#[test]
fn seconds_and_zones() {
    value("10:00:12.", "time 10:00:12.000000000 offset 0 no zone");
    value(
        "10:00:12.123456789000",
        "time 10:00:12.123456789 offset 0 no zone",
    );
    value_refused("10:00:12.1234567891", 5);
    value("10:00z", "time 10:00:00.000000000 offset 0 Z");
    value(
        "10:00-12:59",
        "time 10:00:00.000000000 offset -779 signed zone",
    );
    value("10:00+0:1", "time 10:00:00.000000000 offset 1 signed zone");
    for word in ["1990-07-04Z", "1990-07-04+7", "T12:00", "1990-07-04T"] {
        value_refused(word, 4);
    }
    value(
        "2000-02-29t0:0:0",
        "date-time 2000-02-29 00:00:00.000000000 offset 0 no zone",
    );
}

#[test]
fn identifiers_have_their_form_first() {
    let sixty = "N".repeat(60);
    value(&sixty, &format!("symbol {sixty}"));
    value_refused(&format!("{sixty}N"), 5);
    value_refused(&format!("{sixty}__N"), 4);
    value_refused(&format!("{sixty}_"), 4);
    value_refused(&format!("{sixty}-N"), 4);
    refused(format!("{sixty}N=1 END"), 5, 0);
    value("A_1_b", "symbol A_1_b");
    value_refused("A__B", 4);
    value_refused("A_", 4);
    value_refused("_A", 4);
}

#[test]
fn reserved_words_in_any_case() {
    for word in [
        "End",
        "oBJECT",
        "End_Object",
        "grouP",
        "end_GROUP",
        "Begin_object",
    ] {
        value_refused(word, 6);
    }
    value("Begin_group", "symbol Begin_group");
    accepted("eNd", "last 3");
}

#[test]
fn word_faults_go_before_misplacement() {
    refused("A=1 16## END", 4, 4);
    refused("A=1 17#0# END", 5, 4);
    refused("A=1 '' END", 4, 4);
}

// Statements

#[test]
fn end_where_a_statement_may_begin() {
    for after in ["/* */", "=", ";", "(", "\"", "\0"] {
        refused(format!("END{after}"), 9, 0);
    }
    refused(b"END\x80", 9, 0);
    for after in [" ", "\t", "\r", "\n", "\x0c", "\x0b"] {
        accepted(format!("END{after}\""), "last 3");
    }
    refused("END.", 4, 0);
    refused("END-", 4, 0);
}

#[test]
fn end_elsewhere() {
    refused("A=END;", 6, 2);
    refused("OBJECT=X END;", 6, 9);
    refused("A END", 6, 2);
    refused("^END=", 6, 1);
    refused("A=(1 END", 6, 5);
}

#[test]
fn closing_words() {
    refused("OBJECT=X END_GROUP", 6, 9);
    refused("GROUP=X END_OBJECT", 6, 8);
    refused("END_OBJECT", 6, 0);
    refused("END_GROUP=X", 6, 0);
}

#[test]
fn closing_names() {
    refused("OBJECT=X END_OBJECT=5 END", 6, 20);
    refused("OBJECT=X END_OBJECT=END END", 6, 20);
    refused("OBJECT=X END_OBJECT='X' END", 6, 20);
    refused("OBJECT=X END_OBJECT=1E END", 4, 20);
    refused("OBJECT=X END_OBJECT=17#0# END", 5, 20);
    refused("OBJECT=X END_OBJECT=Y &", 7, 20);
    accepted(
        "OBJECT=Xy END_OBJECT=xY END",
        "object Xy; end of object; last 27",
    );
    refused("OBJECT=X END_OBJECT=", 10, 20);
    // The sign belongs to the closing word, so A is its name.
    refused("OBJECT=X END_OBJECT = A = 1 END", 7, 22);
}

#[test]
fn depth_is_judged_at_the_word() {
    let open = "OBJECT=X ".repeat(80);
    refused(format!("{open}GROUP"), 8, 720);
    refused(format!("{open}object;"), 8, 720);
    refused(format!("{open}A=OBJECT"), 6, 722);
    refused(format!("{open}BEGIN_OBJECT"), 6, 720);
    refused("BEGIN_OBJECT=X", 6, 0);
}

#[test]
fn unit_exponents() {
    refused("A=1 <KM**16#2#> END", 6, 9);
    refused("A=1 <KM**2.> END", 6, 9);
    refused("A=1 <KM**100> END", 5, 9);
    refused("A=1 <KM**-100> END", 5, 9);
    value("1 <KM**0>", "integer 1; unit first KM 0");
    value("1 <KM**+2>", "integer 1; unit first KM 2");
    value("1 <KM**0099>", "integer 1; unit first KM 99");
    value("1 <KM**-99>", "integer 1; unit first KM -99");
}

#[test]
fn units_follow_numbers_only() {
    refused("A=X <KM> END", 6, 4);
    refused("A=\"1\" <KM> END", 6, 6);
    refused("A=(1) <KM> END", 6, 6);
    refused("A=1 <KM> <KM> END", 6, 9);
    refused("A=10:00 <KM> END", 6, 8);
    refused("A=1 <> END", 6, 5);
    refused("A=1 <END> END", 6, 5);
}

#[test]
fn comment_in_an_empty_set() {
    accepted(
        "A={/* none */\n} END",
        "attribute A; set; end of set; last 19",
    );
}

#[test]
fn sequences_of_sequences() {
    refused("A=(1 (2)) END", 6, 5);
    refused("A=(()) END", 6, 4);
    refused("A=(((1))) END", 6, 4);
    refused("A=({1}) END", 6, 3);
    refused("A={(1)} END", 6, 3);
    refused("A=(1,) END", 6, 5);
    refused("A={1,} END", 6, 5);
}

#[test]
fn input_that_ends_early() {
    for label in [
        " ", "A", "A=", "A=1", "A=1 <", "A=1 <K", "A=(", "A={1,", "^", "OBJECT",
    ] {
        refused(label, 10, label.len());
    }
    refused("OBJECT=X END_OBJECT ", 10, 20);
}

// Tables

const LABEL: &[u8] = b"Ab 'x\"\x80END";

/// Checks that a table over the label above is refused at this place.
#[track_caller]
fn improper(rows: &[&[u8]], place: usize) {
    let table = rows.concat();
    let expected = Answer {
        code: 12,
        place,
        length: 0,
    };
    assert_eq!(writing(LABEL, &table).0, expected);
    assert_eq!(filled(|room| text(LABEL, &table, 0, room)).0, expected);
    assert_eq!(find(LABEL, &table, b"A", 0), (12, place, 0));
    assert_eq!(name(LABEL, &table, 0), (0, 0));
}

#[track_caller]
fn proper(rows: &[&[u8]]) {
    assert_eq!(writing(LABEL, &rows.concat()).0.code, 0);
}

const NAME: &[u8] = &[1, 0, 0, 0, 2];
const FIVE: &[u8] = &[10, 0, 0, 0, 0, 0, 0, 0, 5];
const LAST: &[u8] = &[99, 0, 0];

#[test]
fn spans_of_names() {
    proper(&[NAME, FIVE, LAST]);
    for span in [
        [0, 1, 0, 0],
        [0, 0, 0, 0],
        [0, 0, 0, 3],
        [0, 0, 0, 11],
        [0, 7, 0, 10],
        [0, 7, 0, 11],
        [255, 255, 255, 255],
    ] {
        improper(&[&[1], &span, FIVE, LAST], 0);
        improper(&[&[3], &span, &[4], LAST], 0);
        improper(&[NAME, FIVE, &[15, 0], &span, &[1], LAST], 14);
    }
}

#[test]
fn spans_of_symbols_and_texts() {
    proper(&[NAME, &[14, 0, 7, 0, 10], LAST]);
    proper(&[NAME, &[14, 0, 0, 0, 3], LAST]);
    proper(&[NAME, &[13, 0, 0, 0, 5], LAST]);
    proper(&[NAME, &[13, 0, 10, 0, 10], LAST]);
    improper(&[NAME, &[14, 0, 1, 0, 1], LAST], 5);
    improper(&[NAME, &[14, 0, 0, 0, 4], LAST], 5);
    improper(&[NAME, &[14, 0, 6, 0, 7], LAST], 5);
    improper(&[NAME, &[13, 0, 4, 0, 6], LAST], 5);
    improper(&[NAME, &[13, 0, 6, 0, 7], LAST], 5);
    improper(&[NAME, &[13, 0, 11, 0, 11], LAST], 5);
}

#[test]
fn long_spans() {
    let label = [b'N'; 256];
    let table = |kind: u8, end: u16| {
        let [high, low] = end.to_be_bytes();
        [NAME, &[kind, 0, 0, high, low], LAST].concat()
    };
    let code = |table: Vec<u8>| writing(&label, &table).0.code;
    assert_eq!(code(table(14, 255)), 0);
    assert_eq!(code(table(14, 256)), 12);
    assert_eq!(code(table(13, 256)), 0);
    let named = |length: u8| [&[1, 0, 0, 0, length], FIVE, LAST].concat();
    assert_eq!(code(named(60)), 0);
    assert_eq!(code(named(61)), 12);
}

#[test]
fn place_is_the_start_of_a_row() {
    improper(&[], 0);
    improper(&[NAME], 5);
    improper(&[NAME, FIVE], 14);
    improper(&[NAME, &FIVE[..8]], 5);
    improper(&[NAME, FIVE, &LAST[..2]], 14);
    improper(&[LAST, LAST], 3);
    improper(&[LAST, &[0]], 3);
    improper(&[&[0]], 0);
    improper(&[&[7]], 0);
}

#[test]
fn numbers_that_no_table_has() {
    let integer = |number: i64| [&[10], &number.to_be_bytes()[..]].concat();
    let real =
        |number: i64, power: i16| [&[11], &number.to_be_bytes()[..], &power.to_be_bytes()].concat();
    proper(&[NAME, &integer(-i64::MAX), LAST]);
    improper(&[NAME, &integer(i64::MIN), LAST], 5);
    for (number, power) in [
        (0, 0),
        (1, 999),
        (-1, -999),
        (999_999_999_999_999_999, 0),
        (-999_999_999_999_999_999, 0),
    ] {
        proper(&[NAME, &real(number, power), LAST]);
    }
    for (number, power) in [
        (0, 1),
        (10, 0),
        (-20, 0),
        (1, 1000),
        (1, -1000),
        (1_000_000_000_000_000_001, 0),
        (i64::MIN, 0),
    ] {
        improper(&[NAME, &real(number, power), LAST], 5);
    }
}

#[test]
fn moments_that_no_table_has() {
    let date = [12, 1, 7, 0xC6, 7, 4, 0, 0, 0, 0, 0, 0, 0, 0, 0, 0];
    let time = [
        12, 2, 0, 0, 0, 0, 23, 59, 59, 0x3B, 0x9A, 0xC9, 0xFF, 3, 11, 2,
    ];
    proper(&[NAME, &date, LAST]);
    proper(&[NAME, &time, LAST]);
    let changes: [(&[u8; 16], usize, u8); 19] = [
        (&date, 1, 0),
        (&date, 1, 4),
        (&date, 1, 3 | 4),
        (&date, 2, 0x27),
        (&date, 4, 0),
        (&date, 4, 13),
        (&date, 5, 0),
        (&date, 5, 32),
        (&date, 6, 1),
        (&date, 8, 1),
        (&date, 12, 1),
        (&date, 14, 1),
        (&time, 3, 1),
        (&time, 5, 1),
        (&time, 6, 24),
        (&time, 7, 60),
        (&time, 8, 60),
        (&time, 11, 0xCA),
        (&time, 14, 12),
    ];
    for (row, at, byte) in changes {
        let mut changed = *row;
        changed[at] = byte;
        improper(&[NAME, &changed, LAST], 5);
    }
}

#[test]
fn units_in_tables() {
    let unit = |operator: u8, exponent: i8| vec![15, operator, 0, 0, 0, 2, exponent as u8];
    proper(&[NAME, FIVE, &unit(0, 0), LAST]);
    proper(&[NAME, FIVE, &unit(0, -99), &unit(1, 99), &unit(2, 1), LAST]);
    improper(&[NAME, FIVE, &unit(0, 100), LAST], 14);
    improper(&[NAME, FIVE, &unit(0, -100), LAST], 14);
    improper(&[NAME, FIVE, &unit(1, 1), LAST], 14);
    improper(&[NAME, FIVE, &unit(3, 1), LAST], 14);
    improper(&[NAME, FIVE, &unit(0, 1), &unit(0, 1), LAST], 21);
    improper(&[NAME, &[14, 0, 0, 0, 2], &unit(0, 1), LAST], 10);
    improper(&[NAME, &[22], FIVE, &[23], &unit(0, 1), LAST], 16);
}

#[test]
fn order_of_rows() {
    improper(&[FIVE, LAST], 0);
    improper(&[NAME, LAST], 5);
    improper(&[NAME, FIVE, FIVE, LAST], 14);
    improper(&[NAME, &[20, 21], LAST], 6);
    improper(&[NAME, &[20, 20, 21], LAST], 7);
    improper(&[NAME, &[20], FIVE, &[20]], 15);
    improper(&[NAME, &[20, 20], FIVE, &[21], FIVE], 17);
    improper(&[NAME, &[22, 20]], 6);
    improper(&[NAME, &[22, 21]], 6);
    proper(&[NAME, &[22, 23], LAST]);
    proper(&[NAME, &[20, 20], FIVE, &[21, 20], FIVE, &[21, 21], LAST]);
}

#[test]
fn blocks_in_tables() {
    let object: &[u8] = &[3, 0, 0, 0, 2];
    let group: &[u8] = &[5, 0, 0, 0, 2];
    improper(&[object, LAST], 5);
    improper(&[object, &[6]], 5);
    improper(&[group, &[4]], 5);
    improper(&[&[4]], 0);
    improper(&[object], 5);
    let deep = object.repeat(80);
    proper(&[&deep, &[4; 80], LAST]);
    improper(&[&deep, group, &[6], &[4; 80], LAST], 400);
}

#[test]
fn offset_of_the_last_row() {
    proper(&[&[99, 0, 10]]);
    improper(&[&[99, 0, 11]], 0);
}

#[test]
fn any_label_bytes_may_lie_under_a_table() {
    assert_eq!(writing(b"", &[99, 0, 0]), writing(LABEL, &[99, 0, 10]));
    assert_eq!(
        writing(&[b' '; 65_536], &[0]).0,
        Answer {
            code: 1,
            place: 65_535,
            length: 0
        }
    );
}

// Writer

#[test]
fn end_line_counts() {
    let (answer, written) = writing(b"", &[99, 0, 0]);
    assert_eq!(written, b"END\r\n");
    assert_eq!((answer.place, answer.length), (5, 5));
}

#[test]
fn zero_offset_is_z() {
    for zone in ["", "Z", "z", "+0", "-00:00"] {
        let label = format!("A=10:00{zone} END");
        assert_eq!(relabel(label.as_bytes()), b"A = 10:00:00Z\r\nEND\r\n");
    }
}

#[test]
fn symbols_are_folded() {
    assert_eq!(relabel(b"A='a b' END"), b"A = 'A B'\r\nEND\r\n");
    assert_eq!(relabel(b"A='ab' END"), b"A = AB\r\nEND\r\n");
    let long = format!("A='{}' END", "s".repeat(61));
    let written = format!("A = '{}'\r\nEND\r\n", "S".repeat(61));
    assert_eq!(relabel(long.as_bytes()), written.as_bytes());
}

#[test]
fn powers_have_no_plus() {
    assert_eq!(relabel(b"A=1e+25 END"), b"A = 1.E25\r\nEND\r\n");
}

/// A label whose written form has `length` bytes, and its table. Every row
/// shows the same text.
fn writing_of(length: usize) -> (Vec<u8>, Vec<u8>) {
    // `A = ""` and `END` with their line ends are 13 bytes.
    let label = [
        b"A=\"".to_vec(),
        vec![b'x'; length - 13],
        b"\" END".to_vec(),
    ]
    .concat();
    let table = table_of(&label);
    (label, table)
}

#[test]
fn written_length_is_bounded() {
    let (label, table) = writing_of(65_535);
    assert_eq!(writing(&label, &table).0.length, 65_535);
    let (label, table) = writing_of(65_536);
    let expected = Answer {
        code: 13,
        place: 65_535,
        length: 0,
    };
    // 13 goes before 11: with no room at all the answer is the same.
    assert_eq!(write(&label, &table, &mut []), expected);
    assert_eq!(writing(&label, &table).0, expected);
    assert_eq!(relabel(&label), b"REFUSED 13 65535\r\n");
}

#[test]
fn short_room_for_writing() {
    let mut room = [7; 4];
    let answer = write(b"", &[99, 0, 0], &mut room);
    let expected = Answer {
        code: 11,
        place: 5,
        length: 5,
    };
    assert_eq!((answer, room), (expected, [7; 4]));
}

// Lookup

const BLOCKS: &[u8] = b"a=1 object=o b=2 group=g a=3 end_group c=4 end_object A=5 ^b=6 END";

/// The label above, its table and the offsets of its rows.
fn blocks() -> (Vec<u8>, Vec<usize>) {
    let table = table_of(BLOCKS);
    let mut starts = vec![0];
    for row in row_slices(&table) {
        starts.push(starts[starts.len() - 1] + row.len());
    }
    (table, starts)
}

#[test]
fn lookup_stays_in_its_block() {
    let (table, at) = blocks();
    let find = |name: &str, row: usize| find(BLOCKS, &table, name.as_bytes(), row);
    // Rows: 0 a, 1 its value, 2 object, 3 b, 4 value, 5 group, 6 a, 7 value,
    // 8 end of group, 9 c, 10 value, 11 end of object, 12 A, 13 value,
    // 14 pointer b, 15 value, 16 last.
    assert_eq!(find("A", at[0]), (0, 0, at[0]));
    assert_eq!(find("a", at[2]), (0, 0, at[12]));
    assert_eq!(find("b", at[0]), (14, 0, 0));
    assert_eq!(find("B", at[3]), (0, 0, at[3]));
    assert_eq!(find("a", at[3]), (14, 0, 0));
    assert_eq!(find("c", at[3]), (0, 0, at[9]));
    assert_eq!(find("c", at[5]), (0, 0, at[9]));
    assert_eq!(find("a", at[6]), (0, 0, at[6]));
    assert_eq!(find("c", at[6]), (14, 0, 0));
    assert_eq!(find("c", at[8]), (14, 0, 0));
    assert_eq!(find("A", at[11]), (14, 0, 0));
    assert_eq!(find("b", at[14]), (14, 0, 0));
    assert_eq!(find("a", at[16]), (14, 0, 0));
}

#[test]
fn lookup_needs_a_row_that_may_be_asked_for() {
    let (table, at) = blocks();
    for row in [1, at[1], at[4], at[16] + 1, table.len(), usize::MAX] {
        assert_eq!(find(BLOCKS, &table, b"absent", row), (15, 0, 0));
    }
}

#[test]
fn lookup_folds_letters_only() {
    let label = b"a=1 END";
    let table = table_of(label);
    for name in [&b""[..], b"a ", b"\xc1", b"!", b"aa"] {
        assert_eq!(find(label, &table, name, 0), (14, 0, 0));
    }
    assert_eq!(find(&[0; 65_536], &table, b"a", 0), (1, 65_535, 0));
}

#[test]
fn names_of_rows() {
    let label = b"OBJECT=oh ^p=(1 <m>,'s t',\"x\") group=G v=2 end_group end_object END";
    let table = table_of(label);
    let mut at = 0;
    for row in row_slices(&table) {
        let (start, end) = name(label, &table, at);
        match row[0] {
            1 | 2 | 3 | 5 | 14 => assert_eq!((start, end), (offset(&row[1..]), offset(&row[3..]))),
            15 => assert_eq!(&label[start..end], b"m"),
            _ => assert_eq!((start, end), (0, 0)),
        }
        at += row.len();
    }
    assert_eq!(name(label, &table, 1), (0, 0));
    assert_eq!(name(label, &table, at), (0, 0));
    assert_eq!(name(&[b' '; 65_536], &[99, 0, 0], 0), (0, 0));
}

// Text

#[test]
fn reassembly() {
    let cases = [
        ("", ""),
        ("a-\n-\nb", "ab"),
        ("\n", " "),
        ("-\n", ""),
        ("--\n", "-"),
        ("a-\0\nb", "ab"),
        ("a \x7f\n\x01 b", "a b"),
        ("a\t b", "a\t b"),
        (" a ", " a "),
        (" \n a \r\n ", " a "),
        ("a-\r\n\r\n  b", "ab"),
        ("a- \nb", "a- b"),
        ("a-\tb", "a-\tb"),
        ("a\x0cb\x0bc", "a b c"),
        ("a -\nb", "a b"),
    ];
    for (raw, expected) in cases {
        let label = format!("A=\"{raw}\" END");
        let table = table_of(label.as_bytes());
        let (answer, bytes) = filled(|room| text(label.as_bytes(), &table, 5, room));
        let length = expected.len();
        assert_eq!(
            answer,
            Answer {
                code: 0,
                place: 0,
                length
            }
        );
        assert_eq!(bytes, expected.as_bytes(), "{}", escaped(raw.as_bytes()));
        let written = format!("A = \"{expected}\"\r\nEND\r\n");
        assert_eq!(relabel(label.as_bytes()), written.as_bytes());
    }
}

#[test]
fn text_refusals() {
    let label = b"A=\"ab\" END";
    let table = table_of(label);
    let answer = |row, room: &mut [u8]| {
        let answer = text(label, &table, row, room);
        (answer.code, answer.place, answer.length)
    };
    for row in [0, 1, 6, 10, 13, usize::MAX] {
        assert_eq!(answer(row, &mut [0; 9]), (15, 0, 0));
    }
    assert_eq!(answer(5, &mut [0; 1]), (11, 0, 2));
    let long = filled(|room| text(&[b' '; 65_536], &table, 5, room)).0;
    assert_eq!((long.code, long.place, long.length), (1, 65_535, 0));
}

// Relabel

#[test]
fn relabel_refuses_a_table_that_is_too_long() {
    // Each member is 2 bytes of label and 9 of table.
    let label = format!("A={{{}1}} END", "1,".repeat(8_000));
    let answer = read(label.as_bytes(), &mut []);
    assert_eq!((answer.code, answer.place), (11, label.len()));
    assert_eq!(answer.length, 5 + 1 + 8_001 * 9 + 1 + 3);
    let refusal = format!("REFUSED 11 {}\r\n", label.len());
    assert_eq!(relabel(label.as_bytes()), refusal.as_bytes());
    // The table itself may be as long as it likes.
    let table = table_of(label.as_bytes());
    let written = writing(label.as_bytes(), &table).0;
    assert_eq!(
        (written.code, written.length),
        (0, 4 + 8_000 * 3 + 3 + 2 + 5)
    );
}
