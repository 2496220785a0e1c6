//! What the checks share. Rows are described from the bytes of the table by
//! its printed layout, not by way of the model's own decoder.

use odl_model::{read, write, Answer};
use std::collections::BTreeMap;
use std::fmt::Debug;

const UNTOUCHED: u8 = 0xA5;

/// The answer of a reading with ample room, and the table.
pub fn reading(label: &[u8]) -> (Answer, Vec<u8>) {
    filled(|room| read(label, room))
}

/// The answer of a writing with ample room, and the label.
pub fn writing(label: &[u8], table: &[u8]) -> (Answer, Vec<u8>) {
    filled(|room| write(label, table, room))
}

/// Runs a call with more room than it can need. The room beyond the reported
/// length must come back as it was, and on refusal all of it.
pub fn filled(call: impl Fn(&mut [u8]) -> Answer) -> (Answer, Vec<u8>) {
    let mut room = vec![UNTOUCHED; call(&mut []).length + 20];
    let answer = call(&mut room);
    let rest = room.split_off(answer.length);
    assert!(rest.iter().all(|&byte| byte == UNTOUCHED));
    (answer, room)
}

/// Checks that room one byte short is left alone, and exact room is enough.
pub fn check_exact_room(call: impl Fn(&mut [u8]) -> Answer) {
    let (whole, bytes) = filled(&call);
    assert_eq!(whole.code, 0);
    let mut exact = vec![UNTOUCHED; whole.length];
    assert_eq!(call(&mut exact), whole);
    assert_eq!(exact, bytes);
    if whole.length > 0 {
        let mut short = vec![UNTOUCHED; whole.length - 1];
        assert_eq!(call(&mut short), Answer { code: 11, ..whole });
        assert!(short.iter().all(|&byte| byte == UNTOUCHED));
    }
}

/// The table of a label that must be accepted.
pub fn table_of(label: &[u8]) -> Vec<u8> {
    let (answer, table) = reading(label);
    assert_eq!(answer.code, 0, "{}", escaped(label));
    table
}

#[track_caller]
pub fn refused(label: impl AsRef<[u8]>, code: u8, place: usize) {
    let label = label.as_ref();
    let expected = Answer {
        code,
        place,
        length: 0,
    };
    assert_eq!(reading(label).0, expected, "{}", escaped(label));
}

/// Checks an accepted label's rows, given as in the list of examples.
#[track_caller]
pub fn accepted(label: impl AsRef<[u8]>, rows: &str) {
    let label = label.as_ref();
    let (answer, table) = reading(label);
    assert_eq!(answer.code, 0, "{} {answer:?}", escaped(label));
    assert_eq!(answer.length, table.len());
    assert_eq!(described(label, &table), rows, "{}", escaped(label));
    assert!(rows.ends_with(&format!("last {}", answer.place)));
}

/// Checks the rows of `A=<value> END`, but for the first and the last.
#[track_caller]
pub fn value(value: &str, rows: &str) {
    let label = format!("A={value} END");
    accepted(
        &label,
        &format!("attribute A; {rows}; last {}", label.len()),
    );
}

/// Checks that `A=<value> END` is refused at the value.
#[track_caller]
pub fn value_refused(value: &str, code: u8) {
    refused(format!("A={value} END"), code, 2);
}

/// The rows of a whole table as the list of examples writes them.
pub fn described(label: &[u8], table: &[u8]) -> String {
    let rows: Vec<String> = row_slices(table)
        .iter()
        .map(|row| described_row(label, row))
        .collect();
    rows.join("; ")
}

/// The table cut into its rows.
pub fn row_slices(mut table: &[u8]) -> Vec<&[u8]> {
    let mut rows = Vec::new();
    while let Some(&kind) = table.first() {
        let body = match kind {
            1 | 2 | 3 | 5 | 13 | 14 => 4,
            4 | 6 | 20..=23 => 0,
            10 => 8,
            11 => 10,
            12 => 15,
            15 => 6,
            99 => 2,
            _ => panic!("no row of kind {kind}"),
        };
        let (row, rest) = table.split_at(1 + body);
        rows.push(row);
        table = rest;
    }
    rows
}

pub fn offset(bytes: &[u8]) -> usize {
    usize::from(u16::from_be_bytes([bytes[0], bytes[1]]))
}

fn described_row(label: &[u8], row: &[u8]) -> String {
    let body = &row[1..];
    let shown = |at: usize| escaped(&label[offset(&body[at..])..offset(&body[at + 2..])]);
    let number = || i64::from_be_bytes(body[..8].try_into().unwrap());
    match row[0] {
        1 => format!("attribute {}", shown(0)),
        2 => format!("pointer {}", shown(0)),
        3 => format!("object {}", shown(0)),
        4 => "end of object".to_string(),
        5 => format!("group {}", shown(0)),
        6 => "end of group".to_string(),
        10 => format!("integer {}", number()),
        11 => {
            let power = i16::from_be_bytes([body[8], body[9]]);
            format!("real {} power {power}", number())
        }
        12 => described_moment(body),
        13 => format!("text {}", shown(0)),
        14 => format!("symbol {}", shown(0)),
        15 => {
            let operator = ["first", "times", "divided"][usize::from(body[0])];
            format!("unit {operator} {} {}", shown(1), body[5] as i8)
        }
        20 => "sequence".to_string(),
        21 => "end of sequence".to_string(),
        22 => "set".to_string(),
        23 => "end of set".to_string(),
        _ => format!("last {}", offset(body)),
    }
}

fn described_moment(body: &[u8]) -> String {
    let date = format!("{:04}-{:02}-{:02}", offset(&body[1..]), body[3], body[4]);
    let nanoseconds = u32::from_be_bytes(body[8..12].try_into().unwrap());
    let offset = i16::from_be_bytes([body[12], body[13]]);
    let zone = ["no zone", "Z", "signed zone"][usize::from(body[14])];
    let time = format!(
        "{:02}:{:02}:{:02}.{nanoseconds:09} offset {offset} {zone}",
        body[5], body[6], body[7]
    );
    match body[0] {
        1 => {
            assert!(body[5..].iter().all(|&byte| byte == 0));
            format!("date {date}")
        }
        2 => {
            assert!(body[1..5].iter().all(|&byte| byte == 0));
            format!("time {time}")
        }
        _ => format!("date-time {date} {time}"),
    }
}

/// Bytes in the escapes of the list of examples.
pub fn escaped(bytes: &[u8]) -> String {
    bytes
        .iter()
        .map(|&byte| match byte {
            b'\n' => "\\n".to_string(),
            b'\r' => "\\r".to_string(),
            b'\t' => "\\t".to_string(),
            b'"' => "\\\"".to_string(),
            b'\\' => "\\x5C".to_string(),
            32..=126 => char::from(byte).to_string(),
            _ => format!("\\x{byte:02X}"),
        })
        .collect()
}

/// The bytes that these escapes stand for.
pub fn unescaped(text: &str) -> Vec<u8> {
    let mut bytes = Vec::new();
    let mut rest = text.as_bytes();
    loop {
        rest = match rest {
            [] => return bytes,
            [b'\\', b'x', high, low, after @ ..] => {
                let digits = [*high, *low];
                let digits = std::str::from_utf8(&digits).unwrap();
                bytes.push(u8::from_str_radix(digits, 16).unwrap());
                after
            }
            [b'\\', mark, after @ ..] => {
                bytes.push(match mark {
                    b'n' => b'\n',
                    b'r' => b'\r',
                    b't' => b'\t',
                    b'"' => b'"',
                    _ => panic!("no escape in {text}"),
                });
                after
            }
            [byte, after @ ..] => {
                bytes.push(*byte);
                after
            }
        };
    }
}

/// Checks that each of these cases is shown more than a few times.
pub fn check_shown<Case: Ord + Debug>(cases: Vec<Case>, shown: impl Iterator<Item = Case>) {
    let mut counts: BTreeMap<Case, usize> = cases.into_iter().map(|case| (case, 0)).collect();
    for case in shown {
        *counts.get_mut(&case).unwrap() += 1;
    }
    assert!(counts.values().all(|&count| count > 5), "{counts:#?}");
}
