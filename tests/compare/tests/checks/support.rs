//! What the checks share.

use odl::raw::{self, Answer};

/// The seed of the random checks; ODL_SEED chooses another.
pub fn seed() -> u64 {
    std::env::var("ODL_SEED").map_or(1, |seed| seed.parse().unwrap())
}

/// The library's reading of a label, and the table, empty if it is refused.
pub fn reading(label: &[u8], room: usize) -> (Answer, Vec<u8>) {
    result(room, |table| raw::read(label, table))
}

/// The library's writing of a table in just the room that the model says is
/// needed, and the label, empty if it is refused.
pub fn writing(label: &[u8], table: &[u8]) -> (Answer, Vec<u8>) {
    let needed = odl_model::write(label, table, &mut []).length;
    result(needed, |out| raw::write(label, table, out))
}

fn result(room: usize, call: impl Fn(&mut [u8]) -> Answer) -> (Answer, Vec<u8>) {
    let mut room = vec![0; room];
    let answer = call(&mut room);
    room.truncate(answer.length);
    (answer, room)
}

/// The row of a date or time: kind, parts, year, month, day, hour, minute,
/// second, nanoseconds, offset, mark.
pub type MomentRow = [u8; 16];

/// The table of `A`, a sequence of these rows; `end` is just past END.
fn sequence_table(rows: &[MomentRow], end: usize) -> Vec<u8> {
    let last = [21, 99, (end >> 8) as u8, end as u8];
    [&[1, 0, 0, 0, 1, 20], &rows.concat()[..], &last].concat()
}

/// Checks that the library reads a sequence of these words as these rows.
#[track_caller]
pub fn check_read(words: &[String], rows: &[MomentRow]) {
    let label = format!("A=({}) END", words.join(","));
    let expected = sequence_table(rows, label.len());
    let (answer, table) = reading(label.as_bytes(), expected.len());
    let given = (answer.code, answer.place, answer.length);
    let near = label.get(answer.place..answer.place + 12);
    assert_eq!(given, (0, label.len(), expected.len()), "{near:?}");
    let differs = words
        .iter()
        .zip(rows.iter().zip(table[6..].chunks(16)))
        .find(|(_, (row, read))| row[..] != read[..]);
    assert_eq!(differs, None);
    assert!(table == expected);
}

/// Checks that the library writes a sequence of these rows in these forms.
#[track_caller]
pub fn check_written(rows: &[MomentRow], forms: &[String]) {
    let expected = format!("A = ({})\r\nEND\r\n", forms.join(", "));
    let table = sequence_table(rows, 0);
    let (answer, written) = result(expected.len(), |out| raw::write(b"A", &table, out));
    let given = (answer.code, answer.place, answer.length);
    assert_eq!(given, (0, expected.len(), expected.len()));
    let written = String::from_utf8(written).unwrap();
    let differs = expected
        .split(", ")
        .zip(written.split(", "))
        .find(|(form, given)| form != given);
    assert_eq!(differs, None);
    assert!(written == expected);
}

/// Checks that the library finds this word past a limit.
#[track_caller]
pub fn check_word_refused(word: &str) {
    let label = format!("A=(1990-07,{word}) END");
    let answer = reading(label.as_bytes(), 5 * label.len()).0;
    let given = (answer.code, answer.place, answer.length);
    assert_eq!(given, (5, 11, 0), "{word}");
}

/// Checks that no proper table has this row, by the library.
#[track_caller]
pub fn check_row_refused(row: MomentRow) {
    let proper = [12, 1, 7, 0xC6, 1, 7, 0, 0, 0, 0, 0, 0, 0, 0, 0, 0];
    let table = sequence_table(&[proper, row], 0);
    let answer = result(100, |out| raw::write(b"A", &table, out)).0;
    let given = (answer.code, answer.place, answer.length);
    assert_eq!(given, (12, 22, 0), "{row:?}");
}

/// The bytes that the escapes of the lists stand for.
pub fn unescaped(text: &str) -> Vec<u8> {
    let mut bytes = Vec::new();
    let mut rest = text.chars();
    while let Some(character) = rest.next() {
        bytes.push(match character {
            '\\' => match rest.next() {
                Some('n') => b'\n',
                Some('r') => b'\r',
                Some('t') => b'\t',
                Some('"') => b'"',
                Some('x') => {
                    let digits: String = rest.by_ref().take(2).collect();
                    u8::from_str_radix(&digits, 16).unwrap()
                }
                other => panic!("no escape: {other:?}"),
            },
            _ => u8::try_from(character).unwrap(),
        });
    }
    bytes
}
