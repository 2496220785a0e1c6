//! The list of examples: its answers and rows, and everything near them.

use crate::support::unescaped;
use compare::{Call, Case};
use odl::{Date, Join, Label, Moment, Row, Time, Zone};

const LIST: &str = include_str!("../../../../examples/vectors.txt");

struct Example {
    name: &'static str,
    label: Vec<u8>,
    answer: (u8, usize, usize),
    rows: &'static str,
}

fn examples() -> Vec<Example> {
    LIST.lines()
        .filter(|line| !line.is_empty() && !line.starts_with('#'))
        .map(|line| {
            let fields: Vec<&str> = line.split('\t').collect();
            let [name, _, label, answer, rows] = fields[..] else {
                panic!("not five fields: {line}");
            };
            let numbers: Vec<usize> = answer.split(' ').map(|n| n.parse().unwrap()).collect();
            Example {
                name,
                label: unescaped(label),
                answer: (numbers[0] as u8, numbers[1], numbers[2]),
                rows,
            }
        })
        .collect()
}

fn escaped(text: &str) -> String {
    text.chars()
        .map(|character| match character {
            '\n' => "\\n".to_string(),
            '\r' => "\\r".to_string(),
            '\t' => "\\t".to_string(),
            '"' => "\\\"".to_string(),
            '\\' => "\\x5C".to_string(),
            ' '..='~' => character.to_string(),
            _ => format!("\\x{:02X}", character as u32),
        })
        .collect()
}

fn described(label: &Label) -> String {
    let rows: Vec<String> = label.rows().map(|entry| described_row(entry.row)).collect();
    rows.join("; ")
}

fn described_row(row: Row) -> String {
    match row {
        Row::Attribute(name) => format!("attribute {}", name.as_written()),
        Row::Pointer(name) => format!("pointer {}", name.as_written()),
        Row::Object(name) => format!("object {}", name.as_written()),
        Row::EndObject => "end of object".to_string(),
        Row::Group(name) => format!("group {}", name.as_written()),
        Row::EndGroup => "end of group".to_string(),
        Row::Integer(number) => format!("integer {number}"),
        Row::Real(real) => format!("real {} power {}", real.number, real.power),
        Row::Moment(Moment::Date(date)) => format!("date {}", described_date(date)),
        Row::Moment(Moment::Time(time)) => format!("time {}", described_time(time)),
        Row::Moment(Moment::DateTime(date, time)) => {
            format!(
                "date-time {} {}",
                described_date(date),
                described_time(time)
            )
        }
        Row::Text(text) => format!("text {}", escaped(text.as_written())),
        Row::Symbol(name) => format!("symbol {}", escaped(name.as_written())),
        Row::Unit {
            join,
            name,
            exponent,
        } => {
            let join = match join {
                Join::First => "first",
                Join::Times => "times",
                Join::Divided => "divided",
            };
            format!("unit {join} {} {exponent}", name.as_written())
        }
        Row::Sequence => "sequence".to_string(),
        Row::EndSequence => "end of sequence".to_string(),
        Row::Set => "set".to_string(),
        Row::EndSet => "end of set".to_string(),
        Row::Last { end } => format!("last {end}"),
    }
}

fn described_date(date: Date) -> String {
    format!("{:04}-{:02}-{:02}", date.year, date.month, date.day)
}

fn described_time(time: Time) -> String {
    let zone = match time.zone {
        Zone::NotGiven => "0 no zone".to_string(),
        Zone::Utc => "0 Z".to_string(),
        Zone::Signed(minutes) => format!("{minutes} signed zone"),
    };
    format!(
        "{:02}:{:02}:{:02}.{:09} offset {zone}",
        time.hour, time.minute, time.second, time.nanoseconds
    )
}

#[test]
fn listed_answers_and_rows_are_given() {
    let examples = examples();
    assert!(examples.len() > 200);
    for example in &examples {
        let given = Case::read(&example.label, 5 * example.label.len()).check();
        assert_eq!(given, Ok(example.answer), "{}", example.name);
        match odl::read(&example.label) {
            Ok(label) => assert_eq!(described(&label), example.rows, "{}", example.name),
            Err(_) => assert!(example.rows.starts_with("refused: "), "{}", example.name),
        }
    }
}

#[test]
fn listed_labels_are_taken_as_they_are_read() {
    for example in examples() {
        for book in [[0; 8], [125_000; 8]] {
            let rooms = Case::take(book, &example.label, 0).check_rooms();
            assert!(rooms.is_ok(), "{}: {rooms:?}", example.name);
        }
        let taken = Case::take([1; 8], &example.label, 5 * example.label.len()).check();
        assert_eq!(taken, Ok(example.answer), "{}", example.name);
    }
}

#[test]
fn all_beginnings_of_listed_labels_agree() {
    for example in examples() {
        for end in 0..=example.label.len() {
            Case::read(&example.label[..end], 0).check_rooms().unwrap();
        }
    }
}

#[test]
fn all_offsets_of_listed_tables_agree() {
    for example in examples() {
        let Ok(label) = odl::read(&example.label) else {
            continue;
        };
        let table = label.table().as_bytes();
        let over = |call| Case::over(call, &example.label, table);
        over(Call::Write).check_rooms().unwrap();
        let names: Vec<&str> = label
            .rows()
            .filter_map(|entry| label.name(entry.offset))
            .collect();
        for row in 0..=table.len() + 1 {
            Case {
                row,
                ..over(Call::Text)
            }
            .check_rooms()
            .unwrap();
            Case {
                row,
                ..over(Call::Name)
            }
            .check()
            .unwrap();
            let name = names.get(row % (names.len() + 1)).unwrap_or(&"ABSENT");
            let name = name.to_ascii_lowercase().into_bytes();
            Case {
                row,
                name,
                ..over(Call::Find)
            }
            .check()
            .unwrap();
        }
    }
}

#[test]
fn all_beginnings_of_listed_tables_agree() {
    for example in examples() {
        let Ok(label) = odl::read(&example.label) else {
            continue;
        };
        let table = label.into_table().into_bytes();
        for end in 0..table.len() {
            Case::over(Call::Write, &example.label, &table[..end])
                .check_rooms()
                .unwrap();
        }
    }
}

#[test]
fn relabel_agrees_with_the_model() {
    for example in examples() {
        let library = odl::relabel(&example.label).unwrap_or_else(|error| {
            format!("REFUSED {} {}\r\n", error.code as u8, error.place).into_bytes()
        });
        let model = odl_model::relabel(&example.label);
        assert_eq!(library, model, "{}", example.name);
    }
}
