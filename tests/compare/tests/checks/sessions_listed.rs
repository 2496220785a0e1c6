//! The list of sessions, each taken by the library and by the model.

use crate::support::unescaped;
use compare::Case;
use odl::raw;
use odl_model::book::Book;

const LIST: &str = include_str!("../../../../examples/sessions.txt");

const COUNTERS: &str = "Monday Tuesday Wednesday Thursday Friday Saturday Sunday undated";

struct Session {
    name: &'static str,
    case: Case,
    answer: (u8, usize, usize),
    /// The book afterwards.
    book: Book,
}

fn sessions() -> Vec<Session> {
    let is_session = |line: &&str| !line.is_empty() && !line.starts_with('#');
    LIST.lines().filter(is_session).map(session).collect()
}

fn session(line: &'static str) -> Session {
    let fields: Vec<&str> = line.split('\t').collect();
    let [name, _, label, room, before, answer, counter, _] = fields[..] else {
        panic!("not eight fields: {line}");
    };
    let label = unescaped(label);
    let room = match room {
        "ample" => 5 * label.len(),
        length => length.parse().unwrap(),
    };
    let before: Book = match before {
        "empty" => [0; 8],
        counts => numbers(counts).map(|count| count as u32),
    };
    let [code, place, length] = numbers(answer);
    let mut book = before;
    match COUNTERS.split(' ').position(|name| name == counter) {
        Some(at) => book[at] += 1,
        None => assert_eq!(counter, "none", "{name}"),
    }
    Session {
        name,
        case: Case::take(before, &label, room),
        answer: (code as u8, place, length),
        book,
    }
}

fn numbers<const COUNT: usize>(text: &str) -> [usize; COUNT] {
    let numbers: Vec<usize> = text.split(' ').map(|n| n.parse().unwrap()).collect();
    numbers.try_into().unwrap()
}

#[test]
fn listed_sessions_are_taken_by_both() {
    let sessions = sessions();
    assert!(sessions.len() > 150);
    for Session { name, case, .. } in &sessions {
        assert_eq!(
            case.check().map_err(|text| format!("{name}: {text}")).err(),
            None
        );
    }
    for Session {
        name,
        case,
        answer,
        book,
    } in sessions
    {
        let mut library = raw::Book { counts: case.book };
        let given = raw::take(&mut library, &case.label, &mut vec![0; case.room]);
        assert_eq!((given.code, given.place, given.length), answer, "{name}");
        assert_eq!(library.counts, book, "{name}");
        let mut model = case.book;
        let given = odl_model::take(&mut model, &case.label, &mut vec![0; case.room]);
        assert_eq!((given.code, given.place, given.length), answer, "{name}");
        assert_eq!(model, book, "{name}");
    }
}

/// As the list's head has it: the room is as a reading leaves it, or untouched.
#[test]
fn listed_sessions_leave_the_room_as_a_reading_does() {
    for Session {
        name, case, answer, ..
    } in sessions()
    {
        let [mut taken, mut read] = [vec![0xA5; case.room], vec![0xA5; case.room]];
        raw::take(
            &mut raw::Book { counts: case.book },
            &case.label,
            &mut taken,
        );
        if answer.0 == 0 {
            raw::read(&case.label, &mut read);
        }
        assert_eq!(taken, read, "{name}");
    }
}

#[test]
fn all_beginnings_of_listed_sessions_agree() {
    for Session { case, .. } in sessions() {
        for end in 0..case.label.len() {
            let label = &case.label[..end];
            Case::take(case.book, label, 5 * end).check().unwrap();
        }
    }
}
