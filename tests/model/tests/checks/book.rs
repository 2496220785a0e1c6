//! The session book (02 §1): takings worked out by hand, and what must hold of
//! all of them, on random ones.

use crate::support::*;
use odl_model::book::{is_full, sum, Book, UNDATED};
use odl_model::random::{self, Random};
use odl_model::{read, sessions, take, Answer};

const LABELS: usize = 10_000;

const EMPTY: Book = [0; 8];

const SUNDAY: usize = 6;

const LABEL: &[u8] = b"START_TIME=1979-07-08 END";

/// A right label's answer: 5 bytes of a name, 16 of a date, 3 of the last row.
const TAKEN: Answer = Answer {
    code: 0,
    place: 25,
    length: 24,
};

const FULL: Answer = Answer {
    code: 16,
    place: 0,
    length: 0,
};

/// A taking with room of this length: the answer, the book, and the room if it
/// is not as it was.
fn taking(mut book: Book, label: &[u8], room: usize) -> (Answer, Book, Option<Vec<u8>>) {
    let before = vec![0x5A; room];
    let mut table = before.clone();
    let answer = take(&mut book, label, &mut table);
    (answer, book, (table != before).then_some(table))
}

/// The book with one more in this counter.
fn one_more(mut book: Book, counter: usize) -> Book {
    book[counter] += 1;
    book
}

#[track_caller]
fn refused(book: Book, label: &[u8], room: usize, answer: Answer) {
    let given = taking(book, label, room);
    assert_eq!(given, (answer, book, None), "{}", escaped(label));
}

#[test]
fn a_session_is_counted_and_its_table_is_in_the_room() {
    let mut table = vec![1, 0, 0, 0, 10, 12, 1, 0x07, 0xBB, 7, 8];
    table.extend([0; 10]);
    table.extend([99, 0, 25, 0x5A]);
    let book = [1, 2, 3, 4, 5, 6, 7, 8];
    let given = taking(book, LABEL, 25);
    assert_eq!(given, (TAKEN, [1, 2, 3, 4, 5, 6, 8, 8], Some(table)));
}

#[test]
fn a_room_that_is_too_short_counts_nothing() {
    for room in [0, 1, 23] {
        refused(EMPTY, LABEL, room, Answer { code: 11, ..TAKEN });
    }
    assert_eq!(taking(EMPTY, LABEL, 24).0, TAKEN);
}

#[test]
fn a_book_is_full_from_a_million_on() {
    for counter in 0..8 {
        let book = |count| {
            let mut book = EMPTY;
            book[counter] = count;
            book
        };
        for left in [999_998, 999_999] {
            let (answer, after, _) = taking(book(left), LABEL, 24);
            assert_eq!((answer, after), (TAKEN, one_more(book(left), SUNDAY)));
        }
        for full in [1_000_000, 1_000_001, 1 << 31, u32::MAX] {
            refused(book(full), LABEL, 24, FULL);
        }
    }
}

/// Books whose sum takes more than 32 bits, and the low 32 of them.
#[test]
fn sums_do_not_wrap() {
    let half = 1 << 31;
    let eighth = 1 << 29;
    for (book, low) in [
        ([half, 0, 0, 0, 0, half, 0, 0], 0),
        ([eighth; 8], 0),
        ([u32::MAX, 1, 1, 1, 1, 1, 1, 1], 6),
        ([u32::MAX, 1, 999_999, 0, 0, 0, 0, 0], 999_999),
        ([u32::MAX; 8], u32::MAX - 7),
    ] {
        assert_eq!(sum(&book) as u32, low);
        assert!(sum(&book) > u32::MAX.into() && is_full(&book));
        refused(book, LABEL, 24, FULL);
    }
}

#[test]
fn a_full_book_comes_after_every_refusal_of_the_reader() {
    for book in [[125_000; 8], [u32::MAX; 8]] {
        refused(book, LABEL, 23, Answer { code: 11, ..TAKEN });
        refused(book, LABEL, 24, FULL);
        let refusal = |code, place| Answer {
            code,
            place,
            length: 0,
        };
        for (label, code, place) in [
            (&b"START_TIME=? END"[..], 2, 11),
            (b"START_TIME=\"", 3, 11),
            (b"START_TIME=1979-07-08Z END", 4, 11),
            (b"START_TIME=1979-02-29 END", 5, 11),
            (b"START_TIME=() END", 6, 12),
            (b"OBJECT=A END_OBJECT=B END", 7, 20),
            (&b"GROUP=A ".repeat(81), 8, 640),
            (b"END;", 9, 0),
            (b"", 10, 0),
            (&[b' '; 65_536], 1, 65_535),
        ] {
            refused(book, label, 400_000, refusal(code, place));
            refused(EMPTY, label, 400_000, refusal(code, place));
        }
    }
}

/// A book by chance: empty, near the limit, or of any numbers.
fn some_book(random: &mut Random) -> Book {
    let near = 999_990 + random.below(20) as u32;
    let counter = random.below(8);
    match random.below(4) {
        0 => EMPTY,
        1 => std::array::from_fn(|at| if at == counter { near } else { 0 }),
        2 => std::array::from_fn(|_| random.below(250_000) as u32),
        _ => std::array::from_fn(|_| random.bits() as u32),
    }
}

fn some_label(random: &mut Random) -> Vec<u8> {
    match random.one_in(2) {
        true => random::label(random),
        false => random::session_label(random),
    }
}

#[test]
fn a_label_is_taken_as_it_is_read() {
    let mut random = Random::new(31);
    for _ in 0..LABELS {
        let label = some_label(&mut random);
        let before = some_book(&mut random);
        let needed = read(&label, &mut []).length;
        let room = random.pick(&[needed, needed + 5, needed.saturating_sub(1), 0]);
        let (answer, book, table) = taking(before, &label, room);
        let mut read_room = vec![0x5A; room];
        let read = read(&label, &mut read_room);
        let shown = escaped(&label);
        match read.code {
            0 if is_full(&before) => assert_eq!((answer, table), (FULL, None), "{shown}"),
            0 => assert_eq!((answer, table), (read, Some(read_room)), "{shown}"),
            _ => assert_eq!((answer, table), (read, None), "{shown}"),
        }
        let expected = match answer.code {
            0 => one_more(before, sessions::counter(&label).unwrap()),
            _ => before,
        };
        assert_eq!(book, expected, "{shown}");
    }
}

#[test]
fn from_an_empty_book_the_sum_is_the_labels_taken() {
    let mut random = Random::new(32);
    let (mut book, mut taken, mut undated) = (EMPTY, 0, 0);
    for _ in 0..LABELS {
        let label = some_label(&mut random);
        let answer = take(&mut book, &label, &mut vec![0; random.below(600)]);
        taken += u64::from(answer.code == 0);
        undated += u32::from(answer.code == 0 && sessions::counter(&label) == Some(UNDATED));
    }
    assert_eq!(sum(&book), taken);
    assert_eq!(book[UNDATED], undated);
    assert!(book.iter().all(|&count| count > 20), "{book:?}");
    assert!(taken < LABELS as u64);
}
