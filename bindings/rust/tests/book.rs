//! The session book on labels whose counter stands in the documents, or is
//! worked out by hand.

use odl::{Book, Code, Counter, Error};

/// The counter that a label goes under in an empty book.
fn counter(label: &str) -> Counter {
    let mut book = Book::new();
    let counter = book.take(label.as_bytes()).unwrap().counter;
    let expected = Counter::ALL.map(|other| u32::from(other == counter));
    assert_eq!(book.counts(), expected, "{label}");
    counter
}

#[test]
fn sessions_go_under_the_weekday_of_their_date() {
    for (value, expected) in [
        ("1979-07-08", Counter::Sunday),
        ("1979-07-09", Counter::Monday),
        ("1979-07-10", Counter::Tuesday),
        ("1979-07-11", Counter::Wednesday),
        ("1979-07-12", Counter::Thursday),
        ("1979-07-13", Counter::Friday),
        ("1979-07-14", Counter::Saturday),
        ("1979-189T05:19:11.123456789", Counter::Sunday),
        ("1979-07-08T23:30-12:59", Counter::Sunday),
        ("1979-07-08T00:10+12:59", Counter::Sunday),
        ("2000-02-29", Counter::Tuesday),
        ("2000-366", Counter::Sunday),
        ("0001-01-01", Counter::Monday),
        ("9999-12-31", Counter::Friday),
    ] {
        let label = format!("START_TIME={value} END");
        assert_eq!(counter(&label), expected, "{value}");
    }
}

#[test]
fn other_sessions_are_undated() {
    for label in [
        "END",
        "START_TIME=10:00 END",
        "START_TIME=(1979-07-08) END",
        "START_TIME={1979-07-08} END",
        "START_TIME=\"1979-07-08\" END",
        "^START_TIME=1979-07-08 END",
        "STOP_TIME=1979-07-08 END",
        "OBJECT=X START_TIME=1979-07-08 END_OBJECT END",
        "START_TIME=10:00 START_TIME=1979-07-08 END",
    ] {
        assert_eq!(counter(label), Counter::Undated, "{label}");
    }
}

#[test]
fn the_first_start_time_at_the_top_decides() {
    for label in [
        "start_time=1979-07-08 END",
        "START_TIME=1979-07-08 START_TIME=10:00 END",
        "GROUP=X START_TIME=1979-07-09 END_GROUP START_TIME=1979-07-08 END",
        "^START_TIME=1979-07-09 START_TIME=1979-07-08 END",
    ] {
        assert_eq!(counter(label), Counter::Sunday, "{label}");
    }
}

#[test]
fn the_label_that_was_taken_is_handed_back() {
    let label = b"START_TIME=1979-07-08 END";
    let session = Book::new().take(label).unwrap();
    assert_eq!(Ok(session.label), odl::read(label));
}

#[test]
fn a_table_longer_than_its_label_is_taken_once() {
    let label = format!("A=({}1) START_TIME=1979-07-08 END", "1,".repeat(10_000));
    let mut book = Book::new();
    let session = book.take(label.as_bytes()).unwrap();
    assert_eq!(Ok(session.label), odl::read(label.as_bytes()));
    assert_eq!(book.counts(), [0, 0, 0, 0, 0, 0, 1, 0]);
    let full = [0, 0, 0, 0, 0, 0, 1_000_000, 0];
    refused(full, label.as_bytes(), Code::BookFull, 0);
}

/// The label is refused, and the book unchanged.
fn refused(counts: [u32; 8], label: &[u8], code: Code, place: usize) {
    let mut book = Book::from_counts(counts);
    assert_eq!(book.take(label), Err(Error { code, place }));
    assert_eq!(book.counts(), counts);
}

#[test]
fn refused_labels_leave_the_book_as_it_was() {
    for counts in [[0; 8], [1, 2, 3, 4, 5, 6, 7, 8], [125_000; 8]] {
        refused(counts, b"", Code::EndsEarly, 0);
        refused(counts, b"START_TIME=1979-366 END", Code::PastLimit, 11);
        refused(
            counts,
            b"START_TIME=1979-07-08 END;",
            Code::EndNotSetOff,
            22,
        );
        refused(counts, &[b' '; 65_536], Code::LabelTooLong, 65_535);
    }
}

#[test]
fn a_full_book_takes_no_more() {
    for counts in [
        [125_000; 8],
        [0, 0, 0, 0, 0, 0, 1_000_000, 0],
        [0, 0, 0, 0, 0, 0, 0, 1_000_001],
        [u32::MAX, 1, 0, 0, 0, 0, 0, 0],
        [u32::MAX; 8],
    ] {
        refused(counts, b"START_TIME=1979-07-08 END", Code::BookFull, 0);
        refused(counts, b"END", Code::BookFull, 0);
    }
    let mut book = Book::from_counts([
        124_999, 125_000, 125_000, 125_000, 125_000, 125_000, 125_000, 125_000,
    ]);
    book.take(b"START_TIME=1979-07-09 END").unwrap();
    assert_eq!(book, Book::from_counts([125_000; 8]));
    let error = book.take(b"END").unwrap_err();
    assert_eq!((error.code as u8, error.place), (16, 0));
    assert_eq!(error.to_string(), "code 16 at 0: the book is full");
    assert_eq!(Code::from_number(16), Some(Code::BookFull));
}

#[test]
fn counts_are_handed_in_and_back_by_name() {
    let book = Book::from_counts([1, 2, 3, 4, 5, 6, 7, 8]);
    assert_eq!(book.counts(), [1, 2, 3, 4, 5, 6, 7, 8]);
    for counter in Counter::ALL {
        assert_eq!(book.count(counter), counter as u32);
    }
    assert_eq!(Book::new(), Book::from_counts([0; 8]));
    let names = Counter::ALL.map(|counter| counter.to_string());
    let expected = "Monday Tuesday Wednesday Thursday Friday Saturday Sunday undated";
    assert_eq!(names.join(" "), expected);
    assert_eq!(format!("{:<10}|", Counter::Friday), "Friday    |");
}
