//! The session book (02 §1) at its borders: any counters, any room, names that
//! are nearly START_TIME, and a book that is handed on until it is full.

use compare::Case;
use odl::raw;
use odl_model::book::Book;

/// A label for each counter, Monday's first: 24 bytes of table each.
const LABELS: [&[u8]; 8] = [
    b"START_TIME=1979-07-02 END",
    b"START_TIME=1979-07-03 END",
    b"START_TIME=1979-07-04 END",
    b"START_TIME=1979-07-05 END",
    b"START_TIME=1979-07-06 END",
    b"START_TIME=1979-07-07 END",
    b"START_TIME=1979-07-08 END",
    b"START_TIME=05:19:11 END",
];

const NEEDED: usize = 24;

/// The library's answer to a taking, and the book afterwards.
fn taken(counts: Book, label: &[u8], room: usize) -> (u8, Book) {
    let mut book = raw::Book { counts };
    let answer = raw::take(&mut book, label, &mut vec![0; room]);
    (answer.code, book.counts)
}

fn one_more(mut book: Book, counter: usize) -> Book {
    book[counter] += 1;
    book
}

/// Checks that both take this label into the book, or find the book full.
#[track_caller]
fn check_taken(book: Book, counter: usize, is_full: bool) {
    let label = LABELS[counter];
    let expected = match is_full {
        true => (16, book),
        false => (0, one_more(book, counter)),
    };
    assert_eq!(taken(book, label, NEEDED), expected);
    Case::take(book, label, 0).check_rooms().unwrap();
}

#[test]
fn every_counter_counts_up_to_a_million_in_all() {
    for counter in 0..8 {
        for filled in 0..8 {
            let book = |count| {
                let mut book = [0; 8];
                book[filled] = count;
                book
            };
            for left in [0, 1, 65_535, 65_536, 999_998, 999_999] {
                check_taken(book(left), counter, false);
            }
            for full in [1_000_000, 1_000_001, 1 << 31, u32::MAX] {
                check_taken(book(full), counter, true);
            }
        }
    }
}

#[test]
fn sums_past_32_bits_are_full() {
    let (half, quarter, eighth) = (1 << 31, 1 << 30, 1 << 29);
    for book in [
        [half, half, 0, 0, 0, 0, 0, 0],
        [0, 0, 0, 0, 0, 0, half, half],
        [quarter, 0, quarter, 0, quarter, 0, quarter, 0],
        [eighth; 8],
        [u32::MAX, 1, 0, 0, 0, 0, 0, 0],
        [1, 1, 1, 1, 1, 1, 1, u32::MAX],
        [u32::MAX, 0, 0, 999_999, 0, 0, 0, 1],
        [u32::MAX; 8],
    ] {
        for counter in 0..8 {
            check_taken(book, counter, true);
        }
    }
}

/// Books of 999,999 and 1,000,000 in equal parts, and in parts that are not.
#[test]
fn the_last_place_is_taken_however_the_sum_is_made_up() {
    for counter in 0..8 {
        let mut equal = [125_000; 8];
        check_taken(equal, counter, true);
        equal[counter] -= 1;
        check_taken(equal, counter, false);
        let mut doubling: Book = std::array::from_fn(|at| 3_921 << at);
        doubling[7 - counter] += 1_000_000 - 3_921 * 255;
        check_taken(doubling, counter, true);
        doubling[7 - counter] -= 1;
        check_taken(doubling, counter, false);
    }
}

#[test]
fn every_room_is_long_enough_or_not() {
    for (book, code_if_right) in [([0; 8], 0), ([125_000; 8], 16)] {
        for room in 0..2 * NEEDED {
            let answer = Case::take(book, LABELS[6], room).check().unwrap();
            match room < NEEDED {
                true => assert_eq!(answer, (11, 25, NEEDED)),
                false => assert_eq!(answer.0, code_if_right),
            }
        }
    }
}

#[test]
fn only_the_name_itself_is_found() {
    const NAME: &[u8] = b"START_TIME";
    let mut names = Vec::new();
    for at in 0..=NAME.len() {
        for byte in 33..127 {
            let with = |end| [&NAME[..at], &[byte], &NAME[end..]].concat();
            names.extend([with(at), with((at + 1).min(NAME.len()))]);
        }
        names.extend([NAME[at..].to_vec(), NAME[..at].to_vec()]);
    }
    let mut found = 0;
    for name in names {
        let label = [&name[..], b"=1979-07-08 END"].concat();
        let (code, ..) = Case::take([0; 8], &label, 200).check().unwrap();
        let counter = match name.eq_ignore_ascii_case(NAME) {
            true => 6,
            false => 7,
        };
        if code == 0 {
            found += usize::from(counter == 6);
            assert_eq!(taken([0; 8], &label, 200), (0, one_more([0; 8], counter)));
        }
    }
    // Each of ten bytes in itself, and nine of them in the other case too; the
    // whole name twice more, and its last part from 0 on.
    assert_eq!(found, 10 + 9 + 2);
}

/// A book that is handed from call to call, from 100 places left until it is
/// full, and some times more.
#[test]
fn a_book_is_filled_call_by_call() {
    let mut book = raw::Book {
        counts: [999_900, 0, 0, 0, 0, 0, 0, 0],
    };
    let mut expected = book.counts;
    for call in 0..150 {
        let counter = call % 8;
        let room = NEEDED - usize::from(call == 50);
        let answer = raw::take(&mut book, LABELS[counter], &mut vec![0; room]);
        // One call has a room that is too short, and takes no place.
        let code = match call {
            50 => 11,
            0..=100 => 0,
            _ => 16,
        };
        assert_eq!(answer.code, code, "call {call}");
        if code == 0 {
            expected = one_more(expected, counter);
        }
        assert_eq!(book.counts, expected, "call {call}");
    }
    assert_eq!(book.counts.iter().sum::<u32>(), 1_000_000);
}
