//! Random takings of the session book (02 §1), and which cases of books and rooms
//! they show. Those of labels are in `odl_model::sessions`.

use crate::{Answer, Call, Case};
use odl_model::book::{is_full, sum, Book};
use odl_model::random::{self, Random};

/// A case of a taking.
#[derive(Debug, Clone, Copy, PartialEq, Eq, PartialOrd, Ord)]
pub enum Taking {
    Counts(Counts, Outcome),
    Room { room: Room, full: bool },
    Refused { code: u8, full: bool },
}

/// What the counters before the call are.
#[derive(Debug, Clone, Copy, PartialEq, Eq, PartialOrd, Ord)]
pub enum Counts {
    Empty,
    Below,
    TwoLeft,
    OneLeft,
    Full,
    OneOver,
    Over,
    /// A counter that is as large as can be; not all are.
    OneLargest,
    AllLargest,
    /// A sum whose low 32 bits are below a million.
    SmallIn32Bits,
    /// A sum over 32 bits whose low 32 bits are not.
    LargeIn32Bits,
}

#[derive(Debug, Clone, Copy, PartialEq, Eq, PartialOrd, Ord)]
pub enum Outcome {
    Taken,
    Refused,
    NoRoom,
    BookFull,
}

/// The room lent for a right label's table.
#[derive(Debug, Clone, Copy, PartialEq, Eq, PartialOrd, Ord)]
pub enum Room {
    None,
    Short,
    ShortByOne,
    Exact,
    LongerByOne,
    Longer,
}

#[rustfmt::skip]
const COUNTS: [(Counts, bool); 11] = [
    (Counts::Empty, false), (Counts::Below, false), (Counts::TwoLeft, false),
    (Counts::OneLeft, false), (Counts::Full, true), (Counts::OneOver, true), (Counts::Over, true),
    (Counts::OneLargest, true), (Counts::AllLargest, true), (Counts::SmallIn32Bits, true),
    (Counts::LargeIn32Bits, true),
];

#[rustfmt::skip]
const ROOMS: [Room; 6] = [
    Room::None, Room::Short, Room::ShortByOne, Room::Exact, Room::LongerByOne, Room::Longer,
];

/// All cases of takings.
pub fn all() -> Vec<Taking> {
    let mut all = Vec::new();
    for (counts, full) in COUNTS {
        let last = match full {
            true => Outcome::BookFull,
            false => Outcome::Taken,
        };
        let outcomes = [Outcome::Refused, Outcome::NoRoom, last];
        all.extend(outcomes.map(|outcome| Taking::Counts(counts, outcome)));
    }
    for full in [false, true] {
        all.extend(ROOMS.map(|room| Taking::Room { room, full }));
        all.extend((1..=10).map(|code| Taking::Refused { code, full }));
    }
    all.sort_unstable();
    all
}

/// The cases that this taking shows; none of another call.
pub fn cases(case: &Case, (code, ..): Answer) -> Vec<Taking> {
    if case.call != Call::Take {
        return Vec::new();
    }
    let full = is_full(&case.book);
    let outcome = match code {
        0 => Outcome::Taken,
        11 => Outcome::NoRoom,
        16 => Outcome::BookFull,
        _ => Outcome::Refused,
    };
    let counts = counts_of(&case.book).into_iter();
    let mut cases: Vec<Taking> = counts.map(|c| Taking::Counts(c, outcome)).collect();
    cases.push(match outcome {
        Outcome::Refused => Taking::Refused { code, full },
        _ => Taking::Room {
            room: room_of(case.room, case.room_needed()),
            full,
        },
    });
    cases
}

fn counts_of(book: &Book) -> Vec<Counts> {
    let largest = book.iter().filter(|&&count| count == u32::MAX).count();
    let sum = sum(book);
    let mut counts = vec![match sum {
        0 => Counts::Empty,
        1..=999_997 => Counts::Below,
        999_998 => Counts::TwoLeft,
        999_999 => Counts::OneLeft,
        1_000_000 => Counts::Full,
        1_000_001 => Counts::OneOver,
        _ if sum <= u32::MAX.into() => Counts::Over,
        _ if sum as u32 >= 1_000_000 => Counts::LargeIn32Bits,
        _ => Counts::SmallIn32Bits,
    }];
    counts.extend(match largest {
        0 => None,
        8 => Some(Counts::AllLargest),
        _ => Some(Counts::OneLargest),
    });
    counts
}

fn room_of(room: usize, needed: usize) -> Room {
    match (room, needed) {
        (0, _) => Room::None,
        _ if room + 1 == needed => Room::ShortByOne,
        _ if room < needed => Room::Short,
        _ if room == needed => Room::Exact,
        _ if room == needed + 1 => Room::LongerByOne,
        _ => Room::Longer,
    }
}

/// A taking of a label of any sort into a book of any sort. Most labels are of
/// sessions, and most books have a place left.
pub fn taking(random: &mut Random) -> Case {
    let label = label(random);
    let book = book(random);
    let needed = odl_model::read(&label, &mut []).length;
    let room = room(random, needed);
    Case::take(book, &label, room)
}

/// A label of a session, whole, damaged or behind many statements, or one of any
/// other sort.
pub fn label(random: &mut Random) -> Vec<u8> {
    let mut session = random::session_label(random);
    match random.below(96) {
        0 => {
            let before = b"A=1 ".repeat(random.below(2_400));
            session.splice(0..0, before);
        }
        1..=8 => random::damage(random, &mut session),
        9..=16 => return random::limit_label(random),
        17..=24 => return random::label(random),
        _ => {}
    }
    session
}

/// Room for a table of this length, more often than not enough.
pub fn room(random: &mut Random, needed: usize) -> usize {
    match random.below(16) {
        0 => 0,
        1 => needed.saturating_sub(1),
        2 => random.below(needed),
        3 => needed + 1,
        4..=6 => needed,
        _ => needed + random.below(100),
    }
}

fn book(random: &mut Random) -> Book {
    match random.below(16) {
        0..=2 => [0; 8],
        3..=5 => spread(random, 1, 999_997),
        6..=8 => spread(random, 999_998, 999_999),
        9 | 10 => spread(random, 1_000_000, 1_000_001),
        11 => spread(random, 1_000_002, 3_000_000),
        12 => {
            let mut book = spread(random, 0, 999_999);
            book[random.below(8)] = u32::MAX;
            book
        }
        13 => [u32::MAX; 8],
        14 => spread(random, 1 << 32, (1 << 32) + 999_999),
        _ => std::array::from_fn(|_| random.bits() as u32),
    }
}

/// Counters with a sum from `least` to `most`: all of it in as few of them as can
/// be, in equal parts, or in parts of any size.
pub fn spread(random: &mut Random, least: u64, most: u64) -> Book {
    const LARGEST: u64 = u32::MAX as u64;
    let mut rest = least + random.below((most - least) as usize + 1) as u64;
    let style = random.below(3);
    let first = random.below(8);
    let mut book = [0; 8];
    for others in (0..8).rev() {
        // What the others cannot hold goes here, and no more than can.
        let (low, high) = (rest.saturating_sub(others * LARGEST), rest.min(LARGEST));
        let part = match style {
            0 => high,
            1 => rest / (others + 1),
            _ => random.below((high - low) as usize + 1) as u64,
        };
        let part = part.clamp(low, high);
        book[(first + others as usize) % 8] = part as u32;
        rest -= part;
    }
    book
}
