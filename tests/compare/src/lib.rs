//! Holds the library against the model: one call, the same bytes handed to
//! both, and everything that comes back compared.

pub mod books;
pub mod chance;
pub mod days;
pub mod history;

use odl::raw;
use odl_model::book::{self, Book};
use odl_model::zones;

#[derive(Debug, Clone, Copy, PartialEq, Eq, PartialOrd, Ord)]
pub enum Call {
    Read,
    Write,
    /// A reading, with ample room, and the writing of the table that it gave.
    Rewrite,
    Text,
    Find,
    Name,
    Take,
}

/// A call and all that is handed to it. What the call does not take is empty.
#[derive(Clone, PartialEq, Eq)]
pub struct Case {
    pub call: Call,
    pub label: Vec<u8>,
    pub table: Vec<u8>,
    pub name: Vec<u8>,
    pub row: usize,
    /// The counters before the call.
    pub book: Book,
    /// Length of the lent room.
    pub room: usize,
}

/// Code, place and length; of a lookup code, place and offset; of a name 0,
/// start and end.
pub type Answer = (u8, usize, usize);

impl Case {
    pub fn read(label: &[u8], room: usize) -> Case {
        Case {
            room,
            ..Case::over(Call::Read, label, &[])
        }
    }

    pub fn take(book: Book, label: &[u8], room: usize) -> Case {
        Case {
            book,
            room,
            ..Case::over(Call::Take, label, &[])
        }
    }

    /// A call over a label and a table, with the rest still empty.
    pub fn over(call: Call, label: &[u8], table: &[u8]) -> Case {
        Case {
            call,
            label: label.to_vec(),
            table: table.to_vec(),
            name: Vec::new(),
            row: 0,
            book: [0; 8],
            room: 0,
        }
    }

    fn library(&self, book: &mut raw::Book, room: &mut [u8]) -> Answer {
        let Case { label, table, .. } = self;
        let answer = match self.call {
            Call::Read => raw::read(label, room),
            Call::Write => raw::write(label, table, room),
            Call::Rewrite => {
                let mut table = ample_room(label);
                match raw::read(label, &mut table) {
                    read if read.code == 0 => raw::write(label, &table[..read.length], room),
                    refused => refused,
                }
            }
            Call::Text => raw::text(label, table, self.row, room),
            Call::Find => {
                let found = raw::find(label, table, &self.name, self.row);
                return (found.code, found.place, found.at);
            }
            Call::Name => {
                let (start, end) = raw::name(label, table, self.row);
                return (0, start, end);
            }
            Call::Take => raw::take(book, label, room),
        };
        (answer.code, answer.place, answer.length)
    }

    fn model(&self, book: &mut raw::Book, room: &mut [u8]) -> Answer {
        let Case { label, table, .. } = self;
        let answer = match self.call {
            Call::Read => odl_model::read(label, room),
            Call::Write => odl_model::write(label, table, room),
            Call::Rewrite => {
                let mut table = ample_room(label);
                match odl_model::read(label, &mut table) {
                    read if read.code == 0 => odl_model::write(label, &table[..read.length], room),
                    refused => refused,
                }
            }
            Call::Text => odl_model::text(label, table, self.row, room),
            Call::Find => return odl_model::find(label, table, &self.name, self.row),
            Call::Name => {
                let (start, end) = odl_model::name(label, table, self.row);
                return (0, start, end);
            }
            Call::Take => odl_model::take(&mut book.counts, label, room),
        };
        (answer.code, answer.place, answer.length)
    }

    /// The room that the model says is needed.
    pub fn room_needed(&self) -> usize {
        match self.call {
            Call::Find | Call::Name => 0,
            _ => self.model(&mut raw::Book { counts: self.book }, &mut []).2,
        }
    }

    /// Compares the two on this case: the answer, or what differs.
    pub fn check(&self) -> Result<Answer, String> {
        let before = self.clone();
        let library = self.lent(|book, room| self.library(book, room));
        let model = self.lent(|book, room| self.model(book, room));
        let difference = match *self == before {
            true => self.difference(&library, &model),
            false => Some("bytes lent for reading were changed".to_string()),
        };
        match difference {
            None => Ok(library.answer),
            Some(what) => {
                let said = format!("library {:?}, model {:?}", library.answer, model.answer);
                Err(format!("{what}\n{said}\n{}", self.shown()))
            }
        }
    }

    fn difference(&self, library: &Left, model: &Left) -> Option<String> {
        if !library.kept {
            return Some("bytes around the room or the book were touched".to_string());
        }
        if library.answer != model.answer {
            return Some("the answers differ".to_string());
        }
        if library.book != model.book {
            let books = format!("library {:?}, model {:?}", library.book, model.book);
            return Some(format!("the books differ: {books}"));
        }
        if let Some(at) = first_difference(&library.room, &model.room) {
            return Some(format!("the rooms differ at byte {at}"));
        }
        self.broken_rule(library)
    }

    /// What the rules say of an answer and what it leaves, whatever the model did.
    fn broken_rule(&self, left: &Left) -> Option<String> {
        let written = match (self.call, left.answer) {
            (Call::Find | Call::Name, _) => 0,
            (_, (0, _, length)) => length,
            _ => 0,
        };
        let touched = |&(at, &byte): &(usize, &u8)| at >= written && byte != pattern(at);
        if let Some((at, _)) = left.room.iter().enumerate().find(touched) {
            return Some(format!("byte {at} of the room was touched"));
        }
        let rules = [
            (
                "the session is not counted once",
                self.is_counted_once(left),
            ),
            (
                "it is taken otherwise than read",
                self.is_taken_as_read(left),
            ),
            (
                "dates or times are read again as others",
                left.answer.0 != 0 || self.is_read_again(&left.room[..written]),
            ),
            (
                "with other marks it is written otherwise",
                self.is_written_whatever_the_marks(left),
            ),
        ];
        let broken = rules.into_iter().find(|&(_, holds)| !holds);
        broken.map(|(what, _)| what.to_string())
    }

    /// Whether one counter is one more if a label was taken, and all are as they
    /// were if not.
    fn is_counted_once(&self, left: &Left) -> bool {
        let is_taken = self.call == Call::Take && left.answer.0 == 0;
        let pairs = self.book.iter().zip(&left.book);
        let changed: Vec<(&u32, &u32)> = pairs.filter(|(before, after)| before != after).collect();
        match changed[..] {
            [] => !is_taken,
            [(before, after)] => is_taken && before.checked_add(1) == Some(*after),
            _ => false,
        }
    }

    /// Whether a label is taken with the answer and the room that the library's
    /// reading gives, unless the book is full (02 §1).
    fn is_taken_as_read(&self, left: &Left) -> bool {
        if self.call != Call::Take {
            return true;
        }
        let reading = Case::read(&self.label, self.room);
        let read = reading.lent(|book, room| reading.library(book, room));
        match read.answer {
            (0, ..) if book::is_full(&self.book) => left.answer == (16, 0, 0),
            answer => left.answer == answer && left.room == read.room,
        }
    }

    /// Whether the library reads the dates and times of what it wrote as those
    /// of the table, each with the mark of its written zone (02 §6).
    fn is_read_again(&self, written: &[u8]) -> bool {
        let table = match self.call {
            Call::Write => self.table.clone(),
            Call::Rewrite => table_by_library(&self.label),
            _ => return true,
        };
        let expected = zones::moments_once_written(&self.label, &table);
        expected.is_empty() || zones::moments(written, &table_by_library(written)) == expected
    }

    /// Whether the library leaves the same also for the tables that differ from a
    /// proper one in their marks (02 §6).
    fn is_written_whatever_the_marks(&self, left: &Left) -> bool {
        let tables = match self.call {
            Call::Write => zones::remarked(&self.label, &self.table),
            _ => Vec::new(),
        };
        tables.iter().all(|table| {
            let other = Case {
                room: self.room,
                ..Case::over(Call::Write, &self.label, table)
            };
            let same = other.lent(|book, room| other.library(book, room));
            same.answer == left.answer && same.room == left.room
        })
    }

    /// Runs a call with this case's book and with room of its length.
    fn lent(&self, call: impl Fn(&mut raw::Book, &mut [u8]) -> Answer) -> Left {
        let mut memory = vec![UNLENT; self.room + 2 * AROUND];
        let room = &mut memory[AROUND..AROUND + self.room];
        for (at, byte) in room.iter_mut().enumerate() {
            *byte = pattern(at);
        }
        let mut fenced = Fenced::around(self.book);
        let answer = call(&mut fenced.book, room);
        let after = memory.split_off(AROUND + self.room);
        let room = memory.split_off(AROUND);
        let kept = memory.iter().chain(&after).all(|&byte| byte == UNLENT);
        Left {
            answer,
            book: fenced.book.counts,
            room,
            kept: kept && fenced.is_kept(),
        }
    }

    /// Compares with ample room, just enough, one short and none.
    pub fn check_rooms(&self) -> Result<usize, String> {
        let needed = self.room_needed();
        let mut rooms = vec![needed + 17, needed, needed.saturating_sub(1), 0];
        rooms.dedup();
        for &room in &rooms {
            Case {
                room,
                ..self.clone()
            }
            .check()?;
        }
        Ok(rooms.len())
    }

    fn shown(&self) -> String {
        let table: String = self.table.iter().map(|b| format!("{b:02x}")).collect();
        let table = cut(table);
        format!(
            "{:?} with room {} at row {}\nbook  {:?}\nname  \"{}\"\nlabel ({} bytes) \"{}\"\ntable ({} bytes) {}",
            self.call,
            self.room,
            self.row,
            self.book,
            self.name.escape_ascii(),
            self.label.len(),
            cut(self.label.escape_ascii().to_string()),
            self.table.len(),
            table,
        )
    }
}

/// The table that the library reads; none if it refuses the label.
fn table_by_library(label: &[u8]) -> Vec<u8> {
    let mut table = ample_room(label);
    let read = raw::read(label, &mut table);
    table.truncate(read.length);
    table
}

/// Room for the table of any label of this length.
fn ample_room(label: &[u8]) -> Vec<u8> {
    vec![0; 5 * label.len()]
}

/// What is shown of long inputs; `case` of the program gives them again.
fn cut(mut shown: String) -> String {
    if shown.len() > 4_000 {
        shown.truncate(4_000);
        shown += "...";
    }
    shown
}

/// What a call left.
struct Left {
    answer: Answer,
    book: Book,
    room: Vec<u8>,
    /// Whether the bytes around the room and the book were left alone.
    kept: bool,
}

/// Bytes on either side of the lent room that are not lent.
const AROUND: usize = 64;
const UNLENT: u8 = 0x5A;

/// What the room holds beforehand, so that a moved or cleared byte shows.
fn pattern(at: usize) -> u8 {
    (at as u8).wrapping_mul(37) ^ (at >> 8) as u8 ^ 0xA5
}

/// A book with numbers on either side that are not lent.
#[repr(C)]
struct Fenced {
    before: [u32; 16],
    book: raw::Book,
    after: [u32; 16],
}

impl Fenced {
    const UNLENT: [u32; 16] = [0x5A5A_5A5A; 16];

    fn around(counts: Book) -> Fenced {
        Fenced {
            before: Fenced::UNLENT,
            book: raw::Book { counts },
            after: Fenced::UNLENT,
        }
    }

    fn is_kept(&self) -> bool {
        self.before == Fenced::UNLENT && self.after == Fenced::UNLENT
    }
}

fn first_difference(one: &[u8], other: &[u8]) -> Option<usize> {
    one.iter().zip(other).position(|(a, b)| a != b)
}
