//! An independent model of the rules for ODL 2.1 labels: reader, writer,
//! lookup, name view, text reassembly, meaning, layout, and the session book.
//!
//! It is written from the scope paper, the rulings and chapter 12 of the
//! standard, and shares no code with what it is compared against. It favours
//! the plain way of doing a thing: results are built in a `Vec` and copied
//! into the lent room only once they are known to fit.

pub mod book;
pub mod dates;
mod elements;
mod gaps;
pub mod layout;
mod lookup;
mod meaning;
mod outline;
pub mod random;
pub mod reals;
pub mod rows;
pub mod sessions;
mod statements;
mod table;
mod text;
pub mod weekdays;
mod words;
mod writer;
pub mod zones;

use book::Book;

/// No label, given or written, is longer than this.
pub const LONGEST_LABEL: usize = 65_535;

/// The codes of the scope paper's list, under the names used here.
pub mod code {
    pub const ACCEPTED: u8 = 0;
    pub const LABEL_TOO_LONG: u8 = 1;
    pub const BAD_BYTE: u8 = 2;
    pub const LEFT_OPEN: u8 = 3;
    pub const NO_FORM: u8 = 4;
    pub const PAST_LIMIT: u8 = 5;
    pub const MISPLACED: u8 = 6;
    pub const OTHER_NAME: u8 = 7;
    pub const TOO_DEEP: u8 = 8;
    pub const END_NOT_SET_OFF: u8 = 9;
    pub const ENDS_EARLY: u8 = 10;
    pub const ROOM_TOO_SHORT: u8 = 11;
    pub const IMPROPER_TABLE: u8 = 12;
    pub const WRITTEN_TOO_LONG: u8 = 13;
    pub const NAME_ABSENT: u8 = 14;
    pub const NO_SUCH_ROW: u8 = 15;
    pub const BOOK_FULL: u8 = 16;
}

/// What a reading, a writing, a text reassembly or a taking reports.
#[derive(Debug, Clone, Copy, PartialEq, Eq)]
pub struct Answer {
    pub code: u8,
    pub place: usize,
    pub length: usize,
}

/// Why a label or a table was refused, and where.
#[derive(Debug, Clone, Copy, PartialEq, Eq)]
struct Fault {
    code: u8,
    place: usize,
}

impl Fault {
    fn refusal(self) -> Answer {
        Answer {
            code: self.code,
            place: self.place,
            length: 0,
        }
    }
}

/// Reads a label into the lent table room.
pub fn read(label: &[u8], table: &mut [u8]) -> Answer {
    match reading(label) {
        Ok((rows, end)) => deliver(&rows, end, table),
        Err(fault) => fault.refusal(),
    }
}

/// Reads a label into the lent table room and counts it in the book. Only what
/// the reader accepts, the room included, can find the book full.
pub fn take(book: &mut Book, label: &[u8], table: &mut [u8]) -> Answer {
    let (rows, end) = match reading(label) {
        Ok(read) => read,
        Err(fault) => return fault.refusal(),
    };
    let fits = rows.len() <= table.len();
    if fits && book::is_full(book) {
        return Answer {
            code: code::BOOK_FULL,
            place: 0,
            length: 0,
        };
    }
    if fits {
        book[book::counter(label, &rows)] += 1;
    }
    deliver(&rows, end, table)
}

/// Writes the canonical label of a table into the lent room.
pub fn write(label: &[u8], table: &[u8], out: &mut [u8]) -> Answer {
    match writing(label, table) {
        Ok(written) => deliver(&written, written.len(), out),
        Err(fault) => fault.refusal(),
    }
}

/// Reassembles the text of the row at offset `row` into the lent room.
pub fn text(label: &[u8], table: &[u8], row: usize, out: &mut [u8]) -> Answer {
    match lookup::text_at(label, table, row) {
        Ok(text) => deliver(&text, 0, out),
        Err(fault) => fault.refusal(),
    }
}

/// Looks for an attribute from the row at offset `row` on, within its block.
/// Gives the code, its place, and the offset of the attribute's row (0 unless
/// the code is 0).
pub fn find(label: &[u8], table: &[u8], name: &[u8], row: usize) -> (u8, usize, usize) {
    match lookup::attribute(label, table, name, row) {
        Ok(at) => (code::ACCEPTED, 0, at),
        Err(fault) => (fault.code, fault.place, 0),
    }
}

/// The stretch of the label that is the row's name: start and end, or (0, 0)
/// for the empty stretch that means refusal.
pub fn name(label: &[u8], table: &[u8], row: usize) -> (usize, usize) {
    lookup::name_at(label, table, row).unwrap_or((0, 0))
}

/// The meaning of a table, row by row: equal for two tables, each over its own
/// label, exactly if they mean the same. None if the table is not proper.
pub fn meaning(label: &[u8], table: &[u8]) -> Option<Vec<Vec<u8>>> {
    let rows = proper_rows(label, table).ok()?;
    let meant = |&(_, row): &(usize, table::Row)| meaning::meant(label, row);
    Some(rows.iter().map(meant).collect())
}

/// What the program `relabel` prints for this input: the canonical label, or
/// the line that says why there is none.
pub fn relabel(label: &[u8]) -> Vec<u8> {
    match relabelled(label) {
        Ok(written) => written,
        Err(fault) => format!("REFUSED {} {}\r\n", fault.code, fault.place).into_bytes(),
    }
}

fn relabelled(label: &[u8]) -> Result<Vec<u8>, Fault> {
    let (rows, end) = reading(label)?;
    // The program lends 65,535 bytes for the table as well as for the label.
    if rows.len() > LONGEST_LABEL {
        return Err(Fault {
            code: code::ROOM_TOO_SHORT,
            place: end,
        });
    }
    writing(label, &rows)
}

fn reading(label: &[u8]) -> Result<(Vec<u8>, usize), Fault> {
    check_length(label)?;
    statements::rows(label)
}

fn writing(label: &[u8], table: &[u8]) -> Result<Vec<u8>, Fault> {
    let rows = proper_rows(label, table)?;
    writer::written(label, &rows).ok_or(Fault {
        code: code::WRITTEN_TOO_LONG,
        place: LONGEST_LABEL,
    })
}

/// The rows of a table with their offsets, once label and table are judged.
fn proper_rows(label: &[u8], table: &[u8]) -> Result<Vec<(usize, table::Row)>, Fault> {
    check_length(label)?;
    table::rows(label, table).map_err(|place| Fault {
        code: code::IMPROPER_TABLE,
        place,
    })
}

/// The row of this kind that a table is refused at, if it is refused for what
/// `mended` sets right: with the mended row in its stead the row is proper.
fn refused_row<const LENGTH: usize>(
    label: &[u8],
    table: &[u8],
    kind: u8,
    mended: impl Fn([u8; LENGTH]) -> [u8; LENGTH],
) -> Option<[u8; LENGTH]> {
    let place = proper_rows(label, table).err()?.place;
    let row: [u8; LENGTH] = table.get(place..place + LENGTH)?.try_into().ok()?;
    let mut other = table.to_vec();
    other[place..place + LENGTH].copy_from_slice(&mended(row));
    let refused_at = proper_rows(label, &other).err().map(|fault| fault.place);
    (row[0] == kind && refused_at != Some(place)).then_some(row)
}

fn check_length(label: &[u8]) -> Result<(), Fault> {
    if label.len() > LONGEST_LABEL {
        return Err(Fault {
            code: code::LABEL_TOO_LONG,
            place: LONGEST_LABEL,
        });
    }
    Ok(())
}

/// Copies a result into the lent room if it fits, and reports its length
/// either way.
fn deliver(result: &[u8], place: usize, room: &mut [u8]) -> Answer {
    let code = match room.get_mut(..result.len()) {
        Some(part) => {
            part.copy_from_slice(result);
            code::ACCEPTED
        }
        None => code::ROOM_TOO_SHORT,
    };
    Answer {
        code,
        place,
        length: result.len(),
    }
}
