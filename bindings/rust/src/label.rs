use crate::raw::{self, Answer};
use crate::{Code, Error, Row, LONGEST_LABEL};

/// The bytes of a table, not yet judged.
#[derive(Debug, Clone, PartialEq, Eq, Hash, Default)]
pub struct Table(Vec<u8>);

impl Table {
    pub fn as_bytes(&self) -> &[u8] {
        &self.0
    }

    pub fn into_bytes(self) -> Vec<u8> {
        self.0
    }
}

impl From<Vec<u8>> for Table {
    fn from(bytes: Vec<u8>) -> Table {
        Table(bytes)
    }
}

impl From<Table> for Vec<u8> {
    fn from(table: Table) -> Vec<u8> {
        table.0
    }
}

impl AsRef<[u8]> for Table {
    fn as_ref(&self) -> &[u8] {
        &self.0
    }
}

/// A label with a table that is proper over it.
#[derive(Debug, Clone, PartialEq, Eq)]
pub struct Label<'a> {
    bytes: &'a [u8],
    table: Table,
}

/// A row and where it stands.
#[derive(Debug, Clone, Copy, PartialEq, Eq)]
pub struct Entry<'a> {
    /// The row's offset in the table.
    pub offset: usize,
    /// The offset of the row after it.
    pub next: usize,
    pub row: Row<'a>,
}

impl<'a> Label<'a> {
    /// A label with a table from elsewhere, once that is found to be proper.
    pub fn with_table(bytes: &'a [u8], table: impl Into<Table>) -> Result<Label<'a>, Error> {
        let table = table.into();
        // No row has this offset, so only label and table are judged.
        let judged = raw::find(bytes, &table.0, b"", usize::MAX);
        match Error::check(judged.code, judged.place) {
            Err(error) if error.code != Code::NoSuchRow => Err(error),
            _ => Ok(Label { bytes, table }),
        }
    }

    /// The bytes that were read.
    pub fn bytes(&self) -> &'a [u8] {
        self.bytes
    }

    pub fn table(&self) -> &Table {
        &self.table
    }

    pub fn into_table(self) -> Table {
        self.table
    }

    /// All rows in order, the last one included.
    pub fn rows(&self) -> Rows<'a, '_> {
        self.rows_from(0)
    }

    /// The rows from this offset on; none if no row starts there.
    pub fn rows_from(&self, offset: usize) -> Rows<'a, '_> {
        let mut rows = Rows {
            label: self.bytes,
            table: &self.table.0,
            offset: 0,
        };
        while rows.offset < offset && rows.next().is_some() {}
        if rows.offset != offset {
            rows.offset = rows.table.len();
        }
        rows
    }

    /// The row that starts at this offset of the table.
    pub fn row(&self, offset: usize) -> Option<Entry<'a>> {
        self.rows_from(offset).next()
    }

    /// The offset of the first attribute of this name, from the row at offset
    /// `from` on (0 for the start), in the block that the row stands in.
    /// Blocks within it are passed over.
    pub fn find(&self, name: impl AsRef<[u8]>, from: usize) -> Result<usize, Error> {
        find(self.bytes, &self.table.0, name.as_ref(), from)
    }

    /// The name of the row at this offset, as written, if it has one.
    pub fn name(&self, row: usize) -> Option<&'a str> {
        match name(self.bytes, &self.table.0, row) {
            [] => None,
            name => std::str::from_utf8(name).ok(),
        }
    }

    /// The text of the row at this offset, its lines joined.
    pub fn text(&self, row: usize) -> Result<String, Error> {
        let text = text(self.bytes, &self.table.0, row)?;
        Ok(String::from_utf8(text).expect("bytes of a text are below 128"))
    }

    /// The canonical label.
    pub fn write(&self) -> Result<Vec<u8>, Error> {
        write(self.bytes, &self.table.0)
    }
}

impl<'a, 'l> IntoIterator for &'l Label<'a> {
    type Item = Entry<'a>;
    type IntoIter = Rows<'a, 'l>;

    fn into_iter(self) -> Rows<'a, 'l> {
        self.rows()
    }
}

/// Walks the rows of a label's table.
#[derive(Debug, Clone)]
pub struct Rows<'a, 't> {
    label: &'a [u8],
    table: &'t [u8],
    offset: usize,
}

impl<'a> Iterator for Rows<'a, '_> {
    type Item = Entry<'a>;

    fn next(&mut self) -> Option<Entry<'a>> {
        let (row, rest) = Row::decode(self.label, &self.table[self.offset..])?;
        let entry = Entry {
            offset: self.offset,
            next: self.table.len() - rest.len(),
            row,
        };
        self.offset = entry.next;
        Some(entry)
    }
}

impl std::iter::FusedIterator for Rows<'_, '_> {}

/// Reads a label.
pub fn read(label: &[u8]) -> Result<Label<'_>, Error> {
    read_by(label, |room| raw::read(label, room))
}

/// The label with the table that this call leaves in its room.
pub(crate) fn read_by(
    label: &[u8],
    call: impl FnMut(&mut [u8]) -> Answer,
) -> Result<Label<'_>, Error> {
    // Most tables are shorter than their label, and the rest ask for more.
    let table = grown(label.len().min(LONGEST_LABEL), call)?;
    Ok(Label {
        bytes: label,
        table: Table(table),
    })
}

/// Writes a table over a label out as a canonical label.
pub fn write(label: &[u8], table: &[u8]) -> Result<Vec<u8>, Error> {
    grown(label.len().min(LONGEST_LABEL), |room| {
        raw::write(label, table, room)
    })
}

/// The text of a table's row at this offset, its lines joined.
pub fn text(label: &[u8], table: &[u8], row: usize) -> Result<Vec<u8>, Error> {
    grown(80, |room| raw::text(label, table, row, room))
}

/// The offset of the first attribute of this name, from the row at offset
/// `from` on, in the block that the row stands in.
pub fn find(label: &[u8], table: &[u8], name: &[u8], from: usize) -> Result<usize, Error> {
    let found = raw::find(label, table, name, from);
    Error::check(found.code, found.place)?;
    Ok(found.at)
}

/// The stretch of the label that is the name of a table's row, or an empty one
/// at the label's start.
pub fn name<'a>(label: &'a [u8], table: &[u8], row: usize) -> &'a [u8] {
    let (start, end) = raw::name(label, table, row);
    &label[start..end]
}

/// The canonical label, or the refusal that the program `relabel` prints. Like
/// it, this has room for a table of 65,535 bytes; `read` and `write` have no
/// such limit.
pub fn relabel(label: &[u8]) -> Result<Vec<u8>, Error> {
    let mut table = vec![0; LONGEST_LABEL];
    let answer = raw::read(label, &mut table);
    Error::check(answer.code, answer.place)?;
    write(label, &table[..answer.length])
}

/// Calls with some room, and again with the room needed if that was too short.
fn grown(first: usize, mut call: impl FnMut(&mut [u8]) -> Answer) -> Result<Vec<u8>, Error> {
    let mut room = vec![0; first];
    let mut answer = call(&mut room);
    if answer.code == Code::RoomTooShort as u8 {
        room = vec![0; answer.length];
        answer = call(&mut room);
    }
    Error::check(answer.code, answer.place)?;
    room.truncate(answer.length);
    Ok(room)
}
