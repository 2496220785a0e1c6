//! The library's own calls: lent room, and numbers for answers.
//!
//! Any bytes may be handed in, and any counts of a book. The lent room is
//! untouched beyond the reported length, and on every code but 0 all of it and
//! the book.

/// What a reading, a writing, a text reassembly or a taking reports.
#[derive(Debug, Clone, Copy, PartialEq, Eq)]
pub struct Answer {
    /// 0, or why there is no result; see [`Code`](crate::Code).
    pub code: u8,
    /// Where the label or table was refused, or where it ended.
    pub place: usize,
    /// The length of the result; with code 11 the one needed.
    pub length: usize,
}

/// What a lookup reports.
#[derive(Debug, Clone, Copy, PartialEq, Eq)]
pub struct Found {
    /// 0, or why nothing was found; see [`Code`](crate::Code).
    pub code: u8,
    /// Where the label or table was refused.
    pub place: usize,
    /// The offset of the attribute's row, or 0.
    pub at: usize,
}

/// A session book as the library has it; all zeros is the empty one.
#[derive(Debug, Clone, Copy, PartialEq, Eq, Hash, Default)]
#[repr(C)]
pub struct Book {
    /// Sessions on each weekday, Monday first, and undated ones last.
    pub counts: [u32; 8],
}

mod face {
    use super::Book;

    extern "C" {
        pub fn odl_read(
            label: *const u8,
            label_len: usize,
            table: *mut u8,
            table_len: usize,
            place: *mut usize,
            length: *mut usize,
        ) -> u8;
        pub fn odl_write(
            label: *const u8,
            label_len: usize,
            table: *const u8,
            table_len: usize,
            out: *mut u8,
            out_len: usize,
            place: *mut usize,
            length: *mut usize,
        ) -> u8;
        pub fn odl_text(
            label: *const u8,
            label_len: usize,
            table: *const u8,
            table_len: usize,
            row: usize,
            out: *mut u8,
            out_len: usize,
            place: *mut usize,
            length: *mut usize,
        ) -> u8;
        pub fn odl_find(
            label: *const u8,
            label_len: usize,
            table: *const u8,
            table_len: usize,
            name: *const u8,
            name_len: usize,
            row: usize,
            place: *mut usize,
            at: *mut usize,
        ) -> u8;
        pub fn odl_name(
            label: *const u8,
            label_len: usize,
            table: *const u8,
            table_len: usize,
            row: usize,
            start: *mut usize,
            end: *mut usize,
        );
        pub fn odl_take(
            book: *mut Book,
            label: *const u8,
            label_len: usize,
            table: *mut u8,
            table_len: usize,
            place: *mut usize,
            length: *mut usize,
        ) -> u8;
    }
}

// In each call below the pointers and lengths are those of live slices, the
// lent room and the book are borrowed alone, and the results are places of this
// function; the library keeps none of them.

/// Reads a label into the lent table room.
pub fn read(label: &[u8], table: &mut [u8]) -> Answer {
    let (mut place, mut length) = (0, 0);
    // SAFETY: as said above.
    let code = unsafe {
        face::odl_read(
            label.as_ptr(),
            label.len(),
            table.as_mut_ptr(),
            table.len(),
            &mut place,
            &mut length,
        )
    };
    Answer {
        code,
        place,
        length,
    }
}

/// Writes the canonical label of a table into the lent room.
pub fn write(label: &[u8], table: &[u8], out: &mut [u8]) -> Answer {
    let (mut place, mut length) = (0, 0);
    // SAFETY: as said above.
    let code = unsafe {
        face::odl_write(
            label.as_ptr(),
            label.len(),
            table.as_ptr(),
            table.len(),
            out.as_mut_ptr(),
            out.len(),
            &mut place,
            &mut length,
        )
    };
    Answer {
        code,
        place,
        length,
    }
}

/// Reassembles the text of the row at offset `row` into the lent room.
pub fn text(label: &[u8], table: &[u8], row: usize, out: &mut [u8]) -> Answer {
    let (mut place, mut length) = (0, 0);
    // SAFETY: as said above.
    let code = unsafe {
        face::odl_text(
            label.as_ptr(),
            label.len(),
            table.as_ptr(),
            table.len(),
            row,
            out.as_mut_ptr(),
            out.len(),
            &mut place,
            &mut length,
        )
    };
    Answer {
        code,
        place,
        length,
    }
}

/// Looks for an attribute from the row at offset `row` on, within its block.
pub fn find(label: &[u8], table: &[u8], name: &[u8], row: usize) -> Found {
    let (mut place, mut at) = (0, 0);
    // SAFETY: as said above.
    let code = unsafe {
        face::odl_find(
            label.as_ptr(),
            label.len(),
            table.as_ptr(),
            table.len(),
            name.as_ptr(),
            name.len(),
            row,
            &mut place,
            &mut at,
        )
    };
    Found { code, place, at }
}

/// Start and end of the name of the row at offset `row`; 0 and 0 if it has
/// none.
pub fn name(label: &[u8], table: &[u8], row: usize) -> (usize, usize) {
    let (mut start, mut end) = (0, 0);
    // SAFETY: as said above.
    unsafe {
        face::odl_name(
            label.as_ptr(),
            label.len(),
            table.as_ptr(),
            table.len(),
            row,
            &mut start,
            &mut end,
        )
    };
    (start, end)
}

/// Takes a label into the book, and its table into the lent room.
pub fn take(book: &mut Book, label: &[u8], table: &mut [u8]) -> Answer {
    let (mut place, mut length) = (0, 0);
    // SAFETY: as said above.
    let code = unsafe {
        face::odl_take(
            book,
            label.as_ptr(),
            label.len(),
            table.as_mut_ptr(),
            table.len(),
            &mut place,
            &mut length,
        )
    };
    Answer {
        code,
        place,
        length,
    }
}
