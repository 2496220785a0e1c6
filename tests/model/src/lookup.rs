//! Questions about single rows: an attribute by its name, a row's name, a
//! row's text.

use crate::table::{Row, Span};
use crate::{code, proper_rows, text, Fault};

const ABSENT: Fault = Fault {
    code: code::NAME_ABSENT,
    place: 0,
};

const NO_SUCH_ROW: Fault = Fault {
    code: code::NO_SUCH_ROW,
    place: 0,
};

/// The offset of the first attribute of this name, at the row or after it in
/// the block that the row stands in.
pub fn attribute(label: &[u8], table: &[u8], name: &[u8], offset: usize) -> Result<usize, Fault> {
    let rows = proper_rows(label, table)?;
    let from = rows
        .iter()
        .position(|&(at, row)| at == offset && begins_or_ends_statement(row))
        .ok_or(NO_SUCH_ROW)?;
    let mut blocks_inside = 0;
    for &(at, row) in &rows[from..] {
        match row {
            Row::Object(_) | Row::Group(_) => blocks_inside += 1,
            Row::EndObject | Row::EndGroup if blocks_inside == 0 => return Err(ABSENT),
            Row::EndObject | Row::EndGroup => blocks_inside -= 1,
            Row::Attribute(span)
                if blocks_inside == 0 && span.of(label).eq_ignore_ascii_case(name) =>
            {
                return Ok(at)
            }
            _ => {}
        }
    }
    Err(ABSENT)
}

fn begins_or_ends_statement(row: Row) -> bool {
    matches!(
        row,
        Row::Attribute(_)
            | Row::Pointer(_)
            | Row::Object(_)
            | Row::EndObject
            | Row::Group(_)
            | Row::EndGroup
            | Row::Last(_)
    )
}

/// Start and end of the row's name, if there is such a row and it has one.
pub fn name_at(label: &[u8], table: &[u8], offset: usize) -> Option<(usize, usize)> {
    let Span { start, end } = match row_at(label, table, offset).ok()? {
        Row::Attribute(name)
        | Row::Pointer(name)
        | Row::Object(name)
        | Row::Group(name)
        | Row::Symbol(name)
        | Row::Unit { name, .. } => name,
        _ => return None,
    };
    Some((start, end))
}

/// The reassembled text of the row at this offset.
pub fn text_at(label: &[u8], table: &[u8], offset: usize) -> Result<Vec<u8>, Fault> {
    match row_at(label, table, offset)? {
        Row::Text(span) => Ok(text::reassembled(span.of(label))),
        _ => Err(NO_SUCH_ROW),
    }
}

fn row_at(label: &[u8], table: &[u8], offset: usize) -> Result<Row, Fault> {
    proper_rows(label, table)?
        .iter()
        .find(|&&(at, _)| at == offset)
        .map(|&(_, row)| row)
        .ok_or(NO_SUCH_ROW)
}
