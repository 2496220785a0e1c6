//! The meaning of a table, as a value that can be compared.

use crate::table::{Row, Span};
use crate::text;

/// The row's bytes, its span replaced by what it shows, or the last row's
/// offset or the mark of a zone (02 §6) left out. No two rows of other meaning
/// come out alike, since all else in a row of that kind has one length.
pub fn meant(label: &[u8], row: Row) -> Vec<u8> {
    let folded = |name: Span| name.of(label).to_ascii_uppercase();
    let mut bytes = Vec::new();
    row.encode(&mut bytes);
    match row {
        Row::Attribute(name)
        | Row::Pointer(name)
        | Row::Object(name)
        | Row::Group(name)
        | Row::Symbol(name) => drop(bytes.splice(1..5, folded(name))),
        Row::Text(span) => drop(bytes.splice(1..5, text::reassembled(span.of(label)))),
        Row::Unit { name, .. } => drop(bytes.splice(2..6, folded(name))),
        Row::Last(_) => bytes.truncate(1),
        // The mark stands last.
        Row::Moment { .. } => drop(bytes.pop()),
        _ => {}
    }
    bytes
}
