//! Which cases of the rule for rows (02 §2) a label shows. A run over random
//! labels has tried the rule only if it came upon every one of them.

use crate::elements::{self, Kind};
use crate::gaps::is_line_end;
use crate::table::Row;
use crate::{code, layout, proper_rows, reading};

/// Cases by their code and by a part of the label's shape.
///
/// In a shape `s` is a name, or a scalar without its units, `r` a row within a sequence,
/// `w` a reserved word and `$` the input's end; marks stand for themselves. A
/// `!` stands before the element at which the label is refused, and one more
/// element is shown after that.
const SHAPES: [(&str, u8, &str); 21] = [
    ("one row", code::ACCEPTED, "=(r)"),
    ("two rows", code::ACCEPTED, "=(r,r)"),
    ("three rows", code::ACCEPTED, "=(r,r,r)"),
    ("rows side by side", code::MISPLACED, "=(r!("),
    ("later rows side by side", code::MISPLACED, ",r!("),
    ("a comma first", code::MISPLACED, "=(!,("),
    ("a comma doubled", code::MISPLACED, "r,!,("),
    ("a comma last", code::MISPLACED, "r,!)"),
    ("a scalar for a row", code::MISPLACED, "r,!s"),
    ("a set for a row", code::MISPLACED, "r,!{"),
    ("a reserved word for a row", code::MISPLACED, "r,!w"),
    ("an empty row", code::MISPLACED, "r,(!)"),
    ("a row that begins with a row", code::MISPLACED, "r,(!("),
    ("a row with a row further on", code::MISPLACED, "r,(s,!("),
    (
        "a first row that begins with a row",
        code::MISPLACED,
        "=((!(",
    ),
    ("a scalar beside a row", code::MISPLACED, "r!s"),
    ("a set beside a row", code::MISPLACED, "r!{"),
    ("a row after a scalar", code::MISPLACED, "=(s,!("),
    ("a row beside a scalar", code::MISPLACED, "=(s!("),
    ("the input's end after a comma", code::ENDS_EARLY, "r,!$"),
    ("the input's end after a row", code::ENDS_EARLY, "r!$"),
];

/// Cases by what stands before a comma between two rows, and after it.
const GAPS: [[&str; 4]; 2] = [
    [
        "nothing before the comma",
        "spacing before the comma",
        "a line end before the comma",
        "a comment before the comma",
    ],
    [
        "nothing after the comma",
        "spacing after the comma",
        "a line end after the comma",
        "a comment after the comma",
    ],
];

/// The names of all cases.
pub fn names() -> impl Iterator<Item = &'static str> {
    let shapes = SHAPES.iter().map(|&(name, ..)| name);
    shapes.chain(GAPS.into_iter().flatten())
}

/// The names of the cases that this label shows.
pub fn cases(label: &[u8]) -> Vec<&'static str> {
    let (code, read, refused_at) = match reading(label) {
        Ok((_, end)) => (code::ACCEPTED, &label[..end], None),
        Err(fault) => (fault.code, label, Some(fault.place)),
    };
    let shape = shape(read, refused_at);
    let shown = |case: &&(&str, u8, &str)| case.1 == code && shape.contains(case.2);
    let mut cases: Vec<&str> = SHAPES.iter().filter(shown).map(|case| case.0).collect();
    if code == code::ACCEPTED {
        cases.extend(gaps_at_commas(read));
    }
    cases
}

/// Whether this is a proper table in which one row follows another, so that it
/// is written with a comma between the two.
pub fn follow_each_other(label: &[u8], table: &[u8]) -> bool {
    let next_row =
        |pair: &[(usize, Row)]| [pair[0].1, pair[1].1] == [Row::SequenceEnd, Row::Sequence];
    proper_rows(label, table).is_ok_and(|rows| rows.windows(2).any(next_row))
}

fn shape(label: &[u8], refused_at: Option<usize>) -> String {
    let mut shape = String::new();
    let mut at = 0;
    while let Ok(element) = elements::next(label, at) {
        at = element.end;
        if refused_at == Some(element.start) {
            shape.extend(['!', sign(element.kind)]);
            shape.extend(elements::next(label, at).map(|next| sign(next.kind)));
            break;
        }
        if element.kind == Kind::Nothing {
            break;
        }
        put(&mut shape, element.kind);
    }
    shape
}

/// Puts an element's sign; what ends a row or units is put with all of it.
fn put(shape: &mut String, kind: Kind) {
    let opening = match kind {
        Kind::Mark(b'>') => shape.rfind('<'),
        Kind::Mark(b')') => shape.rfind('('),
        _ => None,
    };
    match (kind, opening) {
        (Kind::Mark(b'>'), Some(opening)) => shape.truncate(opening),
        (Kind::Mark(b')'), Some(opening)) if shape[..opening].ends_with(['(', ',']) => {
            shape.truncate(opening);
            shape.push('r');
        }
        _ => shape.push(sign(kind)),
    }
}

fn sign(kind: Kind) -> char {
    match kind {
        Kind::Mark(mark) => char::from(mark),
        Kind::Power => '*',
        Kind::Reserved(_) => 'w',
        Kind::Nothing => '$',
        _ => 's',
    }
}

/// In an accepted label a comma stands between brackets only between rows.
fn gaps_at_commas(label: &[u8]) -> Vec<&'static str> {
    let elements = layout::list(label).map_or(Vec::new(), |list| list.elements);
    let mut cases = Vec::new();
    for three in elements.windows(3) {
        if let [(closing, b")"), (comma, b","), (opening, b"(")] = three {
            cases.push(GAPS[0][sort(&label[closing + 1..*comma])]);
            cases.push(GAPS[1][sort(&label[comma + 1..*opening])]);
        }
    }
    cases
}

/// The sort of a gap, by its number in the lists above.
fn sort(gap: &[u8]) -> usize {
    match gap {
        [] => 0,
        _ if gap.contains(&b'/') => 3,
        _ if gap.iter().any(|&byte| is_line_end(byte)) => 2,
        _ => 1,
    }
}
