//! The elements of a label: words, marks, texts and quoted symbols.

use crate::gaps::{self, is_line_end};
use crate::words::{self, Moment, Real, Reserved};
use crate::{code, Fault};

pub const LONGEST_SYMBOL: usize = 255;

#[derive(Debug, Clone, Copy, PartialEq, Eq)]
pub enum Kind {
    /// An identifier that is not reserved.
    Name,
    Reserved(Reserved),
    Integer(i64),
    /// Kept apart from `Integer`: it cannot be a unit's exponent.
    BasedInteger(i64),
    Real(Real),
    /// With the mark of its zone (02 §6).
    Moment {
        moment: Moment,
        mark: u8,
    },
    Text,
    Symbol,
    /// One of `= , * / ^ < > ( ) { }`.
    Mark(u8),
    /// `**`
    Power,
    /// The input's end.
    Nothing,
}

#[derive(Debug, Clone, Copy)]
pub struct Element {
    pub kind: Kind,
    pub start: usize,
    pub end: usize,
}

/// The first element at `at` or after it.
pub fn next(label: &[u8], at: usize) -> Result<Element, Fault> {
    let start = gaps::skip(label, at)?;
    let refuse = |code| Fault { code, place: start };
    let (kind, length) = match label[start..] {
        [] => (Kind::Nothing, 0),
        [b'"', ref body @ ..] => (Kind::Text, text_length(body).map_err(refuse)?),
        [b'\'', ref body @ ..] => (Kind::Symbol, symbol_length(body).map_err(refuse)?),
        [b'*', b'*', ..] => (Kind::Power, 2),
        [byte, ..] if is_mark(byte) => (Kind::Mark(byte), 1),
        [byte, ..] if is_word_byte(byte) => word(&label[start..]).map_err(refuse)?,
        _ => return Err(refuse(code::BAD_BYTE)),
    };
    Ok(Element {
        kind,
        start,
        end: start + length,
    })
}

pub fn is_mark(byte: u8) -> bool {
    matches!(
        byte,
        b'=' | b',' | b'*' | b'/' | b'^' | b'<' | b'>' | b'(' | b')' | b'{' | b'}'
    )
}

pub fn is_word_byte(byte: u8) -> bool {
    byte.is_ascii_alphanumeric() || matches!(byte, b'_' | b'+' | b'-' | b'.' | b':' | b'#')
}

/// The longest word at the start of these bytes.
fn word(bytes: &[u8]) -> Result<(Kind, usize), u8> {
    let length = leading(bytes, is_word_byte);
    Ok((words::form(&bytes[..length])?, length))
}

/// The length with both quotes, from the bytes after the opening one.
fn text_length(body: &[u8]) -> Result<usize, u8> {
    let length = leading(body, is_text_byte);
    match body.get(length) {
        Some(b'"') => Ok(length + 2),
        Some(_) => Err(code::BAD_BYTE),
        None => Err(code::LEFT_OPEN),
    }
}

/// The length with both apostrophes, from the bytes after the opening one.
/// The length counts only once the symbol is known to close.
fn symbol_length(body: &[u8]) -> Result<usize, u8> {
    let length = leading(body, is_symbol_byte);
    match body.get(length) {
        Some(b'\'') if length == 0 => Err(code::NO_FORM),
        Some(b'\'') if length > LONGEST_SYMBOL => Err(code::PAST_LIMIT),
        Some(b'\'') => Ok(length + 2),
        Some(&byte) if !is_line_end(byte) => Err(code::BAD_BYTE),
        _ => Err(code::LEFT_OPEN),
    }
}

pub fn is_text_byte(byte: u8) -> bool {
    byte.is_ascii() && byte != b'"'
}

pub fn is_symbol_byte(byte: u8) -> bool {
    matches!(byte, 32..=126) && byte != b'\''
}

/// How many of the first bytes are of this sort.
pub fn leading(bytes: &[u8], sort: impl Fn(u8) -> bool) -> usize {
    bytes
        .iter()
        .position(|&byte| !sort(byte))
        .unwrap_or(bytes.len())
}
