//! What may stand between elements: spacing, line ends and comments.

use crate::{code, Fault};

fn is_spacing(byte: u8) -> bool {
    matches!(byte, b' ' | b'\t')
}

pub fn is_line_end(byte: u8) -> bool {
    // LF, VT, FF and CR are neighbours in the character set.
    matches!(byte, 10..=13)
}

pub fn is_blank(byte: u8) -> bool {
    is_spacing(byte) || is_line_end(byte)
}

/// Where the next element begins, at `at` or after it; the label's length if
/// there is none.
pub fn skip(label: &[u8], mut at: usize) -> Result<usize, Fault> {
    loop {
        at = find(label, at, |byte| !is_blank(byte));
        if !label[at..].starts_with(b"/*") {
            return Ok(at);
        }
        at = skip_comment(label, at)?;
    }
}

/// Passes over a comment and the ignored rest of its line.
fn skip_comment(label: &[u8], start: usize) -> Result<usize, Fault> {
    let refuse = |code| Err(Fault { code, place: start });
    // The closing mark is looked for after both opening bytes: `/*/` is open.
    let mut at = start + 2;
    loop {
        match label[at..] {
            [b'*', b'/', ..] => return Ok(find(label, at + 2, is_line_end)),
            [] => return refuse(code::LEFT_OPEN),
            [byte, ..] if is_line_end(byte) => return refuse(code::LEFT_OPEN),
            [byte, ..] if !byte.is_ascii() => return refuse(code::BAD_BYTE),
            _ => at += 1,
        }
    }
}

/// The first byte of this sort at `at` or after it; else the label's length.
fn find(label: &[u8], at: usize, sort: impl Fn(u8) -> bool) -> usize {
    let rest = &label[at..];
    at + rest
        .iter()
        .position(|&byte| sort(byte))
        .unwrap_or(rest.len())
}
