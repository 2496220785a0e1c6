//! Texts put together again from the lines they were broken into.

use crate::gaps::{is_blank, is_line_end};

/// The text that stands between the quotes, as it is meant.
pub fn reassembled(raw: &[u8]) -> Vec<u8> {
    // Control bytes go first, so that they neither part a hyphen from its
    // line end nor split a run.
    let kept: Vec<u8> = raw.iter().copied().filter(|&b| !is_dropped(b)).collect();
    let mut text = Vec::with_capacity(kept.len());
    let mut rest = &kept[..];
    while let Some(&byte) = rest.first() {
        let length = rest.iter().take_while(|&&b| is_blank(b)).count();
        if length == 0 {
            text.push(byte);
            rest = &rest[1..];
            continue;
        }
        let (run, after) = rest.split_at(length);
        put_run(&mut text, run);
        rest = after;
    }
    text
}

fn is_dropped(byte: u8) -> bool {
    byte.is_ascii_control() && !is_blank(byte)
}

/// Puts what becomes of a longest run of spacing and line ends. What stands
/// before it is the last byte put, since two such runs never touch.
fn put_run(text: &mut Vec<u8>, run: &[u8]) {
    if !run.iter().any(|&byte| is_line_end(byte)) {
        text.extend_from_slice(run);
    } else if is_line_end(run[0]) && text.last() == Some(&b'-') {
        text.pop();
    } else {
        text.push(b' ');
    }
}
