//! Layout (02 §14): the list of a label's elements, and the same elements
//! laid out anew. §14 speaks of END set off in both labels or lacking in both;
//! here END may also be without its spacing in both.

use crate::elements::{is_mark, is_symbol_byte, is_text_byte, is_word_byte, leading};
use crate::gaps::{self, is_blank, is_line_end};
use crate::random::Random;

/// How a list ends.
#[derive(Debug, Clone, Copy, PartialEq, Eq, PartialOrd, Ord)]
pub enum Ending {
    /// With END; spacing, a line end or the input's end is behind it.
    SetOff,
    /// With END; another byte is behind it.
    NotSetOff,
    /// With the input, before any END.
    Lacking,
}

/// The elements of a label through its first END or to the input's end.
#[derive(Debug, Clone, PartialEq, Eq)]
pub struct List<'a> {
    /// Each with its place.
    pub elements: Vec<(usize, &'a [u8])>,
    pub ending: Ending,
    /// The length of the whole label.
    pub length: usize,
}

/// Where in a list a label is refused.
#[derive(Debug, Clone, Copy, PartialEq, Eq)]
pub enum Place {
    /// At the element of this number, counted from 0.
    Element(usize),
    InputEnd,
}

impl List<'_> {
    /// The place at this offset of the label, if there is one.
    pub fn place(&self, offset: usize) -> Option<Place> {
        if offset == self.length {
            return Some(Place::InputEnd);
        }
        let found = self.elements.binary_search_by_key(&offset, |&(at, _)| at);
        found.ok().map(Place::Element)
    }

    /// Whether the two labels differ by their layout only.
    pub fn is_same(&self, other: &List) -> bool {
        let (ours, theirs) = (self.elements.iter(), other.elements.iter());
        self.ending == other.ending && ours.map(|e| e.1).eq(theirs.map(|e| e.1))
    }
}

/// The list of a label, or none if before its end there is a fault outside
/// the elements: a byte that begins none, or a text, symbol or comment that
/// is left open or holds a byte that it may not.
///
/// A word counts whether or not it has a form, and words and closed symbols
/// count at any length.
pub fn list(label: &[u8]) -> Option<List<'_>> {
    let mut list = List {
        elements: Vec::new(),
        ending: Ending::Lacking,
        length: label.len(),
    };
    let mut end = 0;
    loop {
        let start = gaps::skip(label, end).ok()?;
        if start == label.len() {
            return Some(list);
        }
        end = start + element_length(&label[start..])?;
        let element = &label[start..end];
        list.elements.push((start, element));
        if element.eq_ignore_ascii_case(b"END") {
            list.ending = match label.get(end) {
                Some(&byte) if !is_blank(byte) => Ending::NotSetOff,
                _ => Ending::SetOff,
            };
            return Some(list);
        }
    }
}

/// The length of the element that these bytes begin with, if it is one.
fn element_length(bytes: &[u8]) -> Option<usize> {
    match *bytes {
        [b'"', ..] => closed_length(bytes, is_text_byte),
        [b'\'', ..] => closed_length(bytes, is_symbol_byte),
        [b'*', b'*', ..] => Some(2),
        [byte, ..] if is_mark(byte) => Some(1),
        _ => Some(leading(bytes, is_word_byte)).filter(|&length| length > 0),
    }
}

/// The length with both quotes, if only bytes of this sort stand before the
/// closing one.
fn closed_length(bytes: &[u8], sort: fn(u8) -> bool) -> Option<usize> {
    let length = leading(&bytes[1..], sort);
    (bytes.get(1 + length) == bytes.first()).then_some(length + 2)
}

/// The same elements with the same ending in another layout.
pub fn relaid(random: &mut Random, list: &List) -> Vec<u8> {
    let style = random.pick(&Style::ALL);
    let mut label = Vec::new();
    let mut before: &[u8] = b"";
    for &(_, element) in &list.elements {
        let must = must_part(before, element);
        label.extend(style.gap(random, must));
        label.extend_from_slice(element);
        before = element;
    }
    label.extend(match list.ending {
        Ending::SetOff if random.one_in(3) => Vec::new(),
        Ending::SetOff => after_end(random, is_blank),
        Ending::NotSetOff => after_end(random, |byte| !is_blank(byte) && !is_word_byte(byte)),
        Ending::Lacking => last_gap(random, style),
    });
    label
}

/// Whether two elements would be read as something else if they touched.
fn must_part(one: &[u8], other: &[u8]) -> bool {
    match (one, other) {
        // `***` is `**` and `*`, and `/*` opens a comment.
        (b"*" | b"/", [b'*', ..]) => true,
        ([.., last], [first, ..]) => is_word_byte(*last) && is_word_byte(*first),
        _ => false,
    }
}

/// What follows END: a byte of this sort, and then any bytes.
fn after_end(random: &mut Random, sort: fn(u8) -> bool) -> Vec<u8> {
    let first: Vec<u8> = (0..=u8::MAX).filter(|&byte| sort(byte)).collect();
    let mut after = vec![random.pick(&first)];
    for _ in 0..random.below(4) {
        after.extend(remark(random));
        after.push(random.bits() as u8);
    }
    after
}

/// The gap before the input's end, which may end a comment's line.
fn last_gap(random: &mut Random, style: Style) -> Vec<u8> {
    let mut gap = style.gap(random, false);
    if random.one_in(3) {
        gap.extend(comment(random));
    }
    gap
}

/// What the gaps of a label have in common.
#[derive(Debug, Clone, Copy)]
enum Style {
    /// No gap that need not be.
    Tight,
    OneLine,
    /// Each element on its own line.
    Lines,
    /// Comments in every gap.
    Remarked,
    /// Gaps of any sort.
    Mixed,
}

impl Style {
    const ALL: [Style; 5] = [
        Style::Tight,
        Style::OneLine,
        Style::Lines,
        Style::Remarked,
        Style::Mixed,
    ];

    /// A gap between two elements, not empty if they must be parted.
    fn gap(self, random: &mut Random, must: bool) -> Vec<u8> {
        let least = usize::from(must);
        match self {
            Style::Tight => repeated(random, least, one_blank),
            Style::OneLine => some(random, least, 3, one_space),
            Style::Lines => [line_end(random), some(random, 0, 8, one_space)].concat(),
            Style::Remarked => some(random, 1, 3, remarked_line),
            Style::Mixed => some(random, least, 3, any_gap),
        }
    }
}

/// From `least` to `most` of these.
fn some(
    random: &mut Random,
    least: usize,
    most: usize,
    part: fn(&mut Random) -> Vec<u8>,
) -> Vec<u8> {
    let count = least + random.below(most + 1 - least);
    repeated(random, count, part)
}

fn repeated(random: &mut Random, count: usize, part: fn(&mut Random) -> Vec<u8>) -> Vec<u8> {
    (0..count).flat_map(|_| part(random)).collect()
}

fn any_gap(random: &mut Random) -> Vec<u8> {
    match random.below(4) {
        0 => remarked_line(random),
        1 => line_end(random),
        _ => one_space(random),
    }
}

fn one_blank(random: &mut Random) -> Vec<u8> {
    vec![random.pick(b" \t\r\n\x0b\x0c")]
}

fn one_space(random: &mut Random) -> Vec<u8> {
    vec![random.pick(b" \t")]
}

fn line_end(random: &mut Random) -> Vec<u8> {
    random
        .pick(&[&b"\n"[..], b"\r", b"\x0b", b"\x0c", b"\r\n"])
        .to_vec()
}

/// A comment to the end of its line.
fn remarked_line(random: &mut Random) -> Vec<u8> {
    [comment(random), line_end(random)].concat()
}

/// A comment and the ignored rest of its line. A closing mark inside the
/// comment does no harm: what follows it then belongs to the rest.
fn comment(random: &mut Random) -> Vec<u8> {
    let mut inside = remark(random);
    inside.retain(u8::is_ascii);
    [b"/*", &inside[..], b"*/", &remark(random)].concat()
}

/// Any bytes that may stand on one line, much like elements among them.
fn remark(random: &mut Random) -> Vec<u8> {
    #[rustfmt::skip]
    const MARKS: &[&[u8]] = &[
        b" END ", b"END;", b"A=1", b"\"", b"'", b"/*", b"*/", b"*", b"/", b"=", b"&", b" rig 4 ",
    ];
    let mut remark = Vec::new();
    for _ in 0..random.below(5) {
        remark.extend_from_slice(random.pick(MARKS));
        remark.push(random.bits() as u8);
    }
    remark.retain(|&byte| !is_line_end(byte));
    remark
}
