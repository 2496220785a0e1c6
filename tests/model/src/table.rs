//! The table: its rows as bytes, and which tables are proper.

use crate::elements::{is_symbol_byte, is_text_byte, LONGEST_SYMBOL};
use crate::statements::{DEEPEST, LARGEST_EXPONENT};
use crate::words::{self, Moment, Real};

/// A stretch of the label, quotes left out.
#[derive(Debug, Clone, Copy, PartialEq, Eq)]
pub struct Span {
    pub start: usize,
    pub end: usize,
}

impl Span {
    pub fn of(self, label: &[u8]) -> &[u8] {
        &label[self.start..self.end]
    }

    fn lies_inside(self, label: &[u8]) -> bool {
        self.start <= self.end && self.end <= label.len()
    }
}

/// How a unit is joined to the units before it.
#[derive(Debug, Clone, Copy, PartialEq, Eq)]
pub enum Operator {
    First,
    Times,
    Divided,
}

#[derive(Debug, Clone, Copy, PartialEq, Eq)]
pub enum Row {
    Attribute(Span),
    Pointer(Span),
    Object(Span),
    EndObject,
    Group(Span),
    EndGroup,
    Integer(i64),
    Real(Real),
    /// With the mark of its zone (02 §6), which is no part of the meaning.
    Moment {
        moment: Moment,
        mark: u8,
    },
    Text(Span),
    Symbol(Span),
    Unit {
        operator: Operator,
        name: Span,
        exponent: i8,
    },
    Sequence,
    SequenceEnd,
    Set,
    SetEnd,
    Last(usize),
}

impl Row {
    pub fn encode(self, out: &mut Vec<u8>) {
        match self {
            Row::Attribute(name) => encode_span(out, 1, name),
            Row::Pointer(name) => encode_span(out, 2, name),
            Row::Object(name) => encode_span(out, 3, name),
            Row::EndObject => out.push(4),
            Row::Group(name) => encode_span(out, 5, name),
            Row::EndGroup => out.push(6),
            Row::Integer(value) => {
                out.push(10);
                out.extend_from_slice(&value.to_be_bytes());
            }
            Row::Real(real) => {
                out.push(11);
                out.extend_from_slice(&real.number.to_be_bytes());
                out.extend_from_slice(&real.power.to_be_bytes());
            }
            Row::Moment { moment, mark } => {
                encode_moment(out, moment);
                out.push(mark);
            }
            Row::Text(span) => encode_span(out, 13, span),
            Row::Symbol(span) => encode_span(out, 14, span),
            Row::Unit {
                operator,
                name,
                exponent,
            } => {
                out.extend_from_slice(&[15, operator as u8]);
                encode_offset(out, name.start);
                encode_offset(out, name.end);
                out.extend_from_slice(&exponent.to_be_bytes());
            }
            Row::Sequence => out.push(20),
            Row::SequenceEnd => out.push(21),
            Row::Set => out.push(22),
            Row::SetEnd => out.push(23),
            Row::Last(end) => {
                out.push(99);
                encode_offset(out, end);
            }
        }
    }

    /// The row at the start of these bytes and its length, if a whole row of
    /// a known kind stands there.
    pub fn decode(bytes: &[u8]) -> Option<(Row, usize)> {
        let (&kind, rest) = bytes.split_first()?;
        let body = rest.get(..body_length(kind)?)?;
        let row = match kind {
            1 => Row::Attribute(span(body)),
            2 => Row::Pointer(span(body)),
            3 => Row::Object(span(body)),
            4 => Row::EndObject,
            5 => Row::Group(span(body)),
            6 => Row::EndGroup,
            10 => Row::Integer(signed(body)),
            11 => Row::Real(Real {
                number: signed(&body[..8]),
                power: signed(&body[8..]) as i16,
            }),
            12 => Row::Moment {
                moment: decode_moment(body),
                mark: body[14],
            },
            13 => Row::Text(span(body)),
            14 => Row::Symbol(span(body)),
            15 => Row::Unit {
                operator: decode_operator(body[0])?,
                name: span(&body[1..5]),
                exponent: body[5] as i8,
            },
            20 => Row::Sequence,
            21 => Row::SequenceEnd,
            22 => Row::Set,
            23 => Row::SetEnd,
            _ => Row::Last(unsigned(body) as usize),
        };
        Some((row, 1 + body.len()))
    }

    pub fn is_number(self) -> bool {
        matches!(self, Row::Integer(_) | Row::Real(_))
    }

    fn is_scalar(self) -> bool {
        self.is_number() || matches!(self, Row::Moment { .. } | Row::Text(_) | Row::Symbol(_))
    }

    /// Whether the row could stand in some proper table over this label.
    fn is_sound(self, label: &[u8]) -> bool {
        match self {
            Row::Attribute(name) | Row::Pointer(name) | Row::Object(name) | Row::Group(name) => {
                holds_name(label, name)
            }
            Row::Unit { name, exponent, .. } => {
                holds_name(label, name) && i64::from(exponent).abs() <= LARGEST_EXPONENT
            }
            Row::Integer(value) => value != i64::MIN,
            Row::Real(real) => real.is_held(),
            Row::Moment { moment, mark } => moment.is_held() && moment.may_have(mark),
            Row::Text(span) => holds(label, span, |text| text.iter().all(|&b| is_text_byte(b))),
            Row::Symbol(span) => holds(label, span, is_symbol),
            Row::Last(end) => end <= label.len(),
            _ => true,
        }
    }
}

fn holds(label: &[u8], span: Span, allowed: impl Fn(&[u8]) -> bool) -> bool {
    span.lies_inside(label) && allowed(span.of(label))
}

fn holds_name(label: &[u8], span: Span) -> bool {
    holds(label, span, words::is_name)
}

fn is_symbol(bytes: &[u8]) -> bool {
    (1..=LONGEST_SYMBOL).contains(&bytes.len()) && bytes.iter().all(|&b| is_symbol_byte(b))
}

fn body_length(kind: u8) -> Option<usize> {
    match kind {
        4 | 6 | 20..=23 => Some(0),
        1..=3 | 5 | 13 | 14 => Some(4),
        10 => Some(8),
        11 => Some(10),
        12 => Some(15),
        15 => Some(6),
        99 => Some(2),
        _ => None,
    }
}

/// Offsets into a label of at most 65,535 bytes fit two bytes.
fn encode_offset(out: &mut Vec<u8>, offset: usize) {
    out.extend_from_slice(&(offset as u16).to_be_bytes());
}

fn encode_span(out: &mut Vec<u8>, kind: u8, span: Span) {
    out.push(kind);
    encode_offset(out, span.start);
    encode_offset(out, span.end);
}

fn encode_moment(out: &mut Vec<u8>, moment: Moment) {
    out.extend_from_slice(&[12, moment.parts]);
    out.extend_from_slice(&moment.year.to_be_bytes());
    out.extend_from_slice(&[
        moment.month,
        moment.day,
        moment.hour,
        moment.minute,
        moment.second,
    ]);
    out.extend_from_slice(&moment.nanoseconds.to_be_bytes());
    out.extend_from_slice(&moment.offset.to_be_bytes());
}

fn decode_moment(body: &[u8]) -> Moment {
    Moment {
        parts: body[0],
        year: unsigned(&body[1..3]) as u16,
        month: body[3],
        day: body[4],
        hour: body[5],
        minute: body[6],
        second: body[7],
        nanoseconds: unsigned(&body[8..12]) as u32,
        offset: signed(&body[12..14]) as i16,
    }
}

fn decode_operator(byte: u8) -> Option<Operator> {
    match byte {
        0 => Some(Operator::First),
        1 => Some(Operator::Times),
        2 => Some(Operator::Divided),
        _ => None,
    }
}

fn unsigned(bytes: &[u8]) -> u64 {
    bytes.iter().fold(0, |n, &byte| n << 8 | u64::from(byte))
}

fn signed(bytes: &[u8]) -> i64 {
    // Moved to the top and back, so that the first bit is taken as the sign.
    let unused = 64 - 8 * bytes.len();
    (unsigned(bytes) << unused) as i64 >> unused
}

fn span(body: &[u8]) -> Span {
    Span {
        start: unsigned(&body[..2]) as usize,
        end: unsigned(&body[2..4]) as usize,
    }
}

/// The rows of a proper table with their offsets, or the place of the first
/// row that no proper table has there.
pub fn rows(label: &[u8], table: &[u8]) -> Result<Vec<(usize, Row)>, usize> {
    let mut rows = Vec::new();
    let mut order = Order::new();
    let mut at = 0;
    while at < table.len() {
        let (row, length) = Row::decode(&table[at..]).ok_or(at)?;
        if !row.is_sound(label) || !order.admits(row) {
            return Err(at);
        }
        rows.push((at, row));
        at += length;
    }
    match order.place {
        Place::AfterLast => Ok(rows),
        _ => Err(table.len()),
    }
}

/// What the rows so far leave room for.
#[derive(Debug, Clone, Copy, PartialEq, Eq)]
enum Place {
    Statement,
    Value,
    SequenceStart,
    InSequence,
    RowStart,
    InRow,
    BetweenRows,
    InSet,
    AfterLast,
}

#[derive(Debug, Clone, Copy, PartialEq, Eq)]
enum UnitsAllowed {
    No,
    First,
    Later,
}

/// The order that rows have in every table of a label.
struct Order {
    place: Place,
    units: UnitsAllowed,
    /// The open blocks, innermost last: whether each is an OBJECT.
    open: Vec<bool>,
}

impl Order {
    fn new() -> Order {
        Order {
            place: Place::Statement,
            units: UnitsAllowed::No,
            open: Vec::new(),
        }
    }

    /// Whether this row may come next; if so, it has come.
    fn admits(&mut self, row: Row) -> bool {
        if let Row::Unit { operator, .. } = row {
            return self.admits_unit(operator);
        }
        let Some(place) = self.place_after(row) else {
            return false;
        };
        self.place = place;
        self.units = match row.is_number() {
            true => UnitsAllowed::First,
            false => UnitsAllowed::No,
        };
        true
    }

    fn admits_unit(&mut self, operator: Operator) -> bool {
        let expected = match operator {
            Operator::First => UnitsAllowed::First,
            Operator::Times | Operator::Divided => UnitsAllowed::Later,
        };
        let admitted = self.units == expected;
        self.units = UnitsAllowed::Later;
        admitted
    }

    fn place_after(&mut self, row: Row) -> Option<Place> {
        match (self.place, row) {
            (Place::Statement, row) => self.place_after_statement(row),
            (Place::Value, Row::Sequence) => Some(Place::SequenceStart),
            (Place::Value, Row::Set) => Some(Place::InSet),
            (Place::Value, row) if row.is_scalar() => Some(Place::Statement),
            (Place::SequenceStart, Row::Sequence) => Some(Place::RowStart),
            (Place::SequenceStart | Place::InSequence, row) if row.is_scalar() => {
                Some(Place::InSequence)
            }
            (Place::InSequence, Row::SequenceEnd) => Some(Place::Statement),
            (Place::RowStart | Place::InRow, row) if row.is_scalar() => Some(Place::InRow),
            (Place::InRow, Row::SequenceEnd) => Some(Place::BetweenRows),
            (Place::BetweenRows, Row::Sequence) => Some(Place::RowStart),
            (Place::BetweenRows, Row::SequenceEnd) => Some(Place::Statement),
            (Place::InSet, row) if row.is_scalar() => Some(Place::InSet),
            (Place::InSet, Row::SetEnd) => Some(Place::Statement),
            _ => None,
        }
    }

    fn place_after_statement(&mut self, row: Row) -> Option<Place> {
        match row {
            Row::Attribute(_) | Row::Pointer(_) => Some(Place::Value),
            Row::Object(_) | Row::Group(_) if self.open.len() < DEEPEST => {
                self.open.push(matches!(row, Row::Object(_)));
                Some(Place::Statement)
            }
            Row::EndObject | Row::EndGroup => {
                let closes_object = row == Row::EndObject;
                (self.open.pop() == Some(closes_object)).then_some(Place::Statement)
            }
            Row::Last(_) if self.open.is_empty() => Some(Place::AfterLast),
            _ => None,
        }
    }
}
