//! The canonical label of a proper table.

use crate::table::{Operator, Row, Span};
use crate::words::{self, Moment, Real};
use crate::{text, LONGEST_LABEL};

/// The canonical label, or nothing if it would be too long.
pub fn written(label: &[u8], rows: &[(usize, Row)]) -> Option<Vec<u8>> {
    let mut writer = Writer {
        label,
        out: Output::default(),
        open: Vec::new(),
    };
    let mut rest = rows;
    while let [(_, row), after @ ..] = rest {
        rest = writer.line(*row, after);
    }
    writer.out.finished()
}

/// Gathers the label, and nothing more once it has become too long: texts may
/// be repeated so often that keeping them all would fill the memory.
#[derive(Default)]
struct Output {
    bytes: Vec<u8>,
    too_long: bool,
}

impl Output {
    fn put(&mut self, bytes: &[u8]) {
        self.too_long |= bytes.len() > LONGEST_LABEL - self.bytes.len();
        if !self.too_long {
            self.bytes.extend_from_slice(bytes);
        }
    }

    fn put_text(&mut self, text: &str) {
        self.put(text.as_bytes());
    }

    fn finished(self) -> Option<Vec<u8>> {
        (!self.too_long).then_some(self.bytes)
    }
}

/// Rows still to be written.
type Rows<'t> = &'t [(usize, Row)];

struct Writer<'a> {
    label: &'a [u8],
    out: Output,
    /// Names of the open blocks, innermost last: closing lines repeat them.
    open: Vec<Span>,
}

impl Writer<'_> {
    /// Writes the line that this row begins and gives the rows after it.
    fn line<'t>(&mut self, row: Row, rest: Rows<'t>) -> Rows<'t> {
        match row {
            Row::Attribute(name) => return self.assignment("", name, rest),
            Row::Pointer(name) => return self.assignment("^", name, rest),
            Row::Object(name) => self.opening("OBJECT = ", name),
            Row::Group(name) => self.opening("GROUP = ", name),
            Row::EndObject => self.closing("END_OBJECT = "),
            Row::EndGroup => self.closing("END_GROUP = "),
            // No other row than the last one is left to begin a line.
            _ => self.out.put_text("END\r\n"),
        }
        rest
    }

    fn indent(&mut self) {
        for _ in 0..self.open.len() {
            self.out.put_text("  ");
        }
    }

    fn folded(&mut self, span: Span) {
        self.out.put(&span.of(self.label).to_ascii_uppercase());
    }

    fn opening(&mut self, word: &str, name: Span) {
        self.indent();
        self.out.put_text(word);
        self.folded(name);
        self.out.put_text("\r\n");
        self.open.push(name);
    }

    fn closing(&mut self, word: &str) {
        let name = self.open.pop();
        self.indent();
        self.out.put_text(word);
        if let Some(name) = name {
            self.folded(name);
        }
        self.out.put_text("\r\n");
    }

    fn assignment<'t>(&mut self, mark: &str, name: Span, rest: Rows<'t>) -> Rows<'t> {
        self.indent();
        self.out.put_text(mark);
        self.folded(name);
        self.out.put_text(" = ");
        let rest = self.value(rest);
        self.out.put_text("\r\n");
        rest
    }

    fn value<'t>(&mut self, rows: Rows<'t>) -> Rows<'t> {
        match rows {
            [(_, Row::Sequence), rest @ ..] => self.members("(", rest, ")"),
            [(_, Row::Set), rest @ ..] => self.members("{", rest, "}"),
            _ => self.scalar(rows),
        }
    }

    /// Members in their brackets, up to the closing row, which is passed too.
    /// Those of a sequence may be sequences.
    fn members<'t>(&mut self, opening: &str, mut rows: Rows<'t>, closing: &str) -> Rows<'t> {
        self.out.put_text(opening);
        let mut separator = "";
        loop {
            if let [(_, Row::SequenceEnd | Row::SetEnd), rest @ ..] = rows {
                self.out.put_text(closing);
                return rest;
            }
            self.out.put_text(separator);
            separator = ", ";
            rows = self.value(rows);
        }
    }

    fn scalar<'t>(&mut self, rows: Rows<'t>) -> Rows<'t> {
        match rows[0].1 {
            Row::Integer(value) => self.out.put_text(&value.to_string()),
            Row::Real(real) => self.out.put_text(&real_text(real)),
            Row::Moment { moment, .. } => self.out.put_text(&moment_text(moment)),
            Row::Symbol(span) => self.symbol(span),
            Row::Text(span) => {
                self.out.put_text("\"");
                self.out.put(&text::reassembled(span.of(self.label)));
                self.out.put_text("\"");
            }
            _ => unreachable!("a proper table has a scalar here"),
        }
        self.units(&rows[1..])
    }

    fn symbol(&mut self, span: Span) {
        let quote = match words::is_name(span.of(self.label)) {
            true => "",
            false => "'",
        };
        self.out.put_text(quote);
        self.folded(span);
        self.out.put_text(quote);
    }

    /// The units expression that these rows begin with, if any.
    fn units<'t>(&mut self, mut rows: Rows<'t>) -> Rows<'t> {
        let mut closing = "";
        while let [(
            _,
            Row::Unit {
                operator,
                name,
                exponent,
            },
        ), rest @ ..] = rows
        {
            self.unit(*operator, *name, *exponent);
            closing = ">";
            rows = rest;
        }
        self.out.put_text(closing);
        rows
    }

    fn unit(&mut self, operator: Operator, name: Span, exponent: i8) {
        self.out.put_text(match operator {
            Operator::First => " <",
            Operator::Times => "*",
            Operator::Divided => "/",
        });
        self.folded(name);
        if exponent != 1 {
            self.out.put_text(&format!("**{exponent}"));
        }
    }
}

/// Where the power is -18 to -1, plainly with at least one digit before the
/// period. Where it is 0 or more and number and zeros come to at most 18
/// digits, all digits and `.0`; so zero is `0.0`. Otherwise number, period, `E`
/// and power.
fn real_text(real: Real) -> String {
    let sign = if real.number < 0 { "-" } else { "" };
    let digits = real.number.unsigned_abs().to_string();
    let size = usize::from(real.power.unsigned_abs());
    match real.power {
        -18..=-1 => {
            let digits = format!("{digits:0>least$}", least = size + 1);
            let (whole, places) = digits.split_at(digits.len() - size);
            format!("{sign}{whole}.{places}")
        }
        0.. if digits.len() + size <= 18 => format!("{sign}{digits}{}.0", "0".repeat(size)),
        power => format!("{sign}{digits}.E{power}"),
    }
}

fn moment_text(moment: Moment) -> String {
    let mut text = String::new();
    if moment.has_date() {
        text += &format!("{:04}-{:02}-{:02}", moment.year, moment.month, moment.day);
    }
    if moment.has_date() && moment.has_time() {
        text += "T";
    }
    if moment.has_time() {
        text += &time_text(moment);
    }
    text
}

fn time_text(moment: Moment) -> String {
    let clock = format!(
        "{:02}:{:02}:{:02}",
        moment.hour, moment.minute, moment.second
    );
    let decimals = format!(".{:09}", moment.nanoseconds);
    let fraction = match moment.nanoseconds {
        0 => "",
        _ => decimals.trim_end_matches('0'),
    };
    clock + fraction + &zone_text(moment.offset)
}

fn zone_text(offset: i16) -> String {
    if offset == 0 {
        return "Z".to_string();
    }
    let sign = if offset < 0 { '-' } else { '+' };
    let minutes = offset.unsigned_abs();
    format!("{sign}{:02}:{:02}", minutes / 60, minutes % 60)
}
