//! Statements and values: from elements to the rows of a table.
//!
//! The reader looks one element ahead. It always judges the element in hand
//! before it takes the next one, so that the first fault in the input is the
//! one reported.

use crate::elements::{self, Element, Kind};
use crate::gaps::is_blank;
use crate::table::{Operator, Row, Span};
use crate::words::Reserved;
use crate::{code, Fault};

pub const DEEPEST: usize = 80;
pub const LARGEST_EXPONENT: i64 = 99;

/// The rows of a label and the offset just past its END.
pub fn rows(label: &[u8]) -> Result<(Vec<u8>, usize), Fault> {
    let mut reader = Reader {
        label,
        element: elements::next(label, 0)?,
        rows: Vec::with_capacity(label.len()),
        open: Vec::new(),
    };
    let end = reader.statements()?;
    Ok((reader.rows, end))
}

#[derive(Debug, Clone, Copy, PartialEq, Eq)]
enum BlockKind {
    Object,
    Group,
}

struct Block {
    kind: BlockKind,
    name: Span,
}

struct Reader<'a> {
    label: &'a [u8],
    /// The element in hand.
    element: Element,
    rows: Vec<u8>,
    /// The open blocks, innermost last.
    open: Vec<Block>,
}

impl Reader<'_> {
    fn advance(&mut self) -> Result<(), Fault> {
        self.element = elements::next(self.label, self.element.end)?;
        Ok(())
    }

    fn push(&mut self, row: Row) {
        row.encode(&mut self.rows);
    }

    fn refuse<T>(&self, code: u8) -> Result<T, Fault> {
        Err(Fault {
            code,
            place: self.element.start,
        })
    }

    /// The element in hand cannot stand here.
    fn misplaced<T>(&self) -> Result<T, Fault> {
        match self.element.kind {
            Kind::Nothing => self.refuse(code::ENDS_EARLY),
            _ => self.refuse(code::MISPLACED),
        }
    }

    fn at_mark(&self, mark: u8) -> bool {
        self.element.kind == Kind::Mark(mark)
    }

    fn expect_mark(&mut self, mark: u8) -> Result<(), Fault> {
        match self.at_mark(mark) {
            true => self.advance(),
            false => self.misplaced(),
        }
    }

    /// Takes an unreserved identifier.
    fn expect_name(&mut self) -> Result<Span, Fault> {
        if self.element.kind != Kind::Name {
            return self.misplaced();
        }
        let name = self.span();
        self.advance()?;
        Ok(name)
    }

    fn span(&self) -> Span {
        Span {
            start: self.element.start,
            end: self.element.end,
        }
    }

    /// The element in hand without its quotes.
    fn span_inside(&self) -> Span {
        Span {
            start: self.element.start + 1,
            end: self.element.end - 1,
        }
    }

    fn statements(&mut self) -> Result<usize, Fault> {
        loop {
            match self.element.kind {
                Kind::Name => self.assignment(Row::Attribute)?,
                Kind::Mark(b'^') => {
                    self.advance()?;
                    self.assignment(Row::Pointer)?;
                }
                Kind::Reserved(Reserved::Object) => self.opening(BlockKind::Object)?,
                Kind::Reserved(Reserved::Group) => self.opening(BlockKind::Group)?,
                Kind::Reserved(Reserved::EndObject) => self.closing(BlockKind::Object)?,
                Kind::Reserved(Reserved::EndGroup) => self.closing(BlockKind::Group)?,
                Kind::Reserved(Reserved::End) if self.open.is_empty() => return self.end(),
                _ => return self.misplaced(),
            }
        }
    }

    /// What follows END is no business of the reader, but for one byte.
    fn end(&mut self) -> Result<usize, Fault> {
        let end = self.element.end;
        match self.label.get(end) {
            Some(&byte) if !is_blank(byte) => self.refuse(code::END_NOT_SET_OFF),
            _ => {
                self.push(Row::Last(end));
                Ok(end)
            }
        }
    }

    fn assignment(&mut self, row: fn(Span) -> Row) -> Result<(), Fault> {
        let name = self.expect_name()?;
        self.push(row(name));
        self.expect_mark(b'=')?;
        self.value()
    }

    fn opening(&mut self, kind: BlockKind) -> Result<(), Fault> {
        if self.open.len() == DEEPEST {
            return self.refuse(code::TOO_DEEP);
        }
        self.advance()?;
        self.expect_mark(b'=')?;
        let name = self.expect_name()?;
        self.open.push(Block { kind, name });
        self.push(match kind {
            BlockKind::Object => Row::Object(name),
            BlockKind::Group => Row::Group(name),
        });
        Ok(())
    }

    fn closing(&mut self, kind: BlockKind) -> Result<(), Fault> {
        let name = match self.open.last() {
            Some(block) if block.kind == kind => block.name,
            _ => return self.misplaced(),
        };
        self.advance()?;
        if self.at_mark(b'=') {
            self.advance()?;
            self.closing_name(name)?;
        }
        self.open.pop();
        self.push(match kind {
            BlockKind::Object => Row::EndObject,
            BlockKind::Group => Row::EndGroup,
        });
        Ok(())
    }

    fn closing_name(&mut self, opening: Span) -> Result<(), Fault> {
        let closing = self.span().of(self.label);
        let is_other = !closing.eq_ignore_ascii_case(opening.of(self.label));
        if self.element.kind == Kind::Name && is_other {
            return self.refuse(code::OTHER_NAME);
        }
        self.expect_name()?;
        Ok(())
    }

    fn value(&mut self) -> Result<(), Fault> {
        match self.element.kind {
            Kind::Mark(b'(') => self.sequence(),
            Kind::Mark(b'{') => self.set(),
            _ => self.scalar(),
        }
    }

    fn sequence(&mut self) -> Result<(), Fault> {
        self.push(Row::Sequence);
        self.advance()?;
        match self.at_mark(b'(') {
            true => self.members(Self::row_of_sequence)?,
            false => self.members(Self::scalar)?,
        }
        self.expect_mark(b')')?;
        self.push(Row::SequenceEnd);
        Ok(())
    }

    fn row_of_sequence(&mut self) -> Result<(), Fault> {
        self.push(Row::Sequence);
        self.expect_mark(b'(')?;
        self.members(Self::scalar)?;
        self.expect_mark(b')')?;
        self.push(Row::SequenceEnd);
        Ok(())
    }

    fn set(&mut self) -> Result<(), Fault> {
        self.push(Row::Set);
        self.advance()?;
        if !self.at_mark(b'}') {
            self.members(Self::scalar)?;
        }
        self.expect_mark(b'}')?;
        self.push(Row::SetEnd);
        Ok(())
    }

    /// One member or more, with one comma between each two. Rows are parted as
    /// scalars are: 02 §2 puts in the comma that the print of 12.5.5 leaves out.
    fn members(&mut self, member: impl Fn(&mut Self) -> Result<(), Fault>) -> Result<(), Fault> {
        member(self)?;
        while self.at_mark(b',') {
            self.advance()?;
            member(self)?;
        }
        Ok(())
    }

    fn scalar(&mut self) -> Result<(), Fault> {
        let row = match self.element.kind {
            Kind::Integer(value) | Kind::BasedInteger(value) => Row::Integer(value),
            Kind::Real(real) => Row::Real(real),
            Kind::Moment { moment, mark } => Row::Moment { moment, mark },
            Kind::Text => Row::Text(self.span_inside()),
            Kind::Symbol => Row::Symbol(self.span_inside()),
            Kind::Name => Row::Symbol(self.span()),
            _ => return self.misplaced(),
        };
        self.push(row);
        self.advance()?;
        if row.is_number() && self.at_mark(b'<') {
            return self.units();
        }
        Ok(())
    }

    fn units(&mut self) -> Result<(), Fault> {
        let mut operator = Operator::First;
        loop {
            // Past the bracket or the operator.
            self.advance()?;
            self.unit(operator)?;
            operator = match self.element.kind {
                Kind::Mark(b'*') => Operator::Times,
                Kind::Mark(b'/') => Operator::Divided,
                _ => return self.expect_mark(b'>'),
            };
        }
    }

    fn unit(&mut self, operator: Operator) -> Result<(), Fault> {
        let name = self.expect_name()?;
        let mut exponent = 1;
        if self.element.kind == Kind::Power {
            self.advance()?;
            exponent = self.exponent()?;
        }
        self.push(Row::Unit {
            operator,
            name,
            exponent,
        });
        Ok(())
    }

    fn exponent(&mut self) -> Result<i8, Fault> {
        let Kind::Integer(value) = self.element.kind else {
            return self.misplaced();
        };
        if value.abs() > LARGEST_EXPONENT {
            return self.refuse(code::PAST_LIMIT);
        }
        self.advance()?;
        Ok(value as i8)
    }
}
