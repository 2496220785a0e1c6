use std::fmt;
use std::hash::{Hash, Hasher};

/// A name or a symbol. Case does not count in comparisons, and it is shown
/// folded up.
#[derive(Debug, Clone, Copy)]
pub struct Name<'a>(&'a str);

impl<'a> Name<'a> {
    /// The bytes as the label has them.
    pub fn as_written(self) -> &'a str {
        self.0
    }

    /// Folded up, as the canonical label has it.
    pub fn folded(self) -> String {
        self.0.to_ascii_uppercase()
    }
}

impl PartialEq for Name<'_> {
    fn eq(&self, other: &Self) -> bool {
        self.0.eq_ignore_ascii_case(other.0)
    }
}

impl Eq for Name<'_> {}

impl Hash for Name<'_> {
    fn hash<H: Hasher>(&self, state: &mut H) {
        self.folded().hash(state);
    }
}

impl PartialEq<str> for Name<'_> {
    fn eq(&self, other: &str) -> bool {
        self.0.eq_ignore_ascii_case(other)
    }
}

impl PartialEq<&str> for Name<'_> {
    fn eq(&self, other: &&str) -> bool {
        *self == **other
    }
}

impl fmt::Display for Name<'_> {
    fn fmt(&self, f: &mut fmt::Formatter) -> fmt::Result {
        f.write_str(&self.folded())
    }
}

/// The bytes between the quotes of a text, as the label has them.
/// [`Label::text`](crate::Label::text) joins its lines.
#[derive(Debug, Clone, Copy, PartialEq, Eq, Hash)]
pub struct Text<'a>(&'a str);

impl<'a> Text<'a> {
    pub fn as_written(self) -> &'a str {
        self.0
    }
}

/// Exactly `number` times ten to the `power`.
#[derive(Debug, Clone, Copy, PartialEq, Eq, Hash)]
pub struct Real {
    pub number: i64,
    pub power: i16,
}

impl Real {
    /// The nearest floating point number; infinite if it is too large.
    pub fn to_f64(self) -> f64 {
        format!("{}e{}", self.number, self.power)
            .parse()
            .expect("digits and an exponent are a number")
    }
}

#[derive(Debug, Clone, Copy, PartialEq, Eq, Hash)]
pub struct Date {
    pub year: u16,
    pub month: u8,
    pub day: u8,
}

/// The zone that a time was given with. It is no part of a label's meaning but
/// for its offset: the canonical label has Z, or a signed zone where the offset
/// is not 0, with every time.
#[derive(Debug, Clone, Copy, PartialEq, Eq, Hash)]
pub enum Zone {
    /// None was given: the offset is 0 by rule, but the camera's clock may have
    /// stood anywhere.
    NotGiven,
    /// Z was given.
    Utc,
    /// A signed zone was given: the minutes that the clock is ahead of UTC, 0
    /// for `+00:00`.
    Signed(i16),
}

impl Zone {
    /// The minutes that the clock is taken to be ahead of UTC; 0, by rule, where
    /// no zone was given.
    pub fn offset(self) -> i16 {
        match self {
            Zone::NotGiven | Zone::Utc => 0,
            Zone::Signed(minutes) => minutes,
        }
    }
}

/// Compared as it was given: a time with no zone is not equal to the same one
/// in UTC, although both mean the same
/// ([`same_meaning`](crate::same_meaning)).
#[derive(Debug, Clone, Copy, PartialEq, Eq, Hash)]
pub struct Time {
    pub hour: u8,
    pub minute: u8,
    pub second: u8,
    pub nanoseconds: u32,
    pub zone: Zone,
}

#[derive(Debug, Clone, Copy, PartialEq, Eq, Hash)]
pub enum Moment {
    Date(Date),
    Time(Time),
    DateTime(Date, Time),
}

/// How a unit is joined to the units before it.
#[derive(Debug, Clone, Copy, PartialEq, Eq, Hash)]
pub enum Join {
    First,
    Times,
    Divided,
}

/// A row of a table with its value.
#[derive(Debug, Clone, Copy, PartialEq, Eq, Hash)]
pub enum Row<'a> {
    /// Its value is in the rows that follow.
    Attribute(Name<'a>),
    /// Its value is in the rows that follow.
    Pointer(Name<'a>),
    Object(Name<'a>),
    EndObject,
    Group(Name<'a>),
    EndGroup,
    Integer(i64),
    Real(Real),
    Moment(Moment),
    Text(Text<'a>),
    Symbol(Name<'a>),
    /// Stands after its number, or after another unit of it.
    Unit {
        join: Join,
        name: Name<'a>,
        exponent: i8,
    },
    Sequence,
    EndSequence,
    Set,
    EndSet,
    /// The last row.
    Last {
        /// The offset in the label just past END.
        end: usize,
    },
}

impl<'a> Row<'a> {
    /// The row at the start of these bytes of a proper table, and the bytes
    /// after it.
    pub(crate) fn decode<'t>(label: &'a [u8], table: &'t [u8]) -> Option<(Row<'a>, &'t [u8])> {
        let mut bytes = Bytes(table);
        let row = match bytes.byte()? {
            1 => Row::Attribute(bytes.name(label)?),
            2 => Row::Pointer(bytes.name(label)?),
            3 => Row::Object(bytes.name(label)?),
            4 => Row::EndObject,
            5 => Row::Group(bytes.name(label)?),
            6 => Row::EndGroup,
            10 => Row::Integer(i64::from_be_bytes(bytes.take()?)),
            11 => Row::Real(Real {
                number: i64::from_be_bytes(bytes.take()?),
                power: i16::from_be_bytes(bytes.take()?),
            }),
            12 => Row::Moment(bytes.moment()?),
            13 => Row::Text(Text(bytes.stretch(label)?)),
            14 => Row::Symbol(bytes.name(label)?),
            15 => Row::Unit {
                join: match bytes.byte()? {
                    0 => Join::First,
                    1 => Join::Times,
                    2 => Join::Divided,
                    _ => return None,
                },
                name: bytes.name(label)?,
                exponent: i8::from_be_bytes(bytes.take()?),
            },
            20 => Row::Sequence,
            21 => Row::EndSequence,
            22 => Row::Set,
            23 => Row::EndSet,
            99 => Row::Last {
                end: bytes.offset()?,
            },
            _ => return None,
        };
        Some((row, bytes.0))
    }
}

/// What is left of a table while it is taken apart.
struct Bytes<'t>(&'t [u8]);

impl Bytes<'_> {
    fn take<const N: usize>(&mut self) -> Option<[u8; N]> {
        let (taken, rest) = self.0.split_first_chunk()?;
        self.0 = rest;
        Some(*taken)
    }

    fn byte(&mut self) -> Option<u8> {
        self.take().map(u8::from_be_bytes)
    }

    fn offset(&mut self) -> Option<usize> {
        self.take().map(u16::from_be_bytes).map(usize::from)
    }

    /// The stretch of the label that a span shows: all of it below 128.
    fn stretch<'a>(&mut self, label: &'a [u8]) -> Option<&'a str> {
        let (start, end) = (self.offset()?, self.offset()?);
        std::str::from_utf8(label.get(start..end)?).ok()
    }

    fn name<'a>(&mut self, label: &'a [u8]) -> Option<Name<'a>> {
        self.stretch(label).map(Name)
    }

    fn moment(&mut self) -> Option<Moment> {
        let parts = self.byte()?;
        let date = Date {
            year: u16::from_be_bytes(self.take()?),
            month: self.byte()?,
            day: self.byte()?,
        };
        let time = Time {
            hour: self.byte()?,
            minute: self.byte()?,
            second: self.byte()?,
            nanoseconds: u32::from_be_bytes(self.take()?),
            zone: self.zone()?,
        };
        match parts {
            1 => Some(Moment::Date(date)),
            2 => Some(Moment::Time(time)),
            3 => Some(Moment::DateTime(date, time)),
            _ => None,
        }
    }

    fn zone(&mut self) -> Option<Zone> {
        let offset = i16::from_be_bytes(self.take()?);
        match (self.byte()?, offset) {
            (0, 0) => Some(Zone::NotGiven),
            (1, 0) => Some(Zone::Utc),
            (2, minutes) => Some(Zone::Signed(minutes)),
            _ => None,
        }
    }
}
