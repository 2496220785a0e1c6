//! Which cases of written reals (02 §4) a table shows. A run over random labels
//! and tables has tried the writer only if it came upon every one of them.

use crate::table::Row;
use crate::words::Real;
use crate::{proper_rows, refused_row};

/// A case's name, and whether it is shown.
type Case<T> = (&'static str, fn(T) -> bool);

/// Cases by the real and by what it is part of.
///
/// A plain real has a power of -18 to -1, a whole one is written with all digits
/// and `.0`, and a scaled one with `E` and power.
#[rustfmt::skip]
const CASES: [Case<Written>; 41] = [
    ("power -999", |real| real.power == -999),
    ("power below -19", |real| (-998..=-20).contains(&real.power)),
    ("power -19", |real| real.power == -19),
    ("power -18", |real| real.power == -18),
    ("power -17 to -2", |real| (-17..=-2).contains(&real.power)),
    ("power -1", |real| real.power == -1),
    ("power 0", |real| real.power == 0 && real.digits > 0),
    ("power 1", |real| real.power == 1),
    ("power 999", |real| real.power == 999),
    ("zero", |real| real.digits == 0),
    ("fewer digits than places", |real| real.is_plain() && real.digits < real.places()),
    ("as many digits as places", |real| real.is_plain() && real.digits == real.places()),
    ("more digits than places", |real| real.is_plain() && real.digits > real.places()),
    ("number and zeros under 17 digits", |real| real.power > 0 && real.with_zeros() < 17),
    ("number and zeros of 17 digits", |real| real.power > 0 && real.with_zeros() == 17),
    ("number and zeros of 18 digits", |real| real.power > 0 && real.with_zeros() == 18),
    ("number and zeros of 19 digits", |real| real.power > 0 && real.with_zeros() == 19),
    ("number and zeros over 19 digits", |real| real.power > 0 && real.with_zeros() > 19),
    ("plain, one digit", |real| real.is_plain() && real.digits == 1),
    ("plain, 18 digits", |real| real.is_plain() && real.digits == 18),
    ("whole, one digit", |real| real.is_whole() && real.digits == 1),
    ("whole, 18 digits", |real| real.is_whole() && real.digits == 18),
    ("scaled, one digit", |real| real.is_scaled() && real.digits == 1),
    ("scaled, 18 digits", |real| real.is_scaled() && real.digits == 18),
    ("plain, minus before 0", |real| real.minus && real.is_plain() && real.digits <= real.places()),
    ("plain, minus before more", |real| real.minus && real.is_plain() && real.digits > real.places()),
    ("whole, minus", |real| real.minus && real.is_whole()),
    ("scaled down, minus", |real| real.minus && real.is_scaled() && real.power < 0),
    ("scaled up, minus", |real| real.minus && real.is_scaled() && real.power > 0),
    ("plain, units", |real| real.is_plain() && real.units),
    ("whole, units", |real| real.is_whole() && real.units),
    ("scaled, units", |real| real.is_scaled() && real.units),
    ("plain, in a sequence", |real| real.is_plain() && real.within == Within::Sequence),
    ("whole, in a sequence", |real| real.is_whole() && real.within == Within::Sequence),
    ("scaled, in a sequence", |real| real.is_scaled() && real.within == Within::Sequence),
    ("plain, in a row", |real| real.is_plain() && real.within == Within::Row),
    ("whole, in a row", |real| real.is_whole() && real.within == Within::Row),
    ("scaled, in a row", |real| real.is_scaled() && real.within == Within::Row),
    ("plain, in a set", |real| real.is_plain() && real.within == Within::Set),
    ("whole, in a set", |real| real.is_whole() && real.within == Within::Set),
    ("scaled, in a set", |real| real.is_scaled() && real.within == Within::Set),
];

/// Cases of reals that no proper table has.
const IMPROPER: [Case<Real>; 6] = [
    ("a trailing zero", |real| {
        real.number != 0 && real.number % 10 == 0
    }),
    ("a zero with a power", |real| {
        real.number == 0 && real.power != 0
    }),
    ("a number of 19 digits", |real| {
        real.number.unsigned_abs() > 999_999_999_999_999_999
    }),
    ("power 1000", |real| real.power == 1000),
    ("power -1000", |real| real.power == -1000),
    ("a power past 1000 either way", |real| {
        real.power.unsigned_abs() > 1000
    }),
];

/// What a value is part of.
#[derive(Clone, Copy, PartialEq, Eq)]
enum Within {
    Nothing,
    Sequence,
    /// A sequence within a sequence.
    Row,
    Set,
}

/// A real of a proper table, and where it stands.
#[derive(Clone, Copy)]
struct Written {
    minus: bool,
    /// How many digits the number has; none, if it is zero.
    digits: i16,
    power: i16,
    units: bool,
    within: Within,
}

impl Written {
    fn is_plain(self) -> bool {
        (-18..=-1).contains(&self.power)
    }

    fn is_whole(self) -> bool {
        self.power >= 0 && self.with_zeros() <= 18
    }

    fn is_scaled(self) -> bool {
        !self.is_plain() && !self.is_whole()
    }

    /// Digits behind the period of a plain real.
    fn places(self) -> i16 {
        -self.power
    }

    /// Digits of number and zeros where the power is 0 or more.
    fn with_zeros(self) -> i16 {
        self.digits + self.power
    }
}

/// The names of all cases of a table that is written.
pub fn names() -> impl Iterator<Item = &'static str> {
    CASES.iter().map(|&(name, _)| name)
}

/// The names of the cases that this table shows when it is written; none if it
/// is not proper.
pub fn cases(label: &[u8], table: &[u8]) -> Vec<&'static str> {
    let rows = proper_rows(label, table).unwrap_or_default();
    let reals = reals(&rows);
    let shown = |case: &&Case<Written>| reals.iter().copied().any(case.1);
    CASES.iter().filter(shown).map(|case| case.0).collect()
}

fn reals(rows: &[(usize, Row)]) -> Vec<Written> {
    let mut within = Within::Nothing;
    let mut reals = Vec::new();
    for (at, &(_, row)) in rows.iter().enumerate() {
        within = match (row, within) {
            (Row::Sequence, Within::Nothing) => Within::Sequence,
            (Row::Sequence, _) => Within::Row,
            (Row::SequenceEnd, Within::Row) => Within::Sequence,
            (Row::SequenceEnd | Row::SetEnd, _) => Within::Nothing,
            (Row::Set, _) => Within::Set,
            _ => within,
        };
        if let Row::Real(Real { number, power }) = row {
            reals.push(Written {
                minus: number < 0,
                digits: number
                    .unsigned_abs()
                    .checked_ilog10()
                    .map_or(0, |log| log as i16 + 1),
                power,
                units: matches!(rows.get(at + 1), Some((_, Row::Unit { .. }))),
                within,
            });
        }
    }
    reals
}

/// The names of all cases of a real that a table is refused for.
pub fn improper_names() -> impl Iterator<Item = &'static str> {
    IMPROPER.iter().map(|&(name, _)| name)
}

/// The name of the case of the real that this table is refused for; none if it
/// is proper, or refused for something else, or for more than that.
pub fn improper_case(label: &[u8], table: &[u8]) -> Option<&'static str> {
    let real = refused_real(label, table)?;
    let mut faults = IMPROPER.iter().filter(|case| case.1(real));
    match (faults.next(), faults.next()) {
        (Some(&(name, _)), None) => Some(name),
        _ => None,
    }
}

/// The real in the row that the table is refused at, if it is refused for that.
fn refused_real(label: &[u8], table: &[u8]) -> Option<Real> {
    const PROPER: [u8; 11] = [11, 0, 0, 0, 0, 0, 0, 0, 1, 0, 0];
    let [_, number @ .., high, low] = refused_row(label, table, PROPER[0], |_| PROPER)?;
    Some(Real {
        number: i64::from_be_bytes(number),
        power: i16::from_be_bytes([high, low]),
    })
}
