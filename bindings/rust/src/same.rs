//! Whether two labels mean the same.

use crate::{read, Error};
use std::fmt;

/// Which of two labels was refused, and why. The first is judged whole before
/// the second is looked at.
#[derive(Debug, Clone, Copy, PartialEq, Eq, Hash)]
pub enum Refused {
    First(Error),
    Second(Error),
}

impl fmt::Display for Refused {
    fn fmt(&self, f: &mut fmt::Formatter) -> fmt::Result {
        match self {
            Refused::First(error) => write!(f, "the first label: {error}"),
            Refused::Second(error) => write!(f, "the second label: {error}"),
        }
    }
}

impl std::error::Error for Refused {}

/// Whether two labels mean the same: their canonical labels are equal exactly
/// when their meanings are. There is no answer for a label that is refused when
/// read, or whose canonical label would be over 65,535 bytes.
pub fn same_meaning(one: &[u8], other: &[u8]) -> Result<bool, Refused> {
    let one = canonical(one).map_err(Refused::First)?;
    let other = canonical(other).map_err(Refused::Second)?;
    Ok(one == other)
}

/// The canonical label, with all the room that table and label need.
fn canonical(label: &[u8]) -> Result<Vec<u8>, Error> {
    read(label)?.write()
}
