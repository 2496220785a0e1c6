#![doc = include_str!("../README.md")]

mod book;
mod error;
mod label;
pub mod raw;
mod row;
mod same;

pub use book::{Book, Counter, Session};
pub use error::{Code, Error};
pub use label::{find, name, read, relabel, text, write, Entry, Label, Rows, Table};
pub use row::{Date, Join, Moment, Name, Real, Row, Text, Time, Zone};
pub use same::{same_meaning, Refused};

/// No label, read or written, is longer than this many bytes.
pub const LONGEST_LABEL: usize = 65_535;
