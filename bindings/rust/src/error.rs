use std::fmt;

/// Why a call was refused. `code as u8` is its number.
#[derive(Debug, Clone, Copy, PartialEq, Eq, Hash)]
#[repr(u8)]
pub enum Code {
    LabelTooLong = 1,
    BadByte = 2,
    LeftOpen = 3,
    NoForm = 4,
    PastLimit = 5,
    Misplaced = 6,
    OtherName = 7,
    TooDeep = 8,
    EndNotSetOff = 9,
    EndsEarly = 10,
    RoomTooShort = 11,
    ImproperTable = 12,
    WrittenTooLong = 13,
    NameAbsent = 14,
    NoSuchRow = 15,
    BookFull = 16,
}

impl Code {
    const ALL: [Code; 16] = [
        Code::LabelTooLong,
        Code::BadByte,
        Code::LeftOpen,
        Code::NoForm,
        Code::PastLimit,
        Code::Misplaced,
        Code::OtherName,
        Code::TooDeep,
        Code::EndNotSetOff,
        Code::EndsEarly,
        Code::RoomTooShort,
        Code::ImproperTable,
        Code::WrittenTooLong,
        Code::NameAbsent,
        Code::NoSuchRow,
        Code::BookFull,
    ];

    /// The code of this number; none for 0, which is no refusal.
    pub fn from_number(number: u8) -> Option<Code> {
        Code::ALL.into_iter().find(|&code| code as u8 == number)
    }

    /// What the code means, in words.
    pub fn reason(self) -> &'static str {
        match self {
            Code::LabelTooLong => "the label is over 65,535 bytes",
            Code::BadByte => {
                "a byte that begins no element, or is not allowed in its text, symbol or comment"
            }
            Code::LeftOpen => "a text, symbol or comment that is not closed",
            Code::NoForm => "a word of no form, or an empty symbol",
            Code::PastLimit => {
                "a number, radix, digit, length, date or unit exponent past its limit"
            }
            Code::Misplaced => "an element that cannot stand there",
            Code::OtherName => "a closing name that is not the opening one",
            Code::TooDeep => "OBJECT or GROUP at depth 80",
            Code::EndNotSetOff => "END without spacing or a line end after it",
            Code::EndsEarly => "the input ends early",
            Code::RoomTooShort => "the room is too short",
            Code::ImproperTable => "the table is not proper over this label",
            Code::WrittenTooLong => "the written label would be over 65,535 bytes",
            Code::NameAbsent => "no attribute of that name",
            Code::NoSuchRow => "not the offset of a row that is asked for",
            Code::BookFull => "the book is full",
        }
    }
}

/// A refusal: why, and where in the label (or, with
/// [`ImproperTable`](Code::ImproperTable), in the table).
#[derive(Debug, Clone, Copy, PartialEq, Eq, Hash)]
pub struct Error {
    pub code: Code,
    pub place: usize,
}

impl Error {
    /// Why, in words.
    pub fn reason(&self) -> &'static str {
        self.code.reason()
    }

    /// The refusal that these numbers of the library stand for, if they do.
    pub(crate) fn check(code: u8, place: usize) -> Result<(), Error> {
        match code {
            0 => Ok(()),
            _ => {
                let code = Code::from_number(code).expect("the library has these codes");
                Err(Error { code, place })
            }
        }
    }
}

impl fmt::Display for Error {
    fn fmt(&self, f: &mut fmt::Formatter) -> fmt::Result {
        let Error { code, place } = *self;
        write!(f, "code {} at {place}: {}", code as u8, code.reason())
    }
}

impl std::error::Error for Error {}
