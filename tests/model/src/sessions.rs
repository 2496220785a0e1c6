//! The cases of the session book (02 §1) that a label can show. A run over random
//! labels has tried the book only if it came upon every one.

mod in_label;

pub use in_label::{counter, in_label};

/// A case of a label. What decides is the first START_TIME outside all blocks.
#[rustfmt::skip]
#[derive(Debug, Clone, Copy, PartialEq, Eq, PartialOrd, Ord)]
pub enum Case {
    Weekday { weekday: usize, time: bool },
    Spelled { by_day_of_year: bool, time: bool },
    On(Day),
    Zone(Zone),
    /// The letters of a dated one's name.
    Letters(Letters),
    Undated(Value),
    /// None decides; there is this.
    Without(Other),
    /// A dated one decides; before it there is this.
    Behind(Other),
    Again(Again),
}

/// The day of a dated one.
#[rustfmt::skip]
#[derive(Debug, Clone, Copy, PartialEq, Eq, PartialOrd, Ord)]
pub enum Day {
    FirstOfAll,
    LastOfAll,
    FirstOfYear,
    LastOfYear,
    FirstOfMonth,
    LastOfMonth,
    Between,
    /// Before 1582-10-15, when the calendar came into use.
    BeforeUse,
    /// The last day of February or the first of March, in a year that is a leap
    /// year or not, and that 100 divides or not.
    Turn { march: bool, leap: bool, hundred: bool },
}

/// The zone of a dated one with a time; of a signed one that is not zero, where
/// the day would come to be if the offset were applied.
#[derive(Debug, Clone, Copy, PartialEq, Eq, PartialOrd, Ord)]
pub enum Zone {
    None,
    Z,
    Zero,
    SameDay,
    DayBefore,
    DayAfter,
    BeforeFirstOfAll,
    AfterLastOfAll,
}

#[derive(Debug, Clone, Copy, PartialEq, Eq, PartialOrd, Ord)]
pub enum Letters {
    Upper,
    Lower,
    Mixed,
}

/// The value of an undated one.
#[rustfmt::skip]
#[derive(Debug, Clone, Copy, PartialEq, Eq, PartialOrd, Ord)]
pub enum Value {
    Integer { units: bool },
    BasedInteger { units: bool },
    Real { units: bool },
    Time,
    Text { of_date: bool },
    Quoted { of_date: bool },
    Name,
    Sequence(Members),
    Rows(Members),
    Set(Members),
}

#[derive(Debug, Clone, Copy, PartialEq, Eq, PartialOrd, Ord)]
pub enum Members {
    None,
    OneDate,
    Dates,
    Others,
}

/// What does not decide. From `InObject` to `InBlockInBlock` it is a START_TIME,
/// from `AsPointer` to `BehindEnd` no more than its name. Where there is a value,
/// it has a date, and if one decides, the two have different weekdays.
#[derive(Debug, Clone, Copy, PartialEq, Eq, PartialOrd, Ord)]
pub enum Other {
    Nothing,
    Attribute,
    Pointer,
    Object,
    Group,
    BlockInBlock,
    InObject,
    InGroup,
    InBlockInBlock,
    AsPointer,
    AsObject,
    AsGroup,
    AsSymbol,
    AsUnit,
    InText,
    InGap,
    BehindEnd,
    /// An attribute of this name.
    Near(&'static str),
}

/// A second START_TIME.
#[derive(Debug, Clone, Copy, PartialEq, Eq, PartialOrd, Ord)]
pub enum Again {
    UndatedBehindDated,
    DatedBehindUndated,
    OtherWeekday,
    /// A dated one in a block; the one that decides is undated.
    InBlockBehindUndated,
}

const NAME: &[u8] = b"START_TIME";

/// Names that are nearly this one.
#[rustfmt::skip]
pub const NEAR: [&str; 15] = [
    "START_TIM", "START_TIMES", "START_TIME1", "START_TIME_1", "START_TIMD", "START_TIMF",
    "TART_TIME", "XSTART_TIME", "RTART_TIME", "STARTTIME", "START1TIME", "START", "TIME",
    "STOP_TIME", "START_DATE",
];

const EITHER: [bool; 2] = [false, true];

#[rustfmt::skip]
const DAYS: [Day; 8] = [
    Day::FirstOfAll, Day::LastOfAll, Day::FirstOfYear, Day::LastOfYear, Day::FirstOfMonth,
    Day::LastOfMonth, Day::Between, Day::BeforeUse,
];

#[rustfmt::skip]
const ZONES: [Zone; 8] = [
    Zone::None, Zone::Z, Zone::Zero, Zone::SameDay, Zone::DayBefore, Zone::DayAfter,
    Zone::BeforeFirstOfAll, Zone::AfterLastOfAll,
];

const LETTERS: [Letters; 3] = [Letters::Upper, Letters::Lower, Letters::Mixed];

#[rustfmt::skip]
const OTHERS: [Other; 16] = [
    Other::Nothing, Other::Attribute, Other::Pointer, Other::Object, Other::Group,
    Other::BlockInBlock, Other::InObject, Other::InGroup, Other::InBlockInBlock,
    Other::AsPointer, Other::AsObject, Other::AsGroup, Other::AsSymbol, Other::AsUnit,
    Other::InText, Other::InGap,
];

#[rustfmt::skip]
const AGAIN: [Again; 4] = [
    Again::UndatedBehindDated, Again::DatedBehindUndated, Again::OtherWeekday,
    Again::InBlockBehindUndated,
];

/// All cases.
pub fn all() -> Vec<Case> {
    let mut all = Vec::new();
    for time in EITHER {
        all.extend((0..7).map(|weekday| Case::Weekday { weekday, time }));
        all.extend(EITHER.map(|by_day_of_year| Case::Spelled {
            by_day_of_year,
            time,
        }));
    }
    all.extend(DAYS.map(Case::On));
    all.extend(turns().into_iter().map(Case::On));
    all.extend(ZONES.map(Case::Zone));
    all.extend(LETTERS.map(Case::Letters));
    all.extend(values().into_iter().map(Case::Undated));
    let others = OTHERS.into_iter().chain(NEAR.map(Other::Near));
    all.extend(others.clone().map(Case::Without));
    all.extend(others.map(Case::Behind));
    all.push(Case::Without(Other::BehindEnd));
    all.extend(AGAIN.map(Case::Again));
    all.sort_unstable();
    all
}

fn turns() -> Vec<Day> {
    let mut turns = Vec::new();
    for (march, leap) in EITHER.into_iter().flat_map(|m| EITHER.map(|l| (m, l))) {
        turns.extend(EITHER.map(|hundred| Day::Turn {
            march,
            leap,
            hundred,
        }));
    }
    turns
}

fn values() -> Vec<Value> {
    let mut all = vec![Value::Time, Value::Name, Value::Set(Members::None)];
    for units in EITHER {
        all.push(Value::Integer { units });
        all.push(Value::BasedInteger { units });
        all.push(Value::Real { units });
    }
    for of_date in EITHER {
        all.push(Value::Text { of_date });
        all.push(Value::Quoted { of_date });
    }
    for members in [Members::OneDate, Members::Dates, Members::Others] {
        all.push(Value::Sequence(members));
        all.push(Value::Rows(members));
        all.push(Value::Set(members));
    }
    all
}
