//! The forms of a word: identifiers, numbers, dates and times.
//!
//! Each form is first taken apart as a whole; only then are its limits
//! looked at. So a word that has no form is never called past a limit.

use crate::code::{NO_FORM, PAST_LIMIT};
use crate::elements::Kind;

pub const LONGEST_NAME: usize = 60;
const LARGEST_NUMBER: u64 = 999_999_999_999_999_999;
const LARGEST_POWER: i64 = 999;
pub(crate) const DECIMALS: usize = 9;

#[derive(Debug, Clone, Copy, PartialEq, Eq)]
pub enum Reserved {
    End,
    Object,
    EndObject,
    Group,
    EndGroup,
    BeginObject,
}

/// `number` times ten to the `power`.
#[derive(Debug, Clone, Copy, PartialEq, Eq)]
pub struct Real {
    pub number: i64,
    pub power: i16,
}

impl Real {
    /// One value has one way of being held.
    pub fn is_held(self) -> bool {
        let in_range = self.number.unsigned_abs() <= LARGEST_NUMBER
            && i64::from(self.power).abs() <= LARGEST_POWER;
        match self.number {
            0 => self.power == 0,
            number => in_range && number % 10 != 0,
        }
    }
}

/// A date, a time or both, as it is meant; the fields of an absent part are 0.
///
/// How the zone was written is told by a mark (02 §6). It is no part of the
/// meaning, so it is no field here: a word and a row have it beside the moment.
#[derive(Debug, Clone, Copy, PartialEq, Eq, Default)]
pub struct Moment {
    pub parts: u8,
    pub year: u16,
    pub month: u8,
    pub day: u8,
    pub hour: u8,
    pub minute: u8,
    pub second: u8,
    pub nanoseconds: u32,
    /// Minutes.
    pub offset: i16,
}

impl Moment {
    pub const DATE: u8 = 1;
    pub const TIME: u8 = 2;

    /// The mark of a time without a zone, and where there is no time.
    pub const NO_ZONE: u8 = 0;
    /// The mark of `Z` or `z`.
    pub const Z: u8 = 1;
    pub const SIGNED_ZONE: u8 = 2;

    pub fn has_date(self) -> bool {
        self.parts & Self::DATE != 0
    }

    pub fn has_time(self) -> bool {
        self.parts & Self::TIME != 0
    }

    pub fn is_held(self) -> bool {
        matches!(self.parts, 1..=3) && self.date_is_held() && self.time_is_held()
    }

    fn date_is_held(self) -> bool {
        if !self.has_date() {
            return self.year == 0 && self.month == 0 && self.day == 0;
        }
        matches!(self.year, 1..=9999)
            && matches!(self.month, 1..=12)
            && (1..=days_in_month(self.year, self.month)).contains(&self.day)
    }

    fn time_is_held(self) -> bool {
        let (largest, nanoseconds, offset) = match self.has_time() {
            true => ((23, 59, 59), 999_999_999, 779),
            false => ((0, 0, 0), 0, 0),
        };
        self.hour <= largest.0
            && self.minute <= largest.1
            && self.second <= largest.2
            && self.nanoseconds <= nanoseconds
            && (-offset..=offset).contains(&self.offset)
    }

    /// Whether a row may hold this mark beside the moment.
    pub fn may_have(self, mark: u8) -> bool {
        match mark {
            Self::NO_ZONE => self.offset == 0,
            Self::Z => self.offset == 0 && self.has_time(),
            Self::SIGNED_ZONE => self.has_time(),
            _ => false,
        }
    }
}

/// The form of a word, or why it has none.
pub fn form(word: &[u8]) -> Result<Kind, u8> {
    let mut parts = Parts { rest: word };
    if parts.rest.first().is_some_and(u8::is_ascii_alphabetic) {
        return identifier(word);
    }
    let leading = parts.digits();
    match parts.rest.first() {
        Some(b'#') if !leading.is_empty() => based_integer(word).map(Kind::BasedInteger),
        Some(b'-' | b':') if !leading.is_empty() => {
            moment(word).map(|(moment, mark)| Kind::Moment { moment, mark })
        }
        _ => number(word),
    }
}

/// Whether these bytes can name an attribute, an object, a group or a unit.
pub fn is_name(bytes: &[u8]) -> bool {
    form(bytes) == Ok(Kind::Name)
}

fn identifier(word: &[u8]) -> Result<Kind, u8> {
    let mut after_underscore = false;
    for &byte in word {
        let underscore = byte == b'_';
        if underscore && after_underscore || !underscore && !byte.is_ascii_alphanumeric() {
            return Err(NO_FORM);
        }
        after_underscore = underscore;
    }
    if after_underscore {
        return Err(NO_FORM);
    }
    if word.len() > LONGEST_NAME {
        return Err(PAST_LIMIT);
    }
    Ok(reserved(word).map_or(Kind::Name, Kind::Reserved))
}

fn reserved(word: &[u8]) -> Option<Reserved> {
    const LIST: [(&[u8], Reserved); 6] = [
        (b"END", Reserved::End),
        (b"OBJECT", Reserved::Object),
        (b"END_OBJECT", Reserved::EndObject),
        (b"GROUP", Reserved::Group),
        (b"END_GROUP", Reserved::EndGroup),
        (b"BEGIN_OBJECT", Reserved::BeginObject),
    ];
    LIST.iter()
        .find(|(spelling, _)| word.eq_ignore_ascii_case(spelling))
        .map(|&(_, meaning)| meaning)
}

/// What is left of a word while it is taken apart.
struct Parts<'a> {
    rest: &'a [u8],
}

impl<'a> Parts<'a> {
    /// Takes the longest run of bytes of this sort, perhaps none.
    fn run(&mut self, sort: impl Fn(&u8) -> bool) -> &'a [u8] {
        let length = self.rest.iter().take_while(|byte| sort(byte)).count();
        let (run, rest) = self.rest.split_at(length);
        self.rest = rest;
        run
    }

    fn digits(&mut self) -> &'a [u8] {
        self.run(u8::is_ascii_digit)
    }

    /// Takes this byte, in either case, if it is next.
    fn take(&mut self, upper: u8) -> bool {
        match self.rest {
            [byte, rest @ ..] if byte.to_ascii_uppercase() == upper => {
                self.rest = rest;
                true
            }
            _ => false,
        }
    }

    fn expect(&mut self, upper: u8) -> Result<(), u8> {
        match self.take(upper) {
            true => Ok(()),
            false => Err(NO_FORM),
        }
    }

    /// Takes a sign if there is one: whether it is a minus.
    fn sign(&mut self) -> Option<bool> {
        if self.take(b'-') {
            return Some(true);
        }
        self.take(b'+').then_some(false)
    }

    /// Takes a run of this many digits, at least and at most.
    fn field(&mut self, least: usize, most: usize) -> Result<u16, u8> {
        let digits = self.digits();
        if !(least..=most).contains(&digits.len()) {
            return Err(NO_FORM);
        }
        Ok(digits.iter().fold(0, |n, d| n * 10 + u16::from(d - b'0')))
    }

    fn finish(&self) -> Result<(), u8> {
        match self.rest {
            [] => Ok(()),
            _ => Err(NO_FORM),
        }
    }
}

fn based_integer(word: &[u8]) -> Result<i64, u8> {
    let mut parts = Parts { rest: word };
    let radix = parts.digits();
    parts.expect(b'#')?;
    let minus = parts.sign().unwrap_or(false);
    let digits = parts.run(u8::is_ascii_alphanumeric);
    parts.expect(b'#')?;
    parts.finish()?;
    if digits.is_empty() {
        return Err(NO_FORM);
    }
    let radix = integer(false, radix, 10)?;
    if !(2..=16).contains(&radix) {
        return Err(PAST_LIMIT);
    }
    integer(minus, digits, radix)
}

/// The value of a run of digits, all of which must lie below the radix.
fn integer(minus: bool, digits: &[u8], radix: i64) -> Result<i64, u8> {
    let mut value: i64 = 0;
    for &byte in digits {
        let digit = digit_value(byte);
        if digit >= radix {
            return Err(PAST_LIMIT);
        }
        value = value
            .checked_mul(radix)
            .and_then(|shifted| shifted.checked_add(digit))
            .ok_or(PAST_LIMIT)?;
    }
    Ok(if minus { -value } else { value })
}

fn digit_value(byte: u8) -> i64 {
    match byte {
        b'0'..=b'9' => i64::from(byte - b'0'),
        _ => i64::from(byte.to_ascii_uppercase() - b'A') + 10,
    }
}

/// A decimal integer or a real.
fn number(word: &[u8]) -> Result<Kind, u8> {
    let mut parts = Parts { rest: word };
    let minus = parts.sign().unwrap_or(false);
    let whole = parts.digits();
    let period = parts.take(b'.');
    let fraction = if period { parts.digits() } else { &[] };
    if whole.is_empty() && fraction.is_empty() {
        return Err(NO_FORM);
    }
    let scaled = parts.take(b'E');
    let exponent = if scaled { exponent(&mut parts)? } else { 0 };
    parts.finish()?;
    if period || scaled {
        return real(minus, whole, fraction, exponent).map(Kind::Real);
    }
    integer(minus, whole, 10).map(Kind::Integer)
}

/// An exponent too large to hold sticks at the end of the range, which lies
/// far beyond every power that any number of digits could bring back.
fn exponent(parts: &mut Parts) -> Result<i64, u8> {
    let minus = parts.sign().unwrap_or(false);
    let digits = parts.digits();
    if digits.is_empty() {
        return Err(NO_FORM);
    }
    let size = digits.iter().fold(0i64, |n, d| {
        n.saturating_mul(10).saturating_add(i64::from(d - b'0'))
    });
    Ok(if minus { -size } else { size })
}

fn real(minus: bool, whole: &[u8], fraction: &[u8], exponent: i64) -> Result<Real, u8> {
    let mut number: u64 = 0;
    let mut zeros: i64 = 0;
    for &byte in whole.iter().chain(fraction) {
        // Zeros wait for a later digit; those left over go into the power.
        if byte == b'0' {
            zeros += 1;
            continue;
        }
        number = append(number, zeros, u64::from(byte - b'0'))?;
        zeros = 0;
    }
    if number == 0 {
        return Ok(Real {
            number: 0,
            power: 0,
        });
    }
    let power = exponent
        .saturating_sub(fraction.len() as i64)
        .saturating_add(zeros);
    if !(-LARGEST_POWER..=LARGEST_POWER).contains(&power) {
        return Err(PAST_LIMIT);
    }
    let number = number as i64;
    Ok(Real {
        number: if minus { -number } else { number },
        power: power as i16,
    })
}

/// The number with these zeros and then this digit behind it.
fn append(mut number: u64, zeros: i64, digit: u64) -> Result<u64, u8> {
    if number != 0 {
        for _ in 0..zeros {
            number = number.checked_mul(10).ok_or(PAST_LIMIT)?;
        }
    }
    number
        .checked_mul(10)
        .and_then(|shifted| shifted.checked_add(digit))
        .filter(|&longer| longer <= LARGEST_NUMBER)
        .ok_or(PAST_LIMIT)
}

/// A date as it is written: a year and either one or two numbers after it.
struct WrittenDate {
    year: u16,
    first: u16,
    second: Option<u16>,
}

struct WrittenTime<'a> {
    hour: u16,
    minute: u16,
    second: u16,
    decimals: &'a [u8],
    zone: WrittenZone,
}

#[derive(Clone, Copy)]
enum WrittenZone {
    None,
    /// `Z` or `z`.
    Z,
    Signed {
        minus: bool,
        hour: u16,
        minute: u16,
    },
}

impl WrittenZone {
    fn mark(self) -> u8 {
        match self {
            WrittenZone::None => Moment::NO_ZONE,
            WrittenZone::Z => Moment::Z,
            WrittenZone::Signed { .. } => Moment::SIGNED_ZONE,
        }
    }

    /// In minutes.
    fn offset(self) -> Result<i16, u8> {
        match self {
            WrittenZone::None | WrittenZone::Z => Ok(0),
            WrittenZone::Signed { hour, minute, .. } if hour > 12 || minute > 59 => Err(PAST_LIMIT),
            // The sign covers hour and minute, so it is put on their sum.
            WrittenZone::Signed {
                minus,
                hour,
                minute,
            } => {
                let offset = (hour * 60 + minute) as i16;
                Ok(if minus { -offset } else { offset })
            }
        }
    }
}

/// The moment that a word holds, and the mark of its zone.
fn moment(word: &[u8]) -> Result<(Moment, u8), u8> {
    let mut parts = Parts { rest: word };
    let starts_with_date = word.iter().find(|byte| !byte.is_ascii_digit()) == Some(&b'-');
    let date = starts_with_date
        .then(|| written_date(&mut parts))
        .transpose()?;
    let has_time = date.is_none() || parts.take(b'T');
    let time = has_time.then(|| written_time(&mut parts)).transpose()?;
    parts.finish()?;

    let mut held = Moment::default();
    if let Some(date) = date {
        hold_date(&mut held, date)?;
    }
    let mut mark = Moment::NO_ZONE;
    if let Some(time) = time {
        mark = time.zone.mark();
        hold_time(&mut held, time)?;
    }
    Ok((held, mark))
}

fn written_date(parts: &mut Parts) -> Result<WrittenDate, u8> {
    let year = parts.field(4, 4)?;
    parts.expect(b'-')?;
    let mut ahead = Parts { rest: parts.rest };
    ahead.digits();
    if !ahead.take(b'-') {
        return Ok(WrittenDate {
            year,
            first: parts.field(1, 3)?,
            second: None,
        });
    }
    let month = parts.field(1, 2)?;
    parts.expect(b'-')?;
    Ok(WrittenDate {
        year,
        first: month,
        second: Some(parts.field(1, 2)?),
    })
}

fn written_time<'a>(parts: &mut Parts<'a>) -> Result<WrittenTime<'a>, u8> {
    let hour = parts.field(1, 2)?;
    parts.expect(b':')?;
    let minute = parts.field(1, 2)?;
    let mut time = WrittenTime {
        hour,
        minute,
        second: 0,
        decimals: &[],
        zone: WrittenZone::None,
    };
    if parts.take(b':') {
        time.second = parts.field(1, 2)?;
        if parts.take(b'.') {
            time.decimals = parts.digits();
        }
    }
    time.zone = written_zone(parts)?;
    Ok(time)
}

fn written_zone(parts: &mut Parts) -> Result<WrittenZone, u8> {
    if parts.take(b'Z') {
        return Ok(WrittenZone::Z);
    }
    let Some(minus) = parts.sign() else {
        return Ok(WrittenZone::None);
    };
    let hour = parts.field(1, 2)?;
    let minute = match parts.take(b':') {
        true => parts.field(1, 2)?,
        false => 0,
    };
    Ok(WrittenZone::Signed {
        minus,
        hour,
        minute,
    })
}

fn hold_date(held: &mut Moment, date: WrittenDate) -> Result<(), u8> {
    let (month, day) = match date.second {
        Some(day) => (date.first as u8, day as u8),
        None => month_and_day(date.year, date.first).ok_or(PAST_LIMIT)?,
    };
    held.parts |= Moment::DATE;
    held.year = date.year;
    held.month = month;
    held.day = day;
    match held.date_is_held() {
        true => Ok(()),
        false => Err(PAST_LIMIT),
    }
}

fn hold_time(held: &mut Moment, time: WrittenTime) -> Result<(), u8> {
    if time.hour > 23 || time.minute > 59 || time.second > 59 {
        return Err(PAST_LIMIT);
    }
    held.parts |= Moment::TIME;
    held.hour = time.hour as u8;
    held.minute = time.minute as u8;
    held.second = time.second as u8;
    held.nanoseconds = nanoseconds(time.decimals)?;
    held.offset = time.zone.offset()?;
    Ok(())
}

fn nanoseconds(decimals: &[u8]) -> Result<u32, u8> {
    let kept = decimals
        .iter()
        .rposition(|&byte| byte != b'0')
        .map_or(0, |last| last + 1);
    if kept > DECIMALS {
        return Err(PAST_LIMIT);
    }
    let padded = decimals[..kept].iter().chain([b'0'; DECIMALS].iter());
    Ok(padded
        .take(DECIMALS)
        .fold(0, |n, d| n * 10 + u32::from(d - b'0')))
}

/// The month and day of a day of the year, if the year has that day.
fn month_and_day(year: u16, day_of_year: u16) -> Option<(u8, u8)> {
    let mut day = day_of_year;
    for month in 1..=12 {
        let days = u16::from(days_in_month(year, month));
        if day <= days {
            return Some((month, day as u8));
        }
        day -= days;
    }
    None
}

/// The last day of a month; 31 if there is no such month.
pub(crate) fn days_in_month(year: u16, month: u8) -> u8 {
    match month {
        2 if is_leap(year) => 29,
        2 => 28,
        4 | 6 | 9 | 11 => 30,
        _ => 31,
    }
}

pub(crate) fn is_leap(year: u16) -> bool {
    match (year % 400, year % 100) {
        (0, _) => true,
        (_, 0) => false,
        (rest, _) => rest % 4 == 0,
    }
}
