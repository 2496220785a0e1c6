//! Which cases of the session book an accepted label shows, and which counter it
//! goes under. Both are told from the label's elements, not from its table.

use super::{Again, Case, Day, Letters, Members, Other, Value, Zone, NAME, NEAR};
use crate::book::UNDATED;
use crate::elements::Kind;
use crate::outline::{self, Element, Sort, Statement};
use crate::weekdays::{self, weekday, Date};
use crate::words::{self, days_in_month, is_leap, Moment};
use crate::{layout, reading};

/// The number of the counter that this label goes under; none if it is refused.
pub fn counter(label: &[u8]) -> Option<usize> {
    let elements = elements(label)?;
    let statements = outline::statements(&elements);
    let weekday = statements.iter().find(|s| decides(s)).and_then(weekday_of);
    Some(weekday.unwrap_or(UNDATED))
}

/// The cases that this label shows, each once; none if it is refused.
pub fn in_label(label: &[u8]) -> Vec<Case> {
    let elements = elements(label).unwrap_or_default();
    let Some(&(end, _)) = elements.last() else {
        return Vec::new();
    };
    let statements = outline::statements(&elements);
    let mut cases = match statements.iter().position(decides) {
        Some(at) => {
            let first = &statements[at];
            let mut cases = own_cases(first);
            cases.extend(again(&statements, at).map(Case::Again));
            if let Some(weekday) = weekday_of(first) {
                let before = others(&statements[..at], Some(weekday));
                let in_gap = name_in_gap(label, &elements, first.place);
                cases.extend(before.into_iter().chain(in_gap).map(Case::Behind));
            }
            cases
        }
        None => {
            let in_gap = name_in_gap(label, &elements, end);
            let behind = has_name(&label[end..]).then_some(Other::BehindEnd);
            let others = others(&statements, None).into_iter();
            others
                .chain(in_gap)
                .chain(behind)
                .map(Case::Without)
                .collect()
        }
    };
    cases.sort_unstable();
    cases.dedup();
    cases
}

/// The elements of a label through END; none if it is refused.
fn elements(label: &[u8]) -> Option<Vec<Element<'_>>> {
    let (_, end) = reading(label).ok()?;
    layout::list(&label[..end]).map(|list| list.elements)
}

fn decides(statement: &Statement) -> bool {
    statement.sort == Sort::Attribute && statement.within.is_empty() && is_name(statement.name)
}

fn is_name(word: &[u8]) -> bool {
    word.eq_ignore_ascii_case(NAME)
}

fn has_name(bytes: &[u8]) -> bool {
    bytes.windows(NAME.len()).any(is_name)
}

/// The weekday of a statement whose value is a single one with a date.
fn weekday_of(statement: &Statement) -> Option<usize> {
    match statement.value {
        [(_, word)] => moment(word).and_then(date).map(weekday),
        _ => None,
    }
}

fn moment(word: &[u8]) -> Option<Moment> {
    match words::form(word) {
        Ok(Kind::Moment { moment, .. }) => Some(moment),
        _ => None,
    }
}

fn date(moment: Moment) -> Option<Date> {
    let date = (moment.year, moment.month, moment.day);
    moment.has_date().then_some(date)
}

/// The cases of the one that decides, taken by itself.
fn own_cases(statement: &Statement) -> Vec<Case> {
    let (word, moment) = match statement.value {
        [(_, word)] => (*word, moment(word)),
        _ => (&b""[..], None),
    };
    let Some((moment, date)) = moment.and_then(|m| Some((m, date(m)?))) else {
        return vec![Case::Undated(value(statement.value))];
    };
    let (weekday, time) = (weekday(date), moment.has_time());
    let of_date = word.split(|&byte| matches!(byte, b'T' | b't')).next();
    let hyphens = |part: &[u8]| part.iter().filter(|&&byte| byte == b'-').count();
    let by_day_of_year = of_date.map(hyphens) == Some(1);
    let mut cases = vec![
        Case::Weekday { weekday, time },
        Case::Spelled {
            by_day_of_year,
            time,
        },
        Case::Letters(letters(statement.name)),
    ];
    cases.extend(days_of(date).into_iter().map(Case::On));
    cases.extend(time.then(|| Case::Zone(zone(word, moment, date))));
    cases
}

fn letters(name: &[u8]) -> Letters {
    match name {
        _ if !name.iter().any(u8::is_ascii_lowercase) => Letters::Upper,
        _ if !name.iter().any(u8::is_ascii_uppercase) => Letters::Lower,
        _ => Letters::Mixed,
    }
}

fn days_of(date: Date) -> Vec<Day> {
    let (year, month, day) = date;
    let last = days_in_month(year, month);
    let (leap, hundred) = (is_leap(year), year % 100 == 0);
    let march = month == 3;
    let turn = Day::Turn {
        march,
        leap,
        hundred,
    };
    let days = [
        (Day::FirstOfAll, date == weekdays::FIRST),
        (Day::LastOfAll, date == weekdays::LAST),
        (Day::FirstOfYear, (month, day) == (1, 1)),
        (Day::LastOfYear, (month, day) == (12, 31)),
        (Day::FirstOfMonth, day == 1),
        (Day::LastOfMonth, day == last),
        (Day::Between, day != 1 && day != last),
        (Day::BeforeUse, date < (1582, 10, 15)),
        (turn, (month, day) == (2, last) || (month, day) == (3, 1)),
    ];
    let is_shown = |&(_, shown): &(Day, bool)| shown;
    days.into_iter()
        .filter(is_shown)
        .map(|(day, _)| day)
        .collect()
}

/// The zone of a word that is this date with a time.
fn zone(word: &[u8], moment: Moment, date: Date) -> Zone {
    const MINUTES: i32 = 24 * 60;
    let local = i32::from(moment.hour) * 60 + i32::from(moment.minute);
    let applied = local - i32::from(moment.offset);
    match (moment.offset, applied) {
        (0, _) => match words::form(word) {
            Ok(Kind::Moment { mark, .. }) if mark == Moment::Z => Zone::Z,
            Ok(Kind::Moment { mark, .. }) if mark == Moment::NO_ZONE => Zone::None,
            _ => Zone::Zero,
        },
        (_, ..0) if date == weekdays::FIRST => Zone::BeforeFirstOfAll,
        (_, ..0) => Zone::DayBefore,
        (_, MINUTES..) if date == weekdays::LAST => Zone::AfterLastOfAll,
        (_, MINUTES..) => Zone::DayAfter,
        _ => Zone::SameDay,
    }
}

/// The sort of a value that is not a single one with a date.
fn value(elements: &[Element]) -> Value {
    let words: Vec<&[u8]> = elements.iter().map(|&(_, element)| element).collect();
    let units = words.ends_with(&[b">"]);
    let is_date = |word: &[u8]| moment(word).and_then(date).is_some();
    match words[..] {
        [b"(", b"(", ..] => Value::Rows(members(&words)),
        [b"(", ..] => Value::Sequence(members(&words)),
        [b"{", ..] => Value::Set(members(&words)),
        [[b'"', text @ .., _], ..] => Value::Text {
            of_date: is_date(text),
        },
        [[b'\'', symbol @ .., _], ..] => Value::Quoted {
            of_date: is_date(symbol),
        },
        [word, ..] => match words::form(word) {
            Ok(Kind::Integer(_)) => Value::Integer { units },
            Ok(Kind::BasedInteger(_)) => Value::BasedInteger { units },
            Ok(Kind::Real(_)) => Value::Real { units },
            Ok(Kind::Moment { .. }) => Value::Time,
            _ => Value::Name,
        },
        [] => Value::Name,
    }
}

fn members(value: &[&[u8]]) -> Members {
    let is_part = |word: &&&[u8]| !matches!(**word, b"(" | b")" | b"{" | b"}" | b",");
    let parts: Vec<&&[u8]> = value.iter().filter(is_part).collect();
    let are_dates = parts
        .iter()
        .all(|word| moment(word).and_then(date).is_some());
    match (parts.len(), are_dates) {
        (0, _) => Members::None,
        (1, true) => Members::OneDate,
        (_, true) => Members::Dates,
        _ => Members::Others,
    }
}

/// The second ones behind the one at this number of the statements.
fn again<'a>(statements: &'a [Statement], at: usize) -> impl Iterator<Item = Again> + 'a {
    let first = weekday_of(&statements[at]);
    let further = &statements[at + 1..];
    further.iter().filter_map(move |statement| {
        let is_attribute = statement.sort == Sort::Attribute && is_name(statement.name);
        let outside = statement.within.is_empty();
        match (first, weekday_of(statement)) {
            _ if !is_attribute => None,
            (Some(_), None) if outside => Some(Again::UndatedBehindDated),
            (Some(one), Some(other)) if outside && one != other => Some(Again::OtherWeekday),
            (None, Some(_)) if outside => Some(Again::DatedBehindUndated),
            (None, Some(_)) => Some(Again::InBlockBehindUndated),
            _ => None,
        }
    })
}

/// What these statements are that do not decide; with the weekday of the one
/// that does, if there is one.
fn others(statements: &[Statement], decided: Option<usize>) -> Vec<Other> {
    let mut others: Vec<Other> = statements
        .iter()
        .flat_map(|statement| {
            let own = other(statement, decided);
            own.into_iter().chain(names_in_value(statement.value))
        })
        .collect();
    if statements.is_empty() {
        others.push(Other::Nothing);
    }
    others
}

fn other(statement: &Statement, decided: Option<usize>) -> Option<Other> {
    let named = is_name(statement.name);
    let differs = weekday_of(statement).is_some_and(|weekday| Some(weekday) != decided);
    match (statement.sort, &statement.within[..]) {
        (Sort::Object, []) if named => Some(Other::AsObject),
        (Sort::Group, []) if named => Some(Other::AsGroup),
        (Sort::Object, []) => Some(Other::Object),
        (Sort::Group, []) => Some(Other::Group),
        (Sort::Object | Sort::Group, _) => Some(Other::BlockInBlock),
        _ if !differs => None,
        (Sort::Pointer, []) if named => Some(Other::AsPointer),
        (Sort::Pointer, []) => Some(Other::Pointer),
        (Sort::Attribute, []) => Some(near(statement.name)),
        (Sort::Attribute, [Sort::Object]) if named => Some(Other::InObject),
        (Sort::Attribute, [Sort::Group]) if named => Some(Other::InGroup),
        (Sort::Attribute, _) if named => Some(Other::InBlockInBlock),
        _ => None,
    }
}

/// What a dated attribute is by its name.
fn near(name: &[u8]) -> Other {
    let same = |near: &&str| near.as_bytes().eq_ignore_ascii_case(name);
    NEAR.into_iter()
        .find(same)
        .map_or(Other::Attribute, Other::Near)
}

fn names_in_value<'a>(value: &'a [Element<'a>]) -> impl Iterator<Item = Other> + 'a {
    value.iter().enumerate().filter_map(|(at, &(_, element))| {
        let before = at.checked_sub(1).map(|before| value[before].1);
        match (before, element) {
            (Some(b"<" | b"*" | b"/"), unit) if is_name(unit) => Some(Other::AsUnit),
            (_, symbol) if is_name(symbol) => Some(Other::AsSymbol),
            (_, [b'\'', symbol @ .., _]) if is_name(symbol) => Some(Other::AsSymbol),
            (_, [b'"', ..]) if has_name(element) => Some(Other::InText),
            _ => None,
        }
    })
}

/// Whether the name stands in a gap before this place.
fn name_in_gap(label: &[u8], elements: &[Element], place: usize) -> Option<Other> {
    let mut end = 0;
    let mut before = elements.iter().take_while(|&&(start, _)| start <= place);
    let is_found = before.any(|&(start, element)| {
        let gap = &label[end..start];
        end = start + element.len();
        has_name(gap)
    });
    is_found.then_some(Other::InGap)
}
