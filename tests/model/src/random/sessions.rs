//! Labels of sessions by chance (02 §1): one or more START_TIMEs of every sort,
//! or none, and things that are much like one.

use super::{some_day, some_year, Maker, Random};
use crate::sessions::NEAR;
use crate::weekdays::{Date, FIRST, LAST};
use crate::words::days_in_month;

const NAME: &str = "START_TIME";

/// A good label of a session.
pub fn session_label(random: &mut Random) -> Vec<u8> {
    let mut maker = Maker::new(random);
    maker.asides();
    for _ in 0..maker.random.pick(&[0, 0, 0, 1, 1, 1, 1, 1, 2]) {
        maker.start_time();
        maker.asides();
    }
    let mut label = maker.ended();
    if random.one_in(20) {
        label.extend_from_slice(b"\nSTART_TIME = 1979-07-08 END");
    }
    label
}

impl Maker<'_> {
    fn start_time(&mut self) {
        match self.random.below(5) {
            0..=2 => self.dated(NAME),
            _ => self.named(NAME, Self::undated_value),
        }
    }

    /// An attribute of this name, in any letters, with a date.
    fn dated(&mut self, name: &str) {
        self.named(name, Self::dated_word);
    }

    fn named(&mut self, name: &str, value: impl Fn(&mut Self)) {
        let name = self.in_letters(name);
        self.put(&name);
        self.put("=");
        value(self);
    }

    fn in_letters(&mut self, name: &str) -> String {
        let either = |c: char| match self.random.one_in(2) {
            true => c.to_ascii_lowercase(),
            false => c,
        };
        let mixed: String = name.chars().map(either).collect();
        match self.random.below(4) {
            0 => name.to_ascii_lowercase(),
            1 => mixed,
            _ => name.to_string(),
        }
    }

    fn asides(&mut self) {
        for _ in 0..self.random.pick(&[0, 0, 1, 1, 2, 3]) {
            self.aside();
        }
    }

    /// Something that decides nothing, though it may be much like what does.
    fn aside(&mut self) {
        match self.random.below(16) {
            0 => self.assignment(Self::value),
            1 => self.assignment(Self::dated_word),
            2 => {
                self.put("^");
                self.assignment(Self::dated_word);
            }
            3 => {
                self.put("^");
                self.dated(NAME);
            }
            4..=6 => self.block(),
            7 => self.name_elsewhere(),
            8 => {
                let date = self.dated_text();
                let comment = format!("/* {NAME} = {date} */\n");
                self.out.extend_from_slice(comment.as_bytes());
            }
            _ => {
                let near = self.random.pick(&NEAR);
                self.dated(near);
            }
        }
    }

    /// A block that may hold another, and START_TIMEs.
    fn block(&mut self) {
        let words = self
            .random
            .pick(&[("OBJECT", "END_OBJECT"), ("GROUP", "END_GROUP")]);
        let name = self.random.pick(&[NAME, "start_time", "CAMERA", "B"]);
        self.opening_of(words, name.to_string());
        for _ in 0..self.random.below(3) {
            match self.random.below(4) {
                0 if self.open.len() < 4 => self.block(),
                1 => self.assignment(Self::value),
                _ => self.start_time(),
            }
        }
        self.closing();
    }

    /// The name where it names nothing.
    fn name_elsewhere(&mut self) {
        let date = self.dated_text();
        let name = self.in_letters(NAME);
        let value = match self.random.below(6) {
            0 => name,
            1 => format!("'{name}'"),
            2 => format!("(1,{name})"),
            3 => format!("1 <KM*{name}>"),
            4 => format!("1.5 <{name}>"),
            _ => format!("\"{name} = {date}\""),
        };
        self.assignment(|maker| maker.put(&value));
    }

    fn dated_word(&mut self) {
        let word = self.dated_text();
        self.put(&word);
    }

    /// A date, or a date and a time.
    fn dated_text(&mut self) -> String {
        let date = session_day(self.random);
        let spelled = self.spelled(date);
        match self.random.below(8) {
            0..=3 => spelled,
            4 => format!("{spelled}T{}", self.time()),
            5 => format!("{spelled}t{}", self.time()),
            _ => format!("{spelled}T{}", time_near_midnight(self.random)),
        }
    }

    /// A value that is not a single one with a date.
    fn undated_value(&mut self) {
        match self.random.below(16) {
            0 => self.number(Self::integer),
            1 => self.number(Self::based_integer),
            2 => self.number(Self::real),
            3 => {
                let time = self.time();
                self.put(&time);
            }
            4 => self.text(),
            5 => self.symbol(),
            6 => {
                let name = self.name();
                self.put(&name);
            }
            7 => self.quoted_date(),
            8 => self.members("{", 0, Self::scalar, "}"),
            9 => self.row(),
            10 => self.members("(", 1, Self::row, ")"),
            11 | 12 => self.one_date_in_brackets(),
            13 => self.members("(", 1, Self::dated_word, ")"),
            14 => self.members("{", 1, Self::dated_word, "}"),
            _ => {
                let row = |maker: &mut Self| maker.members("(", 1, Self::dated_word, ")");
                self.members("(", 1, row, ")");
            }
        }
    }

    fn one_date_in_brackets(&mut self) {
        let brackets: &[(&str, &str)] = &[("(", ")"), ("{", "}"), ("((", "))")];
        let (opening, closing) = self.random.pick(brackets);
        self.put(opening);
        self.dated_word();
        self.put(closing);
    }

    fn quoted_date(&mut self) {
        let date = self.dated_text();
        let quote = self.random.pick(&["'", "\""]);
        self.put(&format!("{quote}{date}{quote}"));
    }
}

/// A day, mostly one at some end.
fn session_day(random: &mut Random) -> Date {
    let year = some_year(random);
    match random.below(12) {
        0 => FIRST,
        1 => LAST,
        2 => (year, 1, 1),
        3 => (year, 12, 31),
        4 => (
            random.pick(&[400, 800, 1200, 1600, 2000, 2400, 9600]),
            2,
            29,
        ),
        5 => {
            let year = random.pick(&[400, 1600, 1900, 2000, 2100, year, year, year]);
            let last = (year, 2, days_in_month(year, 2));
            random.pick(&[last, (year, 3, 1)])
        }
        6..=8 => some_day(random),
        _ => {
            let (year, month) = (1 + random.below(9999) as u16, 1 + random.below(12) as u8);
            let last = days_in_month(year, month);
            (year, month, 1 + random.below(last.into()) as u8)
        }
    }
}

/// A time with a zone whose offset, were it applied, would take it to the day
/// before or to the day after.
fn time_near_midnight(random: &mut Random) -> String {
    const MINUTES: usize = 24 * 60;
    let offset = 1 + random.below(779);
    let (sign, local) = match random.one_in(2) {
        true => ('+', random.below(offset)),
        false => ('-', MINUTES - 1 - random.below(offset)),
    };
    let [hour, minute] = [local / 60, local % 60];
    let [hours, minutes] = [offset / 60, offset % 60];
    format!("{hour:02}:{minute:02}{sign}{hours:02}:{minutes:02}")
}
