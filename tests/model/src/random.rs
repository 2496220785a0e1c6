//! Labels and tables by chance, the same ones for the same seed.
//!
//! Good labels use every kind of value and every kind of gap. Damaged ones
//! are good ones with a few bytes changed, labels at a limit or just past it,
//! labels with something much like a sequence of rows, labels with a date that
//! the calendar has not, or elements strung together without regard for grammar.
//! Tables are those of good labels, whole or damaged, or hold reals, dates or zones
//! that come from no label, each with a row and a name to ask for.

mod sessions;

pub use sessions::session_label;

use crate::words::{days_in_month, is_leap, Real};
use crate::{read, LONGEST_LABEL};

/// The xorshift* generator: short, and good enough for tests.
pub struct Random {
    state: u64,
}

impl Random {
    pub fn new(seed: u64) -> Random {
        // The state must not be 0, and neighbouring seeds should differ much.
        let state = seed.wrapping_add(1).wrapping_mul(0x9E37_79B9_7F4A_7C15);
        Random { state: state | 1 }
    }

    pub fn bits(&mut self) -> u64 {
        self.state ^= self.state >> 12;
        self.state ^= self.state << 25;
        self.state ^= self.state >> 27;
        self.state.wrapping_mul(0x2545_F491_4F6C_DD1D)
    }

    /// A number from 0 to below `bound`; 0 if the bound is 0.
    pub fn below(&mut self, bound: usize) -> usize {
        ((self.bits() >> 32) as usize)
            .checked_rem(bound)
            .unwrap_or(0)
    }

    /// True once in so many times.
    pub fn one_in(&mut self, times: usize) -> bool {
        self.below(times) == 0
    }

    pub fn pick<T: Copy>(&mut self, list: &[T]) -> T {
        list[self.below(list.len())]
    }
}

/// A label of any sort.
pub fn label(random: &mut Random) -> Vec<u8> {
    match random.below(24) {
        0..=7 => good_label(random),
        8..=15 => damaged_label(random),
        16 | 17 => limit_label(random),
        18 => rows_label(random),
        19 => reals_label(random),
        20 | 21 => dates_label(random),
        _ => strung_elements(random),
    }
}

/// A label that follows the rules, but for its length: one in some hundreds
/// has about 65,535 bytes, a few of these more than that.
pub fn good_label(random: &mut Random) -> Vec<u8> {
    let size = match random.below(400) {
        0 => return filled_label(random),
        1..=9 => random.below(6_000),
        10..=99 => random.below(800),
        _ => random.below(120),
    };
    Maker::new(random).label(size)
}

/// A good label of 20,000 to nearly 65,535 bytes.
pub fn long_label(random: &mut Random) -> Vec<u8> {
    let size = 20_000 + random.below(LONGEST_LABEL - 28_000);
    Maker::new(random).label(size)
}

/// A good label filled up with spaces to nearly, exactly or just over the
/// longest length allowed.
pub fn filled_label(random: &mut Random) -> Vec<u8> {
    // Of the longest ones, some are written with more bytes than may be.
    let longest = LONGEST_LABEL - 8_000;
    let size = match random.one_in(2) {
        true => longest,
        false => random.below(longest),
    };
    let mut label = Maker::new(random).label(size);
    let wanted = LONGEST_LABEL - 2 + random.below(5);
    // Spaces may stand before the first element as well as after END.
    let before = random.pick(&[0, label.len()]);
    let missing = wanted.saturating_sub(label.len());
    let spaces = std::iter::repeat_n(b' ', missing);
    label.splice(before..before, spaces);
    label
}

/// A good label with one to three changes that may or may not break it.
pub fn damaged_label(random: &mut Random) -> Vec<u8> {
    let mut label = good_label(random);
    for _ in 0..1 + random.below(3) {
        damage(random, &mut label);
    }
    label
}

/// One change, at any place, that may or may not break the label.
pub fn damage(random: &mut Random, label: &mut Vec<u8>) {
    const TELLING: &[u8] = b"=,*/^<>(){}\"'_+-.:#&;\\ \t\r\n\x0b\x0c\0\x1f\x7f\x80\xff09azAZTEe";
    let at = random.below(label.len());
    let other = random.below(label.len());
    match random.below(9) {
        0 if !label.is_empty() => label[at] ^= 1 << random.below(8),
        1 if !label.is_empty() => label[at] = random.pick(TELLING),
        2 if !label.is_empty() => {
            label.remove(at);
        }
        3 => label.insert(at, random.pick(TELLING)),
        4 => label.truncate(at),
        5 => swap_slices(random, label),
        6 => {
            let slice = label[at.min(other)..at.max(other).min(at.min(other) + 40)].to_vec();
            label.splice(at..at, slice);
        }
        7 => replace_word(random, label, at),
        _ => {
            let element = random_element(random);
            label.splice(at..at, element);
        }
    }
}

fn swap_slices(random: &mut Random, label: &mut Vec<u8>) {
    let mut cuts: Vec<usize> = (0..4).map(|_| random.below(label.len() + 1)).collect();
    cuts.sort_unstable();
    let swapped = [
        &label[..cuts[0]],
        &label[cuts[2]..cuts[3]],
        &label[cuts[1]..cuts[2]],
        &label[cuts[0]..cuts[1]],
        &label[cuts[3]..],
    ]
    .concat();
    *label = swapped;
}

/// Puts another word, perhaps one past its limit, in place of the run of
/// letters and digits at this offset.
fn replace_word(random: &mut Random, label: &mut Vec<u8>, at: usize) {
    let in_word = |byte: &u8| byte.is_ascii_alphanumeric() || *byte == b'_';
    let before = label[..at].iter().rev().take_while(|b| in_word(b)).count();
    let after = label[at..].iter().take_while(|b| in_word(b)).count();
    let word = match random.one_in(2) {
        true => limit_word(random),
        false => random_element(random),
    };
    label.splice(at - before..at + after, word);
}

/// A label that holds one thing at its limit, or just past it.
pub fn limit_label(random: &mut Random) -> Vec<u8> {
    let past = random.below(2);
    match random.below(11) {
        0 => nested_label(random, 80 + past),
        1 => [name_of(random, 60 + past), b"=1 END".to_vec()].concat(),
        2 => [
            b"OBJECT=".to_vec(),
            name_of(random, 60 + past),
            b" END_OBJECT END".to_vec(),
        ]
        .concat(),
        3 => {
            let sign = random.pick(&["", "+", "-", "-0", "00"]);
            format!("A=(1 <B**{sign}{}>) END", 99 + past).into_bytes()
        }
        4 => format!("A='{}' END", "s".repeat(255 + past)).into_bytes(),
        5 => filled_label(random),
        6 => closed_label(random),
        7 => [b"A=1 END".to_vec(), vec![random.bits() as u8]].concat(),
        8 => [b"A=".to_vec(), long_word(random), b" END".to_vec()].concat(),
        _ => [b"A=".to_vec(), limit_word(random), b" END".to_vec()].concat(),
    }
}

/// A block that is closed by its own name or by something much like it.
fn closed_label(random: &mut Random) -> Vec<u8> {
    let (word, closing) = random.pick(&[("OBJECT", "END_OBJECT"), ("GROUP", "END_GROUP")]);
    let name = random.pick(&[
        "Name_1", "NAME_1", "name_1", "NAME_2", "NAME_11", "NAME_", "END",
    ]);
    let sign = random.pick(&["=", " = ", " =/* c */\n", " "]);
    format!("{word}=NAME_1 {closing}{sign}{name} END").into_bytes()
}

/// A word of many digits, most of them zeros.
fn long_word(random: &mut Random) -> Vec<u8> {
    let count = random.below(3_000);
    let zeros = "0".repeat(count);
    let digit = random.below(10);
    let shift = count + random.below(1_100);
    let word = match random.below(6) {
        0 => format!("{zeros}{digit}"),
        1 => format!("{zeros}{digit}#{zeros}1#"),
        2 => format!("1E-{zeros}{digit}"),
        3 => format!("0.{zeros}{digit}E{shift}"),
        4 => format!("{digit}{zeros}E-{shift}"),
        _ => format!("10:00:00.{digit}{zeros}"),
    };
    word.into_bytes()
}

/// Blocks within blocks to this depth, with an attribute in the innermost.
fn nested_label(random: &mut Random, depth: usize) -> Vec<u8> {
    let kinds: Vec<&str> = (0..depth)
        .map(|_| random.pick(&["OBJECT", "group"]))
        .collect();
    let mut label = String::new();
    for kind in &kinds {
        label += &format!("{kind}=B ");
    }
    label += "A=1 ";
    for kind in kinds.iter().rev() {
        label += &format!("END_{kind} ");
    }
    (label + "END").into_bytes()
}

fn name_of(random: &mut Random, length: usize) -> Vec<u8> {
    (0..length)
        .map(|at| match at {
            0 => b'N',
            _ => random.pick(b"AbC19"),
        })
        .collect()
}

/// A word at a limit or just past it, or with a form just missed.
fn limit_word(random: &mut Random) -> Vec<u8> {
    const WORDS: &str = "
        9223372036854775807 9223372036854775808 -9223372036854775807
        -9223372036854775808 0000000000000000000000000000001 16#7FFFFFFFFFFFFFFF#
        16#8000000000000000# 16#-7fffffffffffffff# 2#102# 2#1# 1#0# 16#F# 17#F# 016#G#
        16## 16#-# -16#F# 99999999999999999999#1# 999999999999999999.
        9999999999999999990. 9999999999999999999. 1000000000000000000.
        1000000000000000001. -.999999999999999999 -.9999999999999999999 1E999 1E1000
        10E999 0.1E1000 0.1E-998 0.1E-999 1.0E-999 1E-1000 0E99999999999999999999
        1E99999999999999999999 1E-99999999999999999999 0.000E-5000 1E 1E+ .E1 . + 1..2
        1e5. 1990-365 1990-366 2000-366 2000-367 1900-366 2004-060 1990-0 1990-1234
        199-01 19900-01 0000-001 0001-1-1 9999-12-31 1990-13-01 1990-00-01 1990-04-31
        1900-02-29 2000-02-29 1990-7-123 1990-7-4T0:0 1990-07T23:59:59.999999999Z
        1990-07t23:59:59.9999999990z 1990-07T23:59:59.9999999999 1990-07T 1990-07Z
        T12:00 23:59 24:00 10:60 10:00:59. 10:00:60 10:00:.5 10:00:001 100:00
        10:00+12:59 10:00-12:59 10:00+13 10:00-12:60 10:00-00:30 10:00-0 10:00+007
        10:00+ A_ A__B _A A_1_B A-B";
    let words: Vec<&str> = WORDS.split_whitespace().collect();
    random.pick(&words).as_bytes().to_vec()
}

/// A label with a sequence of rows, or with what is only much like one: a
/// comma too few or too many, or no row where one must stand.
pub fn rows_label(random: &mut Random) -> Vec<u8> {
    // `r` is a row and `s` a scalar; the marks are marks.
    #[rustfmt::skip]
    const SHAPES: &[&str] = &[
        "(r,r)", "(r,r,r)", "(rr)", "(r,rr)", "(,r)", "(r,,r)", "(r,)", "(r,r,)", "(r,s)",
        "(r,{})", "(r,{s})", "(r,())", "(r,(r))", "(r,(s,r))", "((r))", "((s,r))", "(rs)",
        "(r{})", "(s,r)", "(sr)", "(r,", "(r,r,", "(r", "(r,r",
    ];
    let shape = random.pick(SHAPES);
    let size = random.below(60);
    let mut maker = Maker::new(random);
    maker.statements(size);
    maker.assignment(|maker| maker.shaped(shape));
    match shape.ends_with(')') || maker.random.one_in(2) {
        true => maker.ended(),
        false => maker.broken_off(),
    }
}

/// A good label of reals, by themselves and in sequences, rows and sets.
pub fn reals_label(random: &mut Random) -> Vec<u8> {
    let count = 1 + random.below(5);
    let mut maker = Maker::new(random);
    for _ in 0..count {
        maker.assignment(|maker| maker.grouped(Maker::bordering_number));
    }
    maker.ended()
}

/// A label of dates and times, by themselves and in sequences, rows and sets.
/// Two in three have a last one that is refused.
pub fn dates_label(random: &mut Random) -> Vec<u8> {
    let count = 1 + random.below(5);
    let mut maker = Maker::new(random);
    for _ in 0..count {
        maker.assignment(|maker| maker.grouped(Maker::moment));
    }
    if !maker.random.one_in(3) {
        maker.assignment(Maker::refused_moment);
    }
    maker.ended()
}

/// Elements, gaps and faulty bytes in a row, without regard for grammar.
pub fn strung_elements(random: &mut Random) -> Vec<u8> {
    let mut label = Vec::new();
    for _ in 0..random.below(14) {
        label.extend(random_element(random));
        label.extend_from_slice(random.pick(&[b" ", b" ", b" ", b"\n", b""]));
    }
    label.extend_from_slice(random.pick(&[&b"END"[..], b" END", b"END;", b""]));
    label
}

/// One element of any kind, or the beginning of something that is none.
fn random_element(random: &mut Random) -> Vec<u8> {
    #[rustfmt::skip]
    const ELEMENTS: &[&[u8]] = &[
        b"=", b"=", b"=", b",", b"*", b"/", b"^", b"<", b">", b"(", b")", b"{", b"}",
        b"**", b"A=1", b"^B=", b"C", b"OBJECT=A", b"GROUP=B", b"END_OBJECT",
        b"END_GROUP=B", b"END_OBJECT=", b"object", b"Begin_Object", b"BEGIN_GROUP",
        b"END", b"end", b"\"t\"", b"\"", b"'", b"''", b"'s'", b"/* c */\n", b"/*",
        b"/*/", b"/**/ rest \xe9", b"***", b"//*x*/\n", b"<KM>", b"<KM**2>", b"(1)",
        b"),(", b")(", b"{}", b"\"\xe9", b"'\t'", b"/*\x80*/", b"&",
    ];
    match random.below(5) {
        0 => limit_word(random),
        1 => Maker::new(random).only(Maker::scalar),
        _ => random.pick(ELEMENTS).to_vec(),
    }
}

/// Makes a good label element by element.
struct Maker<'r> {
    random: &'r mut Random,
    out: Vec<u8>,
    /// Closing words and names of the open blocks, innermost last.
    open: Vec<(&'static str, String)>,
    /// How often a gap is more than it must be: once in so many.
    odd_gaps: usize,
}

impl<'r> Maker<'r> {
    fn new(random: &'r mut Random) -> Maker<'r> {
        let odd_gaps = random.pick(&[2, 5, 20, 1000]);
        Maker {
            random,
            out: Vec::new(),
            open: Vec::new(),
            odd_gaps,
        }
    }

    /// What one step puts, by itself.
    fn only(mut self, step: fn(&mut Self)) -> Vec<u8> {
        step(&mut self);
        self.out
    }

    /// A whole label with about `size` bytes of statements.
    fn label(mut self, size: usize) -> Vec<u8> {
        self.statements(size);
        self.ended()
    }

    fn statements(&mut self, size: usize) {
        while self.out.len() < size {
            self.statement();
        }
    }

    /// The label so far with all blocks closed and END.
    fn ended(mut self) -> Vec<u8> {
        while !self.open.is_empty() {
            self.closing();
        }
        let end = self.random.pick(&["END", "END", "end", "eNd"]);
        self.put(end);
        self.after_end();
        self.out
    }

    /// The label so far, and at most a gap.
    fn broken_off(mut self) -> Vec<u8> {
        self.gap(b"");
        self.out
    }

    /// END is set off; what follows then is free.
    fn after_end(&mut self) {
        let rest = self.random.pick(&[
            &b""[..],
            b"",
            b"\r\n",
            b"\n",
            b" ",
            b"\tEND;",
            b"\x0b\xff\xfe\0",
            b"\x0c\"",
        ]);
        self.out.extend_from_slice(rest);
    }

    /// Puts an element after a gap.
    fn put(&mut self, element: &str) {
        self.gap(element.as_bytes());
        self.out.extend_from_slice(element.as_bytes());
    }

    fn gap(&mut self, next: &[u8]) {
        let in_word = |byte: &u8| byte.is_ascii_alphanumeric() || b"_+-.:#".contains(byte);
        let must = self.out.last().is_some_and(in_word) && next.first().is_some_and(in_word);
        if !self.random.one_in(self.odd_gaps) {
            if must || self.random.one_in(2) {
                self.out.push(b' ');
            }
            return;
        }
        if must {
            self.out.push(self.random.pick(b" \t\r\n\x0b\x0c"));
        }
        for _ in 0..self.random.below(3) {
            self.odd_gap();
        }
    }

    fn odd_gap(&mut self) {
        match self.random.below(4) {
            0 => self.comment(),
            1 => self.out.extend_from_slice(b"\r\n"),
            2 => self.out.extend_from_slice(b"    "),
            _ => self.out.push(self.random.pick(b" \t\r\n\x0b\x0c")),
        }
    }

    fn comment(&mut self) {
        #[rustfmt::skip]
        const BODIES: &[&[u8]] = &[
            b"", b" rig 4 ", b"*", b"***", b"/*", b"END", b" ' \" ", b"\0\x7f\t", b"* /",
            b"&;", b",", b"),(",
        ];
        #[rustfmt::skip]
        const RESTS: &[&[u8]] = &[
            b"", b"", b" ignored", b" END", b"*/", b"/* open", b"\xe9\xff\0", b" \" '",
            b" ,", b")",
        ];
        self.out.extend_from_slice(b"/*");
        self.out.extend_from_slice(self.random.pick(BODIES));
        self.out.extend_from_slice(b"*/");
        self.out.extend_from_slice(self.random.pick(RESTS));
        self.out.push(self.random.pick(b"\r\n\x0b\x0c"));
    }

    fn statement(&mut self) {
        match self.random.below(10) {
            0 if self.open.len() < 80 => self.opening(),
            1 if !self.open.is_empty() => self.closing(),
            2 => {
                self.put("^");
                self.assignment(Self::value);
            }
            _ => self.assignment(Self::value),
        }
    }

    fn opening(&mut self) {
        let words = self.random.pick(&[
            ("OBJECT", "END_OBJECT"),
            ("Object", "end_object"),
            ("GROUP", "END_GROUP"),
            ("group", "End_Group"),
        ]);
        let name = self.name();
        self.opening_of(words, name);
    }

    /// A block of this name, with its opening and closing words.
    fn opening_of(&mut self, (word, closing): (&'static str, &'static str), name: String) {
        self.put(word);
        self.put("=");
        self.put(&name);
        self.open.push((closing, name));
    }

    fn closing(&mut self) {
        let Some((word, name)) = self.open.pop() else {
            return;
        };
        self.put(word);
        if self.random.one_in(2) {
            let name = match self.random.below(3) {
                0 => name.to_ascii_uppercase(),
                1 => name.to_ascii_lowercase(),
                _ => name,
            };
            self.put("=");
            self.put(&name);
        }
    }

    fn assignment(&mut self, value: impl Fn(&mut Self)) {
        let name = self.name();
        self.put(&name);
        self.put("=");
        value(self);
    }

    fn name(&mut self) -> String {
        #[rustfmt::skip]
        const NAMES: &[&str] = &[
            "A", "b", "NAME", "Start_Time", "x1", "BEGIN_GROUP", "E5", "T", "END_1", "ENDS",
            "RECORD_BYTES", "USA_NASA_PDS_1_0007",
        ];
        match self.random.below(12) {
            0 => "N".repeat(60),
            1 => "n_".repeat(self.random.below(29)) + "n",
            _ => self.random.pick(NAMES).to_string(),
        }
    }

    fn value(&mut self) {
        match self.random.below(12) {
            0 | 1 => self.row(),
            2 => self.members("(", 1, Self::row, ")"),
            3 => self.members("{", 0, Self::scalar, "}"),
            _ => self.scalar(),
        }
    }

    /// A sequence of scalars, by itself or in a sequence of rows.
    fn row(&mut self) {
        self.members("(", 1, Self::scalar, ")");
    }

    fn members(&mut self, opening: &str, least: usize, member: impl Fn(&mut Self), closing: &str) {
        self.put(opening);
        for at in 0..least + self.random.below(4) {
            if at > 0 {
                self.put(",");
            }
            member(self);
        }
        self.put(closing);
    }

    /// Such values, one by itself or some in a sequence, in rows or a set.
    fn grouped(&mut self, value: fn(&mut Self)) {
        let row = |maker: &mut Self| maker.members("(", 1, value, ")");
        match self.random.below(5) {
            0 => row(self),
            1 => self.members("(", 1, row, ")"),
            2 => self.members("{", 1, value, "}"),
            _ => value(self),
        }
    }

    fn bordering_number(&mut self) {
        self.number(Self::bordering_word);
    }

    /// A value, or part of one, in the signs of `rows_label`.
    fn shaped(&mut self, shape: &str) {
        for sign in shape.chars() {
            match sign {
                'r' => self.row(),
                's' => self.scalar(),
                mark => self.put(mark.encode_utf8(&mut [0; 4])),
            }
        }
    }

    fn scalar(&mut self) {
        match self.random.below(7) {
            0 => self.number(Self::integer),
            1 => self.number(Self::based_integer),
            2 => self.number(Self::real),
            3 => self.moment(),
            4 => self.text(),
            5 => self.symbol(),
            _ => {
                let name = self.name();
                self.put(&name);
            }
        }
    }

    fn number(&mut self, word: fn(&mut Self) -> String) {
        let word = word(self);
        self.put(&word);
        if self.random.one_in(3) {
            self.units();
        }
    }

    fn sign(&mut self) -> &'static str {
        self.random.pick(&["", "", "+", "-"])
    }

    /// So many digits, any of which may be 0.
    fn digits(&mut self, count: usize) -> String {
        (0..count)
            .map(|_| char::from(b'0' + self.random.below(10) as u8))
            .collect()
    }

    fn integer(&mut self) -> String {
        let sign = self.sign();
        let digits = match self.random.below(10) {
            0 => i64::MAX.to_string(),
            1 => "0".repeat(1 + self.random.below(40)),
            _ => {
                let count = 1 + self.random.below(18);
                self.digits(count)
            }
        };
        format!("{sign}{digits}")
    }

    fn based_integer(&mut self) -> String {
        let radix = 2 + self.random.below(15);
        let sign = self.sign();
        // Fifteen digits below 16 stay within 60 bits.
        let digits: String = (0..1 + self.random.below(15))
            .map(|_| b"0123456789abcdef"[self.random.below(radix)])
            .map(char::from)
            .collect();
        let digits = match self.random.one_in(2) {
            true => digits.to_ascii_uppercase(),
            false => digits,
        };
        let zeros = "0".repeat(self.random.below(3));
        format!("{zeros}{radix}#{sign}{zeros}{digits}#")
    }

    fn real(&mut self) -> String {
        if self.random.one_in(6) {
            return self.bordering_word();
        }
        let sign = self.sign();
        let whole_count = self.random.below(10);
        let whole = self.digits(whole_count);
        let fraction_count = match whole_count {
            0 => 1 + self.random.below(8),
            _ => self.random.below(9),
        };
        let fraction = self.digits(fraction_count);
        let period = match whole.is_empty() || !fraction.is_empty() || self.random.one_in(2) {
            true => ".",
            false => "",
        };
        let exponent = match period.is_empty() || self.random.one_in(2) {
            true => self.exponent(),
            false => String::new(),
        };
        format!("{sign}{whole}{period}{fraction}{exponent}")
    }

    fn exponent(&mut self) -> String {
        let mark = self.random.pick(&["E", "e"]);
        let sign = self.sign();
        let size = match self.random.one_in(4) {
            // Far enough from 999 for the digits to be moved either way.
            true => self.random.below(950),
            false => self.random.below(12),
        };
        format!("{mark}{sign}{size}")
    }

    /// One of the reals at a border, in any of its spellings.
    fn bordering_word(&mut self) -> String {
        let Real { number, power } = bordering_real(self.random);
        let sign = match number {
            ..=-1 => "-",
            0 => self.sign(),
            _ => self.random.pick(&["", "", "+"]),
        };
        let power = i64::from(power);
        let exponent = match power.abs() < 40 && self.random.one_in(2) {
            true => 0,
            false => power - 20 + self.random.below(41) as i64,
        };
        let zeros = "0".repeat((power - exponent).max(0) as usize);
        let places = (exponent - power).max(0) as usize;
        let least = places + self.random.below(3);
        let digits = format!("{}{zeros}", number.unsigned_abs());
        let digits = format!("{digits:0>least$}");
        let (whole, fraction) = digits.split_at(digits.len() - places);
        let zeros = "0".repeat(self.random.below(3));
        let ending = match exponent == 0 && self.random.one_in(2) {
            true => String::new(),
            false => format!("{}{exponent}", self.random.pick(&["E", "e"])),
        };
        // With no digits behind the period an exponent needs none.
        let point = match fraction.is_empty() && zeros.is_empty() && !ending.is_empty() {
            true => self.random.pick(&["", "."]),
            false => ".",
        };
        format!("{sign}{whole}{point}{fraction}{zeros}{ending}")
    }

    fn units(&mut self) {
        self.put("<");
        for at in 0..1 + self.random.below(3) {
            if at > 0 {
                let operator = self.random.pick(&["*", "/"]);
                self.put(operator);
            }
            let name = self.random.pick(&["KM", "sec", "BYTES", "m_2"]);
            self.put(name);
            if self.random.one_in(3) {
                self.put("**");
                let exponent = self
                    .random
                    .pick(&["2", "-2", "+1", "1", "0", "99", "-99", "007"]);
                self.put(exponent);
            }
        }
        self.put(">");
    }

    fn moment(&mut self) {
        let word = match self.random.below(3) {
            0 => self.date(),
            1 => self.time(),
            _ => {
                let mark = self.random.pick(&["T", "t"]);
                format!("{}{mark}{}", self.date(), self.time())
            }
        };
        self.put(&word);
    }

    fn date(&mut self) -> String {
        let date = some_day(self.random);
        self.spelled(date)
    }

    fn spelled(&mut self, date: (u16, u8, u8)) -> String {
        let (year, of_year) = (date.0, day_of_year(date));
        match self.random.below(4) {
            0 => format!("{year:04}-{of_year:03}"),
            1 => format!("{year:04}-{of_year}"),
            _ => by_month_and_day(self.random, date),
        }
    }

    fn time(&mut self) -> String {
        let (hour, minute, second) = (
            self.random.below(24),
            self.random.below(60),
            self.random.below(60),
        );
        let seconds = match self.random.below(4) {
            0 => String::new(),
            1 => format!(":{second}"),
            2 => format!(":{second:02}"),
            _ => {
                let count = self.random.below(10);
                let zeros = self.random.pick(&["", "0", "000"]);
                format!(":{second:02}.{}{zeros}", self.digits(count))
            }
        };
        let zone = self.zone();
        match self.random.one_in(3) {
            true => format!("{hour}:{minute}{seconds}{zone}"),
            false => format!("{hour:02}:{minute:02}{seconds}{zone}"),
        }
    }

    /// A date that the calendar has not, or a time with too many decimals.
    fn refused_moment(&mut self) {
        let word = match self.random.below(18) {
            0 => {
                let count = self.random.pick(&[9, 9, 10, 14]);
                let zeros = self.random.pick(&["", "0", "000"]);
                format!("10:00:59.{}1{zeros}{}", self.digits(count), self.zone())
            }
            1..=6 => format!("{}T{}", refused_date(self.random), self.time()),
            _ => refused_date(self.random),
        };
        self.put(&word);
    }

    fn zone(&mut self) -> String {
        let sign = self.random.pick(&["+", "-"]);
        let (hour, minute) = match self.random.one_in(4) {
            true => (0, 0),
            false => (self.random.below(13), self.random.below(60)),
        };
        match self.random.below(6) {
            0 => "Z".to_string(),
            1 => "z".to_string(),
            2 => format!("{sign}{hour}"),
            3 => format!("{sign}{hour:02}:{minute:02}"),
            4 => format!("{sign}{hour}:{minute}"),
            _ => String::new(),
        }
    }

    fn text(&mut self) {
        #[rustfmt::skip]
        const PIECES: &[&str] = &[
            "word", " ", "  ", "-", "\n", "\r\n", "\t", "\x0c", "\x0b", "\0", "\x7f",
            "\x1b", "-\n", "- \n", "'", "/* */", "\\n", "\n  ", "END",
        ];
        let text: String = (0..self.random.below(8))
            .map(|_| self.random.pick(PIECES))
            .collect();
        self.put(&format!("\"{text}\""));
    }

    fn symbol(&mut self) {
        #[rustfmt::skip]
        const SYMBOLS: &[&str] = &[
            "END", "object", "IO", "voyager_2", "U13-A4B", "FILTER+_7", " ", "\"", "~",
            "A__B", "/*", "*/", "9", "a;b",
        ];
        let symbol = match self.random.below(6) {
            0 => "s".repeat(1 + self.random.below(255)),
            _ => self.random.pick(SYMBOLS).to_string(),
        };
        self.put(&format!("'{symbol}'"));
    }
}

/// A year, a leap year as often as not.
fn some_year(random: &mut Random) -> u16 {
    let year = match random.below(8) {
        0 => random.pick(&[1, 4, 9996, 9999]),
        1 => 100 + 100 * random.below(99),
        2 | 3 => 1 + random.below(9999),
        _ => 1970 + random.below(60),
    };
    match year > 4 && random.one_in(3) {
        true => (year / 4 * 4) as u16,
        false => year as u16,
    }
}

/// A year, a month and a day of it, mostly its first or its last.
fn some_day(random: &mut Random) -> (u16, u8, u8) {
    let year = some_year(random);
    let month = 1 + random.below(12) as u8;
    let last = days_in_month(year, month);
    let between = 2 + random.below(usize::from(last) - 2) as u8;
    (year, month, random.pick(&[1, between, last]))
}

fn day_of_year((year, month, day): (u16, u8, u8)) -> u16 {
    let before = (1..month).map(|month| u16::from(days_in_month(year, month)));
    before.sum::<u16>() + u16::from(day)
}

fn by_month_and_day(random: &mut Random, (year, month, day): (u16, u8, u8)) -> String {
    match random.one_in(2) {
        true => format!("{year:04}-{month:02}-{day:02}"),
        false => format!("{year:04}-{month}-{day}"),
    }
}

/// A year, a month and a day that the calendar has not, for one fault: mostly
/// the day after its month's last. A word has digits enough for it.
fn no_day(random: &mut Random) -> (u16, u8, u8) {
    let (year, month, day) = some_day(random);
    let last = days_in_month(year, month);
    match random.below(30) {
        0 => (0, month, day),
        1 => (year, 0, day),
        2 => (year, 13, day),
        3 => (year, 14 + random.below(86) as u8, day),
        4 => (year, month, 0),
        5 => (year, month, last + 2 + random.below(60) as u8),
        _ => (year, month, last + 1),
    }
}

/// A date with one fault.
fn refused_date(random: &mut Random) -> String {
    let year = some_year(random);
    let days = if is_leap(year) { 366 } else { 365 };
    match random.below(36) {
        0 | 1 => format!("{year:04}-{}", days + 1),
        2 | 3 => format!("{year:04}-{}", days + 2 + random.below(998 - days)),
        4 => format!("{year:04}-{}", random.pick(&["0", "00", "000"])),
        5 => format!("0000-{:03}", 1 + random.below(365)),
        _ => {
            let date = no_day(random);
            by_month_and_day(random, date)
        }
    }
}

/// A real, mostly at a border of the forms that reals are written in (02 §4) or
/// near one.
fn bordering_real(random: &mut Random) -> Real {
    if random.one_in(20) {
        return Real {
            number: 0,
            power: 0,
        };
    }
    let length = match random.one_in(2) {
        true => random.pick(&[1, 2, 17, 18]),
        false => 1 + random.below(18),
    };
    let (digits, near) = (length as i16, random.below(4) as i16);
    let power = match random.below(8) {
        0 => random.pick(&[-999, -998, 998, 999]),
        1 => near - 20,
        2 => near - 2,
        // About as many places as digits.
        3 => near - 2 - digits,
        // Number and zeros of 17 to 20 digits.
        4 | 5 => near + 17 - digits,
        6 => random.below(19) as i16 - 18,
        _ => random.below(1_999) as i16 - 999,
    };
    Real {
        number: number_of(random, length),
        power,
    }
}

/// A number of so many digits, either side of zero, without a trailing zero.
fn number_of(random: &mut Random, length: usize) -> i64 {
    let inner = random.pick(&[Some(0), Some(9), None, None, None]);
    let number = (0..length).fold(0, |number, at| {
        let digit = inner.unwrap_or_else(|| random.below(10) as i64);
        let least = i64::from(at == 0 || at + 1 == length);
        number * 10 + digit.max(least)
    });
    match random.one_in(2) {
        true => number,
        false => -number,
    }
}

/// A real that no proper table has, with one fault.
fn improper_real(random: &mut Random) -> Real {
    let length = 2 + random.below(17);
    let number = number_of(random, length);
    let power = random.below(1_999) as i16 - 999;
    let (number, power) = match random.below(6) {
        0 => (number / 10 * 10, power),
        1 => (0, random.pick(&[-999, -1, 1, 18, 999])),
        2 => (nineteen_digits(random), power),
        3 => (number, 1_000),
        4 => (number, -1_000),
        _ => (number, random.pick(&[1_001, -1_001, i16::MAX, i16::MIN])),
    };
    Real { number, power }
}

fn nineteen_digits(random: &mut Random) -> i64 {
    const LEAST: i64 = 1_000_000_000_000_000_001;
    let any = LEAST + 10 * random.below(800_000_000) as i64 * 1_000_000_000;
    random.pick(&[LEAST, -LEAST, any, -any, i64::MAX, i64::MIN])
}

/// A label, a table over it, and what to ask of them.
#[derive(Debug, Clone)]
pub struct TableCase {
    pub label: Vec<u8>,
    pub table: Vec<u8>,
    /// Mostly the offset of a row.
    pub row: usize,
    pub name: Vec<u8>,
}

/// A table of a good label, often damaged, or one of reals, dates or zones, with
/// a row and a name to ask for.
pub fn table_case(random: &mut Random) -> TableCase {
    match random.below(20) {
        0 | 1 => return table_of_values(random, put_real),
        2..=4 => return table_of_values(random, put_date),
        5..=8 => return table_of_values(random, put_zone),
        _ => {}
    }
    let mut label = good_label(random);
    // A longer label would only ever give the one answer.
    if label.len() > LONGEST_LABEL && !random.one_in(10) {
        label.truncate(LONGEST_LABEL);
    }
    let mut table = table_of(&label);
    if random.one_in(2) {
        for _ in 0..1 + random.below(2) {
            damage_table(random, &mut table, label.len());
        }
    }
    if random.one_in(20) {
        damage(random, &mut label);
    }
    asked_of(random, label, table)
}

/// The table over its label, with a row and a name to ask for.
fn asked_of(random: &mut Random, label: Vec<u8>, table: Vec<u8>) -> TableCase {
    let row = some_row(random, &table);
    let name = some_name(random, &label, &table);
    TableCase {
        label,
        table,
        row,
        name,
    }
}

/// Puts the row of a value, which may be one that no proper table has.
type PutValue = fn(&mut Random, &mut Vec<u8>);

/// A table of such values over a label that has names for them and no more.
fn table_of_values(random: &mut Random, value: PutValue) -> TableCase {
    let label = b"Name".to_vec();
    let mut table = Vec::new();
    for _ in 0..1 + random.below(4) {
        table.extend([1, 0, 0, 0, 1 + random.below(4) as u8]);
        match random.below(6) {
            0 => put_values(random, &mut table, &[20], value, &[21]),
            1 => {
                put_values(random, &mut table, &[20, 20], value, &[21]);
                put_values(random, &mut table, &[20], value, &[21, 21]);
            }
            2 => put_values(random, &mut table, &[22], value, &[23]),
            _ => value(random, &mut table),
        }
    }
    table.extend([99, 0, 0]);
    asked_of(random, label, table)
}

fn put_values(
    random: &mut Random,
    table: &mut Vec<u8>,
    opening: &[u8],
    value: PutValue,
    closing: &[u8],
) {
    table.extend_from_slice(opening);
    for _ in 0..1 + random.below(3) {
        value(random, table);
    }
    table.extend_from_slice(closing);
}

/// The row of a real, at times with one of a unit after it.
fn put_real(random: &mut Random, table: &mut Vec<u8>) {
    let Real { number, power } = match random.one_in(16) {
        true => improper_real(random),
        false => bordering_real(random),
    };
    table.push(11);
    table.extend(number.to_be_bytes());
    table.extend(power.to_be_bytes());
    if random.one_in(3) {
        table.extend([15, 0, 0, 1, 0, 2, random.pick(&[1, 2, 255])]);
    }
}

/// The row of a date, at times with a time.
fn put_date(random: &mut Random, table: &mut Vec<u8>) {
    let (year, month, day) = match random.below(64) {
        0 => (random.pick(&[10_000, 10_004, u16::MAX]), 12, 31),
        1..=10 => no_day(random),
        _ => some_day(random),
    };
    let (parts, time) = match random.one_in(3) {
        true => (3, [23, 59, 58, 0, 0, 0, 1, 255, 255, 2]),
        false => (1, [0; 10]),
    };
    table.extend([12, parts]);
    table.extend(year.to_be_bytes());
    table.extend([month, day]);
    table.extend(time);
}

/// The row of a time, at times with a date, or of a date alone; one in some has
/// a mark that no proper table has there (02 §6).
fn put_zone(random: &mut Random, table: &mut Vec<u8>) {
    let (parts, date, time) = match random.below(5) {
        0 => (1, [0x07, 0xC6, 6, 7], [0; 7]),
        1 | 2 => (2, [0; 4], [15, 24, 12, 0, 0, 0, 1]),
        _ => (3, [0x07, 0xC6, 6, 7], [15, 24, 12, 0, 0, 0, 1]),
    };
    let size = match parts == 1 || random.one_in(3) {
        true => 0,
        false => random.pick(&[1, 30, 255, 256, 720, 779]),
    };
    let offset: i16 = random.pick(&[size, -size]);
    let proper: &[u8] = match (parts, offset) {
        (1, _) => &[0],
        (_, 0) => &[0, 1, 2],
        _ => &[2],
    };
    let past = 4 + random.below(251) as u8;
    let mark = match random.one_in(5) {
        true => random.pick(&[0, 1, 2, 3, past, u8::MAX]),
        false => random.pick(proper),
    };
    table.extend([12, parts]);
    table.extend(date);
    table.extend(time);
    table.extend(offset.to_be_bytes());
    table.push(mark);
}

/// The table of a label, or the smallest proper one if it has none.
pub fn table_of(label: &[u8]) -> Vec<u8> {
    let mut table = vec![0; read(label, &mut []).length];
    match read(label, &mut table).code {
        0 => table,
        _ => vec![99, 0, 0],
    }
}

/// Kinds of rows, and those next to them that no row has.
#[rustfmt::skip]
const KINDS: [u8; 23] = [
    0, 1, 2, 3, 4, 5, 6, 7, 9, 10, 12, 14, 15, 16, 19, 20, 21, 22, 23, 24, 98, 99, 100,
];

fn damage_table(random: &mut Random, table: &mut Vec<u8>, label_length: usize) {
    let starts = row_starts(table);
    let Some(last) = starts.len().checked_sub(1) else {
        table.push(random.bits() as u8);
        return;
    };
    let which = random.below(starts.len());
    let start = starts[which];
    let end = if which == last {
        table.len()
    } else {
        starts[which + 1]
    };
    match random.below(9) {
        0 => table[start] = random.pick(&KINDS),
        1 | 2 => change_body(random, &mut table[start + 1..end]),
        3 => table.truncate(start + random.below(end - start + 1)),
        4 => drop(table.drain(start..end)),
        5 => {
            let row = table[start..end].to_vec();
            table.splice(start..start, row);
        }
        6 => move_span(random, &mut table[start..end], label_length),
        7 => {
            let row = table[start..end].to_vec();
            let there = starts[random.below(starts.len())];
            table.splice(there..there, row);
        }
        _ => {
            let row = random_row(random, label_length);
            table.splice(start..start, row);
        }
    }
}

fn change_body(random: &mut Random, body: &mut [u8]) {
    if body.is_empty() {
        return;
    }
    let at = random.below(body.len());
    body[at] = match random.below(4) {
        0 => body[at] ^ 1 << random.below(8),
        1 => body[at].wrapping_add(1),
        2 => random.pick(&[0, 1, 2, 3, 9, 10, 99, 100, 127, 128, 157, 255]),
        _ => random.bits() as u8,
    };
}

/// Moves the ends of a row's span by a little or a lot, if it has one.
fn move_span(random: &mut Random, row: &mut [u8], label_length: usize) {
    let span = match row {
        [1 | 2 | 3 | 5 | 13 | 14, span @ ..] => span,
        [15, _, span @ ..] => span,
        _ => return,
    };
    if span.len() < 4 {
        return;
    }
    let end = random.below(2) * 2;
    let old = u16::from_be_bytes([span[end], span[end + 1]]);
    let new = match random.below(5) {
        0 => old.wrapping_add(1),
        1 => old.wrapping_sub(1),
        2 => label_length as u16,
        3 => (label_length as u16).wrapping_add(1),
        _ => random.below(label_length + 1) as u16,
    };
    span[end..end + 2].copy_from_slice(&new.to_be_bytes());
}

/// A row that may be sound in itself but comes from nowhere.
fn random_row(random: &mut Random, label_length: usize) -> Vec<u8> {
    let kind = random.pick(&[1, 2, 3, 4, 5, 6, 10, 11, 12, 13, 14, 15, 20, 21, 22, 23, 99]);
    let mut row = vec![0; row_length(kind)];
    row[0] = kind;
    if random.one_in(2) {
        move_span(random, &mut row, label_length);
        change_body(random, &mut row[1..]);
    }
    row
}

fn row_length(kind: u8) -> usize {
    match kind {
        1..=3 | 5 | 13 | 14 => 5,
        10 => 9,
        11 => 11,
        12 => 16,
        15 => 7,
        99 => 3,
        _ => 1,
    }
}

/// Where rows begin, as far as the kinds are to be trusted.
fn row_starts(table: &[u8]) -> Vec<usize> {
    let mut starts = Vec::new();
    let mut at = 0;
    while at < table.len() {
        starts.push(at);
        at += row_length(table[at]);
    }
    starts
}

/// Any offset at times; mostly that of a row, and more often than not of one
/// that a lookup or a text reader may ask for.
fn some_row(random: &mut Random, table: &[u8]) -> usize {
    let starts = row_starts(table);
    let of_kinds = |kinds: &[u8]| -> Vec<usize> {
        let wanted = |&at: &usize| kinds.contains(&table[at]);
        starts.iter().copied().filter(wanted).collect()
    };
    let rows = match random.below(8) {
        0 => return random.below(table.len() + 3),
        1 => starts,
        2..=4 => of_kinds(&[13]),
        _ => of_kinds(&[1, 2, 3, 4, 5, 6, 99]),
    };
    match rows.is_empty() {
        true => 0,
        false => random.pick(&rows),
    }
}

/// Mostly a name that the table has, in either case.
fn some_name(random: &mut Random, label: &[u8], table: &[u8]) -> Vec<u8> {
    let names: Vec<&[u8]> = row_starts(table)
        .iter()
        .filter_map(|&at| match table[at..] {
            [1..=3, a, b, c, d, ..] => {
                let offset = |high, low| usize::from(u16::from_be_bytes([high, low]));
                label.get(offset(a, b)..offset(c, d))
            }
            _ => None,
        })
        .collect();
    if names.is_empty() || random.one_in(6) {
        return random
            .pick(&[&b"A"[..], b"", b"absent", b"A ", b"\xc1", b"END"])
            .to_vec();
    }
    let name = random.pick(&names);
    match random.below(3) {
        0 => name.to_ascii_lowercase(),
        1 => name.to_ascii_uppercase(),
        _ => name.to_vec(),
    }
}
