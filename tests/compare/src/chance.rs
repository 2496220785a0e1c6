//! Random cases, and runs of many of them.

use crate::books::{self, Taking};
use crate::{history, Answer, Call, Case};
use odl_model::random::{self, Random, TableCase};
use odl_model::{dates, reals, rows, sessions, zones};
use std::collections::BTreeMap;
use std::ops::RangeInclusive;
use std::sync::atomic::{AtomicBool, AtomicU64, Ordering};
use std::time::Instant;

/// What a run came upon, and how often.
#[derive(Default)]
pub struct Tally {
    /// Each code of each call. A name that is there counts as 0, none as 15.
    pub codes: BTreeMap<(Call, u8), u64>,
    /// Each case of the rule for rows, of labels that were read and of tables
    /// that were written.
    pub rows: BTreeMap<&'static str, u64>,
    /// Each case of written reals, of tables that were handed to the writer and
    /// of labels that were read and then written, and each case of a real that
    /// the writer refused a table for.
    pub reals: BTreeMap<(Call, &'static str), u64>,
    /// Each case of the calendar and of decimals, of labels and of tables: those
    /// whose table was given or that were written, and those that were refused
    /// for it.
    pub dates: BTreeMap<(Call, dates::Case), u64>,
    /// Each case of zones, of labels that were read, and each of their marks, of
    /// tables that were handed to the writer, of labels that were read and then
    /// written, and of tables that the writer refused for it. What was written
    /// was also read again, and each table also written with other marks: see
    /// `Case::check`.
    pub zones: BTreeMap<(Call, zones::Case), u64>,
    /// Each case of the session book, of labels that were taken.
    pub sessions: BTreeMap<sessions::Case, u64>,
    /// Each case of books and rooms, of all takings.
    pub takings: BTreeMap<Taking, u64>,
    /// Each code of the takings of histories.
    pub histories: BTreeMap<u8, u64>,
    /// Tables that the writer refused at a row of no kind, by the run of
    /// `NO_KINDS` that it is of.
    pub no_kinds: [u64; NO_KINDS.len()],
}

/// The case of a table that is written with a comma between rows.
pub const ROWS_WRITTEN: &str = "rows written";

/// Runs of kinds that no row has.
pub const NO_KINDS: [RangeInclusive<u8>; 5] = [0..=0, 7..=9, 16..=19, 24..=98, 100..=255];

impl Tally {
    fn count(&mut self, case: &Case, answer: Answer) {
        let code = match (case.call, answer) {
            (Call::Name, (_, 0, 0)) => 15,
            (_, (code, ..)) => code,
        };
        *self.codes.entry((case.call, code)).or_default() += 1;
        for name in row_cases(case, code) {
            *self.rows.entry(name).or_default() += 1;
        }
        for name in real_cases(case, code) {
            *self.reals.entry((case.call, name)).or_default() += 1;
        }
        for date in date_cases(case, code) {
            *self.dates.entry((case.call, date)).or_default() += 1;
        }
        for zone in zone_cases(case, code) {
            *self.zones.entry((case.call, zone)).or_default() += 1;
        }
        for session in session_cases(case, code) {
            *self.sessions.entry(session).or_default() += 1;
        }
        for taking in books::cases(case, answer) {
            *self.takings.entry(taking).or_default() += 1;
        }
        if let Some(run) = run_of_no_kinds(case, answer) {
            self.no_kinds[run] += 1;
        }
    }

    fn add(&mut self, other: Tally) {
        add(&mut self.codes, other.codes);
        add(&mut self.rows, other.rows);
        add(&mut self.reals, other.reals);
        add(&mut self.dates, other.dates);
        add(&mut self.zones, other.zones);
        add(&mut self.sessions, other.sessions);
        add(&mut self.takings, other.takings);
        add(&mut self.histories, other.histories);
        for (sum, count) in self.no_kinds.iter_mut().zip(other.no_kinds) {
            *sum += count;
        }
    }
}

fn add<Key: Ord>(sums: &mut BTreeMap<Key, u64>, counts: BTreeMap<Key, u64>) {
    for (key, count) in counts {
        *sums.entry(key).or_default() += count;
    }
}

fn row_cases(case: &Case, code: u8) -> Vec<&'static str> {
    match case.call {
        Call::Read => rows::cases(&case.label),
        Call::Write if code == 0 && rows::follow_each_other(&case.label, &case.table) => {
            vec![ROWS_WRITTEN]
        }
        _ => Vec::new(),
    }
}

fn real_cases(case: &Case, code: u8) -> Vec<&'static str> {
    let label = &case.label;
    match (case.call, code) {
        (Call::Write, 0) => reals::cases(label, &case.table),
        (Call::Rewrite, 0) => reals::cases(label, &random::table_of(label)),
        (Call::Write, 12) => reals::improper_case(label, &case.table)
            .into_iter()
            .collect(),
        _ => Vec::new(),
    }
}

fn date_cases(case: &Case, code: u8) -> Vec<dates::Case> {
    match (case.call, code) {
        (Call::Read, 0 | 5) => dates::in_label(&case.label),
        (Call::Write, 0 | 12) => dates::in_table(&case.label, &case.table),
        _ => Vec::new(),
    }
}

fn zone_cases(case: &Case, code: u8) -> Vec<zones::Case> {
    let label = &case.label;
    match (case.call, code) {
        (Call::Read, 0) => zones::in_label(label),
        (Call::Write, 0 | 12) => zones::in_table(label, &case.table),
        (Call::Rewrite, 0) => zones::in_table(label, &random::table_of(label)),
        _ => Vec::new(),
    }
}

fn session_cases(case: &Case, code: u8) -> Vec<sessions::Case> {
    match (case.call, code) {
        (Call::Take, 0) => sessions::in_label(&case.label),
        _ => Vec::new(),
    }
}

fn run_of_no_kinds(case: &Case, (code, place, _): Answer) -> Option<usize> {
    let kind = case
        .table
        .get(place)
        .filter(|_| case.call == Call::Write && code == 12)?;
    NO_KINDS.iter().position(|run| run.contains(kind))
}

/// The numbers of a run that have a history beside their case: one in so many.
const HISTORIES: u64 = 500;

/// The history of this number in the run of this seed, if it has one: how often
/// each code was answered, or what differs.
pub fn check_history(seed: u64, number: u64) -> Result<BTreeMap<u8, u64>, String> {
    match number % HISTORIES {
        0 => history::check(&mut random_of(seed, !number)),
        _ => Ok(BTreeMap::new()),
    }
}

fn random_of(seed: u64, number: u64) -> Random {
    let mut random = Random::new(
        seed.wrapping_mul(0xD6E8_FEB8_6659_FD93)
            .wrapping_add(number),
    );
    // The first numbers of neighbouring seeds are still alike.
    for _ in 0..4 {
        random.bits();
    }
    random
}

/// The case of this number in the run of this seed.
pub fn case(seed: u64, number: u64) -> Case {
    let mut random = random_of(seed, number);
    let mut case = match random.below(30) {
        0..=8 => Case::read(&random::label(&mut random), 0),
        9 => at_the_written_limit(&mut random),
        10..=13 => over_table(&mut random, Call::Write),
        14..=16 => over_table(&mut random, Call::Text),
        17..=19 => over_table(&mut random, Call::Find),
        20 => over_table(&mut random, Call::Name),
        21..=27 => return books::taking(&mut random),
        _ => Case::over(Call::Rewrite, &rewritten_label(&mut random), &[]),
    };
    case.room = room(&mut random, case.room_needed());
    case
}

fn room(random: &mut Random, needed: usize) -> usize {
    match random.below(8) {
        0 => 0,
        1 => needed.saturating_sub(1),
        2 => random.below(needed),
        3 => needed,
        4 => needed + 1,
        _ => needed + random.below(100),
    }
}

/// A label of any sort, or one of reals, which may be canonical already.
fn rewritten_label(random: &mut Random) -> Vec<u8> {
    match random.below(6) {
        0 => random::reals_label(random),
        1 => odl_model::relabel(&random::reals_label(random)),
        _ => random::label(random),
    }
}

fn over_table(random: &mut Random, call: Call) -> Case {
    let TableCase {
        mut label,
        mut table,
        mut row,
        mut name,
    } = random::table_case(random);
    match random.below(150) {
        0 => row = repeated(random, &mut table, row),
        1 => label.resize(odl_model::LONGEST_LABEL + 1, b' '),
        2..=5 => table = bytes(random, 60),
        6 => table.clear(),
        7 => label.clear(),
        _ => {}
    }
    if random.one_in(12) {
        row = odd_row(random, row, table.len());
    }
    if random.one_in(6) {
        name = odd_name(random, name);
    }
    Case {
        name,
        row,
        ..Case::over(call, &label, &table)
    }
}

/// Repeats the rows of a table until it is longer than any label, and gives
/// the row's offset in one of the copies.
fn repeated(random: &mut Random, table: &mut Vec<u8>, row: usize) -> usize {
    const LAST_ROW: usize = 3;
    let Some(length) = table.len().checked_sub(LAST_ROW).filter(|&n| n > 0) else {
        return row;
    };
    let copies = 1 + (66_000 + random.below(30_000)) / length;
    let last = table.split_off(length);
    *table = table.repeat(copies);
    table.extend(last);
    row + length * random.below(copies)
}

fn odd_row(random: &mut Random, row: usize, table_length: usize) -> usize {
    match random.below(8) {
        0 => usize::MAX,
        1 => usize::MAX - random.below(table_length + 2),
        2 => row.wrapping_add(1 << 16),
        3 => row.wrapping_add(1 << 32),
        4 => row.wrapping_add(1 << 63),
        5 => table_length,
        6 => row + 1,
        _ => random.bits() as usize,
    }
}

fn odd_name(random: &mut Random, mut name: Vec<u8>) -> Vec<u8> {
    let at = random.below(name.len());
    match random.below(5) {
        0 => bytes(random, 80),
        1 => {
            name.push(random.bits() as u8);
            name
        }
        2 => {
            name.pop();
            name
        }
        // The bit that tells the cases of a letter, in any byte.
        3 if !name.is_empty() => {
            name[at] ^= 0x20;
            name
        }
        _ if !name.is_empty() => {
            name[at] ^= 1 << random.below(8);
            name
        }
        _ => name,
    }
}

fn bytes(random: &mut Random, bound: usize) -> Vec<u8> {
    (0..random.below(bound))
        .map(|_| random.bits() as u8)
        .collect()
}

/// A table of texts and then reals that comes to about 65,535 bytes when
/// written, or to so many more that it is too long within the reals.
fn at_the_written_limit(random: &mut Random) -> Case {
    const LINE: usize = "A = \"\"\r\n".len();
    let mut label = random::reals_label(random);
    let reals = random::table_of(&label);
    let long = 200 + random.below(4_000);
    let more = random.pick(&[5, 5, 5, 80]);
    let wanted = odl_model::LONGEST_LABEL - 2 + random.below(more);
    let rest = wanted - odl_model::write(&label, &reals, &mut []).length - LINE;
    let lines = rest / (long + LINE);
    let short = rest % (long + LINE);
    let name = label.len() as u16;
    label.push(b'A');
    label.resize(label.len() + long + LINE, b'x');
    let mut table = Vec::new();
    for length in std::iter::repeat_n(long, lines).chain([short]) {
        for (kind, start, end) in [
            (1, name, name + 1),
            (13, name + 1, name + 1 + length as u16),
        ] {
            table.push(kind);
            table.extend(start.to_be_bytes());
            table.extend(end.to_be_bytes());
        }
    }
    table.extend(reals);
    Case::over(Call::Write, &label, &table)
}

/// When a run ends.
#[derive(Debug, Clone, Copy)]
pub enum Until {
    Cases(u64),
    Time(Instant),
}

impl Until {
    fn reached(self, number: u64) -> bool {
        match self {
            Until::Cases(count) => number >= count,
            Until::Time(time) => Instant::now() >= time,
        }
    }
}

/// Runs the cases of a seed from number 0 on, on all processors, until the end
/// or the first difference.
pub fn run(seed: u64, until: Until) -> Result<Tally, String> {
    let next = AtomicU64::new(0);
    let failed = AtomicBool::new(false);
    let work = || {
        let mut tally = Tally::default();
        loop {
            let number = next.fetch_add(1, Ordering::Relaxed);
            if until.reached(number) || failed.load(Ordering::Relaxed) {
                return Ok(tally);
            }
            let case = case(seed, number);
            let checked = case.check();
            let checked = checked.and_then(|answer| Ok((answer, check_history(seed, number)?)));
            let (answer, codes) = checked.map_err(|difference| {
                failed.store(true, Ordering::Relaxed);
                format!("seed {seed}, case {number}: {difference}")
            })?;
            tally.count(&case, answer);
            add(&mut tally.histories, codes);
        }
    };
    let workers = std::thread::available_parallelism().map_or(1, usize::from);
    let tallies = std::thread::scope(|scope| {
        let started: Vec<_> = (0..workers).map(|_| scope.spawn(work)).collect();
        started
            .into_iter()
            .map(|worker| worker.join().unwrap_or_else(|_| Err(stopped(seed))))
            .collect::<Result<Vec<Tally>, String>>()
    })?;
    let mut whole = Tally::default();
    for tally in tallies {
        whole.add(tally);
    }
    Ok(whole)
}

fn stopped(seed: u64) -> String {
    format!("seed {seed}: a case stopped, see above")
}
