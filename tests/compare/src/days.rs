//! Days taken one by one: each is counted under its own weekday.

use odl::raw;
use odl_model::weekdays::{day_after, weekday, Date, FIRST, LAST};

/// Takes a label with this START_TIME by the library into an empty book: the
/// counter that is then 1, if all else is as it must be.
pub fn counter(word: &str) -> Option<usize> {
    const LENGTH: usize = 24;
    let label = format!("START_TIME={word} END");
    let mut book = raw::Book { counts: [0; 8] };
    let answer = raw::take(&mut book, label.as_bytes(), &mut [0; LENGTH]);
    let given = (answer.code, answer.place, answer.length);
    let counter = book.counts.iter().position(|&count| count == 1)?;
    let others = book.counts.iter().sum::<u32>() - 1;
    (given == (0, label.len(), LENGTH) && others == 0).then_some(counter)
}

/// Takes every day of every year, by day of year and by month and day: how many
/// takings that were, or the first that differs.
pub fn check_all() -> Result<u64, String> {
    let next = |&(date, of_year): &(Date, u16)| match date {
        LAST => None,
        (_, 12, 31) => Some((day_after(date), 1)),
        _ => Some((day_after(date), of_year + 1)),
    };
    let mut taken = 0;
    for (date, of_year) in std::iter::successors(Some((FIRST, 1)), next) {
        let (year, month, day) = date;
        let words = [
            format!("{year:04}-{month:02}-{day:02}"),
            format!("{year:04}-{of_year}"),
        ];
        for word in words {
            if counter(&word) != Some(weekday(date)) {
                return Err(format!(
                    "{word}: not counted under weekday {}",
                    weekday(date)
                ));
            }
            taken += 1;
        }
    }
    Ok(taken)
}
