//! Histories of takings (02 §1): a book is handed from one call to the next, and
//! its counters are held against the model's and against the calls themselves.

use crate::books;
use odl::raw;
use odl_model::book::sum;
use odl_model::random::Random;
use odl_model::sessions;
use std::collections::BTreeMap;

/// A history from an empty book, or from one that is soon full: how often each
/// code was answered, or what differs.
pub fn check(random: &mut Random) -> Result<BTreeMap<u8, u64>, String> {
    let first = match random.one_in(3) {
        true => books::spread(random, 999_980, 999_999),
        false => [0; 8],
    };
    let (mut library, mut model, mut counted) = (raw::Book { counts: first }, first, first);
    let mut codes = BTreeMap::new();
    for _ in 0..random.below(60) {
        let label = books::label(random);
        let room = books::room(random, odl_model::read(&label, &mut []).length);
        let ours = raw::take(&mut library, &label, &mut vec![0; room]);
        let theirs = odl_model::take(&mut model, &label, &mut vec![0; room]);
        let same =
            (ours.code, ours.place, ours.length) == (theirs.code, theirs.place, theirs.length);
        if let (0, Some(counter)) = (ours.code, sessions::counter(&label)) {
            counted[counter] += 1;
        }
        let books = [library.counts, model, counted];
        if !same || books != [counted; 3] {
            let shown = label.escape_ascii();
            return Err(format!(
                "the histories differ: library {ours:?}, model {theirs:?}\n\
                 books of library, model and calls {books:?}\nroom {room}, label \"{shown}\""
            ));
        }
        *codes.entry(ours.code).or_default() += 1;
    }
    let taken = codes.get(&0).copied().unwrap_or(0);
    match sum(&library.counts) == sum(&first) + taken {
        true => Ok(codes),
        false => Err(format!("{taken} labels taken: {first:?} to {library:?}")),
    }
}
