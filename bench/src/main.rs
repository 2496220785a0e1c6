//! Times reading, taking and writing by the library and by the model in one run:
//! `cargo run --release`. The two take turns.

mod labels;

use std::hint::black_box;
use std::time::{Duration, Instant};

/// About 1, 4, 16 and 64 KB.
const SIZES: [usize; 4] = [1_024, 4_096, 16_384, 65_000];

/// How often the two take turns, and how long one turn is. Of many short turns
/// the best one is least disturbed by what else the machine does.
const TURNS: usize = 100;
const TURN: Duration = Duration::from_millis(1);

fn main() {
    println!("Speed is the library's, as a multiple of the model's; above 1 it is faster.");
    println!();
    println!("| call | label | bytes | library ns/byte | model ns/byte | speed |");
    println!("|---|---|---|---|---|---|");
    for (name, label) in labels::KINDS {
        for size in SIZES {
            time_reading(name, &label(size));
        }
    }
    for (name, label) in labels::KINDS {
        for size in SIZES {
            time_taking(name, &label(size));
        }
    }
    for (name, label) in labels::KINDS {
        for size in SIZES {
            time_writing(name, label, size);
        }
    }
}

fn time_reading(name: &str, label: &[u8]) {
    // Five times the label's length is always enough.
    let mut room = vec![0; 5 * label.len()];
    let mut other_room = room.clone();
    let timed = take_turns(
        || odl::raw::read(black_box(label), &mut room).code,
        || odl_model::read(black_box(label), &mut other_room).code,
    );
    report("read", name, label.len(), timed);
}

/// Each call takes the label into an empty book.
fn time_taking(name: &str, label: &[u8]) {
    let mut room = vec![0; 5 * label.len()];
    let mut other_room = room.clone();
    let timed = take_turns(
        || {
            odl::raw::take(
                &mut odl::raw::Book { counts: [0; 8] },
                black_box(label),
                &mut room,
            )
            .code
        },
        || odl_model::take(&mut [0; 8], black_box(label), &mut other_room).code,
    );
    report("take", name, label.len(), timed);
}

/// Writes what was read from a label of about this size, or of the next
/// smaller one whose written form is not too long. Bytes are written ones.
fn time_writing(name: &str, label: fn(usize) -> Vec<u8>, mut size: usize) {
    let mut room = vec![0; odl::LONGEST_LABEL];
    let (label, table, written) = loop {
        let label = label(size);
        let table = odl_model::random::table_of(&label);
        let answer = odl_model::write(&label, &table, &mut room);
        if answer.code == 0 {
            break (label, table, answer.length);
        }
        size -= size / 50;
    };
    let mut other_room = room.clone();
    let timed = take_turns(
        || odl::raw::write(black_box(&label), black_box(&table), &mut room).code,
        || odl_model::write(black_box(&label), black_box(&table), &mut other_room).code,
    );
    report("write", name, written, timed);
}

/// The time of one call of each, in nanoseconds.
struct Timed {
    library: f64,
    model: f64,
}

fn take_turns(mut library: impl FnMut() -> u8, mut model: impl FnMut() -> u8) -> Timed {
    assert_eq!(
        (library(), model()),
        (0, 0),
        "a label of the bench is refused"
    );
    let library_calls = calls_in_a_turn(&mut library);
    let model_calls = calls_in_a_turn(&mut model);
    let mut best = Timed {
        library: f64::INFINITY,
        model: f64::INFINITY,
    };
    for _ in 0..TURNS {
        best.library = best.library.min(time(&mut library, library_calls));
        best.model = best.model.min(time(&mut model, model_calls));
    }
    best
}

fn calls_in_a_turn(call: &mut impl FnMut() -> u8) -> u32 {
    let start = Instant::now();
    let mut calls = 0;
    while start.elapsed() < TURN {
        black_box(call());
        calls += 1;
    }
    calls
}

fn time(call: &mut impl FnMut() -> u8, calls: u32) -> f64 {
    let start = Instant::now();
    for _ in 0..calls {
        black_box(call());
    }
    start.elapsed().as_nanos() as f64 / f64::from(calls)
}

fn report(call: &str, name: &str, bytes: usize, timed: Timed) {
    let per_byte = |time: f64| time / bytes as f64;
    println!(
        "| {call} | {name} | {bytes} | {:.2} | {:.2} | {:.2} |",
        per_byte(timed.library),
        per_byte(timed.model),
        timed.model / timed.library
    );
}
