//! The model on the command line; see README.md.

use odl_model::{random, read, relabel, LONGEST_LABEL};
use std::io::{self, Read, Write};
use std::process::ExitCode;

fn main() -> ExitCode {
    let arguments: Vec<String> = std::env::args().skip(1).collect();
    let arguments: Vec<&str> = arguments.iter().map(String::as_str).collect();
    let done = match arguments[..] {
        ["read"] => print_reading(),
        ["relabel"] => print_relabelled(),
        ["gen", seed, count, directory] => write_labels(seed, count, directory),
        _ => Err(io::Error::other(
            "usage: odl-model read | relabel | gen SEED COUNT DIR",
        )),
    };
    match done {
        Ok(()) => ExitCode::SUCCESS,
        Err(error) => {
            eprintln!("odl-model: {error}");
            ExitCode::FAILURE
        }
    }
}

/// Standard input, or as much of it as is needed to refuse it.
fn input() -> io::Result<Vec<u8>> {
    let mut label = Vec::new();
    io::stdin()
        .take(LONGEST_LABEL as u64 + 1)
        .read_to_end(&mut label)?;
    Ok(label)
}

fn print_reading() -> io::Result<()> {
    let label = input()?;
    // Without room, the reading tells how much it needs.
    let mut table = vec![0; read(&label, &mut []).length];
    let answer = read(&label, &mut table);
    let hex: String = table.iter().map(|byte| format!("{byte:02x}")).collect();
    let lines = format!(
        "{} {} {}\n{hex}\n",
        answer.code, answer.place, answer.length
    );
    io::stdout().write_all(lines.as_bytes())
}

fn print_relabelled() -> io::Result<()> {
    io::stdout().write_all(&relabel(&input()?))
}

fn write_labels(seed: &str, count: &str, directory: &str) -> io::Result<()> {
    let mut source = random::Random::new(seed.parse().map_err(io::Error::other)?);
    let count: usize = count.parse().map_err(io::Error::other)?;
    std::fs::create_dir_all(directory)?;
    for number in 0..count {
        let file = std::path::Path::new(directory).join(format!("{number:06}.lbl"));
        std::fs::write(file, random::label(&mut source))?;
    }
    Ok(())
}
