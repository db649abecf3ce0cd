//! `generate SEED` prints the input for a seed. `generate --count N [--from S]`
//! runs the inputs of N seeds, from S on, and prints what came up how often;
//! it fails if a label or number never came up.

use reference::generator::{generate, tally::Tally};
use std::io::{self, Write};
use std::process::ExitCode;

fn main() -> ExitCode {
    let arguments: Vec<String> = std::env::args().skip(1).collect();
    let arguments: Vec<&str> = arguments.iter().map(String::as_str).collect();
    match *arguments {
        ["--count", count] => with_numbers(count, "0", print_counts),
        ["--count", count, "--from", from] => with_numbers(count, from, print_counts),
        [seed] => with_numbers(seed, "0", |seed, _| print_input(seed)),
        _ => usage(),
    }
}

fn usage() -> ExitCode {
    eprintln!("usage: generate SEED | generate --count N [--from S]");
    ExitCode::from(2)
}

fn with_numbers(one: &str, two: &str, act: impl Fn(u64, u64) -> ExitCode) -> ExitCode {
    match (one.parse(), two.parse()) {
        (Ok(one), Ok(two)) => act(one, two),
        _ => usage(),
    }
}

fn print_input(seed: u64) -> ExitCode {
    match io::stdout().write_all(&generate(seed)) {
        Ok(()) => ExitCode::SUCCESS,
        Err(_) => ExitCode::FAILURE,
    }
}

fn print_counts(count: u64, from: u64) -> ExitCode {
    let mut tally = Tally::default();
    for seed in from..from + count {
        tally.add(&reference::outcome(&generate(seed)));
    }
    println!("seeds: {count} from {from}");
    print!("{}", tally.print());
    let missing = tally.missing();
    if missing.is_empty() {
        return ExitCode::SUCCESS;
    }
    println!("never: {missing:?}");
    ExitCode::FAILURE
}
