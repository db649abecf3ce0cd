//! `independence N [BENCH] [--from S] [--without-premise]` makes N pairs of
//! pipeline inputs with the same side-1 table and the same side-1 steps in the
//! same order. Side 2's table, its steps and where they stand among side 1's
//! differ. Both inputs run, on the program BENCH or on the library, and side
//! 1's answers must be the same.
//!
//! What side 1's kind-1 steps ask to enter keeps the premise: every name in it
//! is public or from outside, or an `out1` label before it in the same run
//! holds it. With `--without-premise` names may also be side 2's, and pairs do
//! differ.

use reference::generator::pairs::{keeps_premise, own_steps, Pair};
use reference::lines::Script;
use reference::program::{outside_names, printed_answers};
use std::collections::BTreeSet;
use std::process::ExitCode;

/// What was asked for on the command line.
struct Options {
    count: u64,
    from: u64,
    bench: Option<String>,
    premise: bool,
}

/// What came of a pair.
enum Verdict {
    /// Side 1's answers are the same; so many of them, and whether an `in1`
    /// line among them has a name from outside.
    Same(usize, bool),
    /// They differ, or the program did not run.
    Different(String),
}

fn main() -> ExitCode {
    let Some(options) = read_options() else {
        eprintln!("usage: independence N [BENCH] [--from S] [--without-premise]");
        return ExitCode::from(2);
    };
    let (mut passed, mut failed, mut answers, mut outside) = (0, 0, 0, 0);
    let mut seed = options.from;
    while passed + failed < options.count {
        if let Some(pair) = Pair::make(seed, options.premise) {
            match compare(&pair, &options) {
                Verdict::Same(count, brought) => {
                    (passed, answers) = (passed + 1, answers + count);
                    outside += u64::from(brought);
                }
                Verdict::Different(how) => {
                    failed += 1;
                    println!("seed {seed}: {how}");
                }
            }
        }
        seed += 1;
    }
    println!(
        "seeds {} to {seed}, {answers} answers of side 1",
        options.from
    );
    println!("{outside} pairs with a name from outside in an in1 line");
    println!("{passed} passed, {failed} failed");
    if failed == 0 {
        ExitCode::SUCCESS
    } else {
        ExitCode::FAILURE
    }
}

fn read_options() -> Option<Options> {
    let mut arguments = std::env::args().skip(1);
    let mut options = Options {
        count: arguments.next()?.parse().ok()?,
        from: 0,
        bench: None,
        premise: true,
    };
    while let Some(argument) = arguments.next() {
        match argument.as_str() {
            "--from" => options.from = arguments.next()?.parse().ok()?,
            "--without-premise" => options.premise = false,
            path => options.bench = Some(path.to_string()),
        }
    }
    Some(options)
}

/// Runs both scripts and compares side 1's answers.
fn compare(pair: &Pair, options: &Options) -> Verdict {
    let answers = |script: &Script| side_1_answers(script, options);
    let (one, other) = match (answers(&pair.one), answers(&pair.other)) {
        (Ok(one), Ok(other)) => (one, other),
        (Err(error), _) | (_, Err(error)) => return Verdict::Different(error),
    };
    if options.premise {
        for (script, answers) in [(&pair.one, &one), (&pair.other, &other)] {
            if !run_keeps_premise(script, answers) {
                return Verdict::Different(String::from("the premise does not hold"));
            }
        }
    }
    match (0..one.len().max(other.len())).find(|&at| one.get(at) != other.get(at)) {
        None => Verdict::Same(one.len(), one.iter().any(|answer| brings_outside(answer))),
        Some(at) => Verdict::Different(format!(
            "answer {at} of side 1 is {:?} and {:?}",
            one.get(at),
            other.get(at)
        )),
    }
}

/// True for an `in1` line with a name from outside.
fn brings_outside(answer: &str) -> bool {
    outside_names(answer, "in1").is_some_and(|names| !names.is_empty())
}

/// The answers to the steps of side 1, without their indices.
fn side_1_answers(script: &Script, options: &Options) -> Result<Vec<String>, String> {
    let answers = printed_answers(script, options.bench.as_deref())?;
    let both = script.steps.iter().zip(answers);
    let own = both.filter(|(step, _)| step.side == 1);
    Ok(own.map(|(_, answer)| answer).collect())
}

/// True if in this run every name that side 1's enters ask for is public or
/// from outside, or stands in an `out1` label before.
fn run_keeps_premise(script: &Script, answers: &[String]) -> bool {
    let mut left = BTreeSet::new();
    for (step, answer) in own_steps(script).iter().zip(answers) {
        if step.kind == 1 && !keeps_premise(&step.value, &left) {
            return false;
        }
        if let Some(words) = answer.strip_prefix("out1\t") {
            left.extend(
                words
                    .split('\t')
                    .filter_map(|word| word.parse::<u32>().ok()),
            );
        }
    }
    true
}
