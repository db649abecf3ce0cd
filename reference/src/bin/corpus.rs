//! `corpus N PATH` writes a corpus into a file (or into `corpus.txt` of a
//! directory): N runs that do not ask for the logging wrapper, the fixed ones
//! first, then generated ones; then a quarter as many of it. For each run
//! there is a line `run`, its index, the number of input bytes and the number
//! of output bytes; then the input, then the output, each followed by a newline
//! of its own. What is printed names the fixed runs and counts what came up.

use reference::generator::damage::fill;
use reference::generator::tally::Tally;
use reference::generator::{generate_logged, generate_unlogged};
use reference::lines::{read_script, BYTE_LIMIT};
use reference::steps::Label;
use reference::Outcome;
use std::collections::BTreeSet;
use std::io::{self, Write};
use std::path::PathBuf;
use std::process::ExitCode;

/// A generated run longer than this is only kept for something that no earlier
/// run had.
const LONG: usize = 12_000;
/// At least so many seeds are looked at.
const SEEDS: u64 = 1_000;

/// A fixed input: what it is, and its bytes.
type Fixed = (String, Vec<u8>);

/// A run of an input.
struct Run {
    input: Vec<u8>,
    outcome: Outcome,
    output: String,
}

fn main() -> ExitCode {
    let arguments: Vec<String> = std::env::args().skip(1).collect();
    let [count, path] = arguments.as_slice() else {
        return usage();
    };
    let Ok(count) = count.parse() else {
        return usage();
    };
    match write_corpus(count, PathBuf::from(path)) {
        Ok(report) => {
            println!("{report}");
            ExitCode::SUCCESS
        }
        Err(error) => {
            eprintln!("{error}");
            ExitCode::FAILURE
        }
    }
}

fn usage() -> ExitCode {
    eprintln!("usage: corpus N DIRECTORY-or-FILE");
    ExitCode::from(2)
}

impl Run {
    fn of(input: Vec<u8>) -> Run {
        let outcome = reference::outcome(&input);
        let output = reference::print(&outcome);
        Run {
            input,
            outcome,
            output,
        }
    }

    fn is_long(&self) -> bool {
        self.input.len() + self.output.len() > LONG
    }

    /// What the run shows: for each step its kind and answer, or the refusal
    /// of its tables, or what sort of line is at fault.
    fn shows(&self) -> BTreeSet<String> {
        match &self.outcome {
            Outcome::Line(fault) => BTreeSet::from([format!("line {}", fault.0.min(2))]),
            Outcome::Refused(refusal) => {
                BTreeSet::from([format!("load {} side {}", refusal.number, refusal.side)])
            }
            Outcome::Ran(answers) => {
                let steps = read_script(&self.input).map_or(vec![], |script| script.steps);
                let pairs = steps.iter().zip(answers);
                let show =
                    |(step, answer): (&reference::steps::Step, &reference::steps::Answer)| {
                        let number = answer.outcome.as_ref().map_or_else(|r| r.number(), |_| 0);
                        let logs = matches!(answer.outcome, Ok(Label::Log(_)));
                        let log = if logs { " log" } else { "" };
                        format!("kind {} answer {number}{log}", step.kind.min(9))
                    };
                pairs.map(show).collect()
            }
        }
    }
}

/// Of the runs that `generate` gives the first that have a new label or number, then those that
/// show something new, then the first short ones; in the order of their seeds.
/// What the runs before them have is not new, and no input comes twice.
fn choose(generate: fn(u64) -> Vec<u8>, count: usize, before: &[Run]) -> Vec<Run> {
    let mut tally = Tally::default();
    let mut shown = BTreeSet::new();
    let mut inputs = BTreeSet::new();
    for run in before {
        tally.add(&run.outcome);
        shown.extend(run.shows());
        inputs.insert(run.input.clone());
    }
    let mut ranked: Vec<(u32, u64, Run)> = Vec::new();
    for seed in 0..SEEDS.max(3 * count as u64) {
        let run = Run::of(generate(seed));
        if !inputs.insert(run.input.clone()) {
            continue;
        }
        let new_number = tally.add(&run.outcome);
        let shown_before = shown.len();
        shown.extend(run.shows());
        if new_number {
            ranked.push((0, seed, run));
        } else if shown.len() > shown_before {
            ranked.push((1, seed, run));
        } else if !run.is_long() {
            ranked.push((2, seed, run));
        }
    }
    ranked.sort_by_key(|(rank, seed, _)| (*rank, *seed));
    ranked.truncate(count);
    ranked.sort_by_key(|(_, seed, _)| *seed);
    ranked.into_iter().map(|(.., run)| run).collect()
}

/// Writes the corpus and says what is in it.
fn write_corpus(count: usize, mut path: PathBuf) -> io::Result<String> {
    if path.is_dir() {
        path.push("corpus.txt");
    }
    let mut report = String::new();
    let mut runs = part(fixed_inputs(), generate_unlogged, count, 0, &mut report);
    let logged = part(
        listings(LOGGED),
        generate_logged,
        count / 4,
        count,
        &mut report,
    );
    runs.extend(logged);
    let mut bytes = Vec::new();
    let mut tally = Tally::default();
    for (index, run) in runs.iter().enumerate() {
        tally.add(&run.outcome);
        let (input, output) = (run.input.len(), run.output.len());
        writeln!(bytes, "run {index} {input} {output}")?;
        bytes.extend_from_slice(&run.input);
        bytes.push(b'\n');
        bytes.extend_from_slice(run.output.as_bytes());
        bytes.push(b'\n');
    }
    std::fs::write(&path, &bytes)?;
    let missing = tally.missing();
    let totals = format!("{} runs, {} bytes", runs.len(), bytes.len());
    let counts = tally.print();
    Ok(format!("{report}{counts}{totals}, missing: {missing:?}"))
}

/// So many runs from an index on: the fixed inputs, which the report names, and
/// generated ones.
fn part(
    fixed: Vec<Fixed>,
    generate: fn(u64) -> Vec<u8>,
    count: usize,
    from: usize,
    report: &mut String,
) -> Vec<Run> {
    let mut runs = Vec::new();
    for (index, (name, input)) in (from..from + count).zip(fixed) {
        let run = Run::of(input);
        let first = run.output.lines().next().unwrap_or_default();
        report.push_str(&format!("run {index}: {name}: {first}\n"));
        runs.push(run);
    }
    runs.extend(choose(generate, count - runs.len(), &runs));
    runs
}

/// The fixed inputs of the filter and the pipeline.
fn fixed_inputs() -> Vec<Fixed> {
    [
        listings(TRIALS),
        long_trials(),
        listings(SOUND_LINES),
        listings(FAULTY_LINES),
        faulty_bytes(),
        line_limits(),
        listings(REFUSED_TABLES),
        listings(STEPS),
        too_many_and_too_long(),
        listings(FROM_OUTSIDE),
    ]
    .concat()
}

/// The bytes of a listing: ` | ` between lines, tabs for blanks, and a newline
/// after each line.
fn listing(text: &str) -> Vec<u8> {
    let lines = text.split(" | ");
    let text: String = lines.map(|line| line.replace(' ', "\t") + "\n").collect();
    text.into_bytes()
}

fn listings(named: &[(&str, &str)]) -> Vec<Fixed> {
    let fixed = |(name, text): &(&str, &str)| (name.to_string(), listing(text));
    named.iter().map(fixed).collect()
}

/// The trials of the scope paper that fit into a few lines.
const TRIALS: &[(&str, &str)] = &[
    (
        "trial A, listing A",
        "W 1 | N 1 6 0 1 0 1 | N 1 4 1 1 1 0 | V 1 10 | V 1 4000002 | V 1 10 | V 1 10 | \
         S 1 1 0 0 20 | S 2 1 0 0 | S 5 1 1 0 | S 3 1 1 0 | S 6 1 0 0 | S 7 1 0 0 | S 7 1 0 0",
    ),
    (
        "trial B, mid from side 2 arrives and does not pass",
        "W 2 | N 1 0 0 0 0 0 | N 2 4 2 1 0 0 | V 2 20 | S 3 2 0 0 | S 6 2 0 0 | S 7 2 0 0 | S 2 2 0 0",
    ),
    (
        "trial C, mid from side 1 is shelved and taken once",
        "W 2 | N 1 4 2 1 0 0 | N 2 0 0 0 0 0 | V 1 20 | S 8 2 0 0 | S 3 1 0 0 | S 6 1 0 0 | \
         S 8 2 0 0 | S 8 2 0 0 | S 2 2 0 0 | S 8 2 0 0",
    ),
    (
        "trial D, a pair pattern refuses a triple and takes a pair",
        "W 1 | N 1 5 0 1 0 1 | N 1 4 1 1 2 0 | V 1 4000002 | V 1 10 | V 1 11 | \
         S 1 1 0 0 4000003 20 21 22 | S 2 1 0 0 | S 5 1 1 0 | S 1 1 0 0 4000002 20 21 | \
         S 2 1 0 0 | S 5 1 2 0 | S 3 1 1 0 | S 6 1 0 0 | S 7 1 0 0",
    ),
    (
        "trial E, a name used as a channel takes no tuple",
        "W 1 | N 1 6 0 1 0 1 | N 1 4 10 0 1 0 | V 1 10 | V 1 20 | S 1 1 0 0 4000000 | \
         S 2 1 0 0 | S 5 1 1 0 | S 1 1 0 0 20 | S 2 1 0 0 | S 5 1 2 0",
    ),
    (
        "trial F, a copy of 8 words is too long and one of 7 is not",
        "W 1 | N 1 6 0 1 0 1 | N 1 4 1 1 1 0 | V 1 10 | V 1 4000002 | V 1 10 | V 1 10 | \
         S 1 1 0 0 4000007 20 21 22 23 24 25 26 | S 2 1 0 0 | S 5 1 1 0 | \
         S 1 1 0 0 4000006 20 21 22 23 24 25 | S 2 1 0 0 | S 5 1 2 0 | S 3 1 2 0 | \
         S 6 1 0 0 | S 7 1 0 0",
    ),
    (
        "trial H, a minted name enters after it left",
        "W 1 | N 1 3 10 1 0 0 | N 1 4 1 1 0 0 | V 1 10 | S 1 1 0 0 65536 | S 3 1 0 0 | \
         S 6 1 0 0 | S 1 1 0 0 65536 | S 7 1 0 0 | S 1 1 0 0 65536 | S 1 1 0 0 65537",
    ),
    (
        "trial I, a box sends to its parent",
        "W 1 | N 1 1 1 2 0 0 | N 1 2 7 3 0 0 | N 1 5 5 9 1 4 | N 1 4 5 1 0 0 | N 1 4 1 1 1 0 | \
         V 1 20 | V 1 10 | S 5 1 0 1 | S 3 1 0 0 | S 5 1 0 1 | S 3 1 0 0 | S 6 1 0 0 | S 7 1 0 0",
    ),
    (
        "8 bound names load",
        "W 1 | N 1 3 5 1 0 0 | N 1 3 6 2 0 0 | N 1 3 7 3 0 0 | N 1 3 8 4 0 0 | N 1 3 9 5 0 0 | \
         N 1 3 5 6 0 0 | N 1 3 6 7 0 0 | N 1 3 7 8 0 0 | N 1 4 1 1 0 0 | V 1 7 | \
         S 3 1 0 0 | S 6 1 0 0 | S 7 1 0 0",
    ),
    (
        "9 bound names do not",
        "W 1 | N 1 3 5 1 0 0 | N 1 3 6 2 0 0 | N 1 3 7 3 0 0 | N 1 3 8 4 0 0 | N 1 3 9 5 0 0 | \
         N 1 3 5 6 0 0 | N 1 3 6 7 0 0 | N 1 3 7 8 0 0 | N 1 3 8 9 0 0 | N 1 0 0 0 0 0",
    ),
];

/// The trials that repeat their lines.
fn long_trials() -> Vec<Fixed> {
    let enters = " | S 1 1 0 0 20".repeat(16);
    let round = |place: usize| {
        format!(
            " | S 1 1 0 0 20 | S 2 1 0 0 | S 5 1 1 0 | S 3 1 1 0 | S 8 2 {place} 0 | S 2 2 0 0 | S 5 2 1 0"
        )
    };
    let rounds: String = (0..33).map(round).collect();
    let enter = format!(" | S 1 1 0 0{} 20", " 4000001".repeat(15));
    let there_and_back = enter + " | S 2 1 0 0 | S 5 1 1 0 | S 3 1 1 0 | S 6 1 0 0 | S 7 1 0 0";
    let lines = [
        (
            "trial G, the 17th enter without a down and after one",
            format!("W 1 | N 1 0 0 0 0 0{enters} | S 1 1 0 0 21 | S 2 1 5 0 | S 1 1 0 0 21"),
        ),
        (
            "the 33rd mid up is refused though all are taken",
            format!(
                "W 2 | N 1 6 0 1 0 1 | N 1 4 2 1 0 0 | N 2 6 2 1 0 1 | N 2 0 0 0 0 0 | \
                 V 1 10 | V 2 10{rounds}"
            ),
        ),
        (
            "a value of 16 words in and out, 170 times",
            format!(
                "W 1 | N 1 6 0 1 0 1 | N 1 4 1 1 0 0 | V 1 10{}",
                there_and_back.repeat(170)
            ),
        ),
        ("255 nodes", nodes(255)),
        ("256 nodes", nodes(256)),
        ("257 nodes", nodes(257)),
    ];
    let fixed = |(name, text): (&str, String)| (name.to_string(), listing(&text));
    lines.into_iter().map(fixed).collect()
}

/// A listing of so many nodes: a chain of parallels with nil to the left, under
/// a box if the count is even.
fn nodes(count: usize) -> String {
    let mut text = String::from("W 1");
    let mut next = 0;
    if count.is_multiple_of(2) {
        text += " | N 1 2 7 1 0 0";
        next = 1;
    }
    while next + 2 < count {
        let (left, right) = (next + 1, next + 2);
        text += &format!(" | N 1 1 {left} {right} 0 0 | N 1 0 0 0 0 0");
        next += 2;
    }
    text + " | N 1 0 0 0 0 0"
}

/// Runs of the logging wrapper.
const LOGGED: &[(&str, &str)] = &[
    (
        "logged, listing A's handler: a copy before the down message, a copy behind the leaving one",
        "W 3 | N 1 6 0 1 0 1 | N 1 4 1 1 1 0 | V 1 10 | V 1 4000002 | V 1 10 | V 1 10 | \
         S 1 1 0 0 20 | S 2 1 0 0 | S 7 1 1 0 | S 7 1 0 0 | S 2 1 0 0 | S 5 1 1 0 | S 3 1 1 0 | \
         S 6 1 0 0 | S 7 1 0 0 | S 7 1 0 0 | S 7 1 0 0",
    ),
    (
        "logged, a minted name leaves in a copy and comes back",
        "W 3 | N 1 3 9 1 0 0 | N 1 4 1 1 0 0 | V 1 9 | S 3 1 0 0 | S 6 1 0 0 | S 1 1 0 0 65536 | \
         S 7 1 1 0 | S 1 1 0 0 65536 | S 7 1 0 0",
    ),
    (
        "logged, what comes up on log or mid does not pass",
        "W 3 | N 1 1 1 2 0 0 | N 1 4 3 1 0 0 | N 1 4 2 1 0 0 | V 1 20 | S 3 1 0 0 | S 3 1 0 0 | \
         S 6 1 0 0 | S 7 1 0 0 | S 6 1 1 0 | S 7 1 1 0",
    ),
    (
        "logged, the lobby full by copies at enter",
        "W 3 | N 1 0 0 0 0 0 | S 1 1 0 0 20 | S 1 1 0 0 20 | S 1 1 0 0 20 | S 1 1 0 0 20 | \
         S 1 1 0 0 20 | S 1 1 0 0 20 | S 1 1 0 0 20 | S 1 1 0 0 20 | S 1 1 0 0 20 | S 7 1 0 0 | \
         S 1 1 0 0 20 | S 7 1 1 0 | S 1 1 0 0 20",
    ),
    (
        "logged, the lobby full by a copy at pass",
        "W 3 | N 1 1 1 2 0 0 | N 1 4 1 1 0 0 | N 1 4 1 1 1 0 | V 1 20 | V 1 21 | S 3 1 0 0 | \
         S 3 1 0 0 | S 1 1 0 0 22 | S 1 1 0 0 22 | S 1 1 0 0 22 | S 1 1 0 0 22 | S 1 1 0 0 22 | \
         S 1 1 0 0 22 | S 1 1 0 0 22 | S 6 1 0 0 | S 7 1 0 0 | S 7 1 2 0 | S 6 1 0 0 | S 6 1 1 0 | \
         S 7 1 15 0 | S 7 1 0 0",
    ),
    ("logged, no side 2", "W 3 | N 1 0 0 0 0 0 | S 8 1 0 0 | S 8 2 0 0 | S 1 2 0 0 20"),
    ("logged, side 2's node", "W 3 | N 1 0 0 0 0 0 | N 2 0 0 0 0 0"),
    ("logged, side 2's pool word", "W 3 | N 1 0 0 0 0 0 | V 2 7"),
    ("logged, side 1 before side 2", "W 3 | N 1 9 9 9 9 9 | N 2 0 0 0 0 0"),
    ("wrapper 4", "W 4 | N 1 9 9 9 9 9"),
    (
        "logged, an outside name in both copies",
        "W 3 | N 1 6 0 1 0 1 | N 1 4 1 1 1 0 | V 1 10 | V 1 4000002 | V 1 10 | V 1 10 | \
         S 1 1 0 0 196863 | S 7 1 0 0 | S 2 1 0 0 | S 5 1 1 0 | S 3 1 1 0 | S 6 1 0 0 | S 7 1 1 0 | \
         S 7 1 0 0 | S 1 1 0 0 196863 | S 1 1 0 0 196864",
    ),
];

/// Lines that may look odd and are not at fault.
const SOUND_LINES: &[(&str, &str)] = &[
    ("no step", "W 1 | N 1 0 0 0 0 0"),
    ("no table line", "W 1"),
    ("a pool word and no node", "W 1 | V 1 7"),
    ("a step and no table line", "W 1 | S 1 1 0 0 20"),
    (
        "leading zeros",
        "W 0001 | N 001 00 0 0 000000000000000000000000000 0 | V 01 0007 | \
         S 00000000000000000001 01 00 0 4000002 00 0000000000000000000000000063",
    ),
    (
        "sides interleaved, side 2 first",
        "W 2 | N 2 4 1 1 0 0 | N 1 4 1 1 1 0 | V 1 7 | V 2 21 | V 1 20 | \
         S 3 1 0 0 | S 3 2 0 0 | S 6 2 0 0 | S 7 2 0 0 | S 6 1 0 0 | S 7 1 0 0",
    ),
    ("side 2's node under the filter", "W 1 | N 1 0 0 0 0 0 | N 2 0 0 0 0 0"),
    ("side 2's pool word under the filter", "W 1 | N 1 0 0 0 0 0 | V 2 7"),
    ("wrapper 0", "W 0 | N 1 0 0 0 0 0"),
    ("wrapper 3", "W 3 | N 1 9 9 9 9 9"),
    ("wrapper 4294967295", "W 4294967295"),
    (
        "4294967295 in every number of a step",
        "W 1 | N 1 0 0 0 0 0 | S 4294967295 1 0 0 | S 1 4294967295 0 0 20 | S 1 1 4294967295 0 20 | \
         S 1 1 0 4294967295 20 | S 1 1 0 0 4294967295 | S 04294967295 0 0 0",
    ),
    (
        "4294967295 in a node",
        "W 1 | N 1 4294967295 0 0 0 0",
    ),
    (
        "4294967295 in the pool",
        "W 1 | N 1 4 1 1 1 0 | V 1 4294967295 | V 1 20 | S 3 1 0 0",
    ),
    (
        "steps of sides that do not exist",
        "W 1 | N 1 0 0 0 0 0 | S 1 0 0 0 20 | S 1 2 0 0 20 | S 1 3 0 0 20 | S 8 2 0 0",
    ),
    (
        "no value word and 17 value words",
        "W 1 | N 1 0 0 0 0 0 | S 1 1 0 0 | \
         S 1 1 0 0 4000015 1 2 3 4 5 6 7 8 9 10 11 12 13 14 15 | \
         S 1 1 0 0 4000015 4000001 2 3 4 5 6 7 8 9 10 11 12 13 14 15 16 | \
         S 2 1 0 0 1 2 3 4 5 6 7 8 9 10 11 12 13 14 15 16 17",
    ),
];

/// Lines at fault.
const FAULTY_LINES: &[(&str, &str)] = &[
    ("W without a number", "W"),
    ("W with two numbers", "W 1 1 | N 1 0 0 0 0 0"),
    ("N first", "N 1 0 0 0 0 0"),
    ("V first", "V 1 7 | W 1"),
    ("S first", "S 1 1 0 0 20 | W 1"),
    ("a second W", "W 1 | W 1 | N 1 0 0 0 0 0"),
    ("a second W after N", "W 1 | N 1 0 0 0 0 0 | W 1"),
    ("a second W after S", "W 1 | N 1 0 0 0 0 0 | S 1 1 0 0 20 | W 1"),
    ("N after V", "W 1 | N 1 0 0 0 0 0 | V 1 7 | N 1 0 0 0 0 0"),
    ("N after S", "W 1 | S 1 1 0 0 20 | N 1 0 0 0 0 0"),
    ("V after S", "W 1 | N 1 0 0 0 0 0 | S 1 1 0 0 20 | V 1 7"),
    ("N of side 2 after V of side 1", "W 2 | N 1 0 0 0 0 0 | V 1 7 | N 2 0 0 0 0 0"),
    ("N without a number", "W 1 | N"),
    ("N with four words", "W 1 | N 1 0 0 0 0"),
    ("N with six words", "W 1 | N 1 0 0 0 0 0 0"),
    ("N of side 0", "W 1 | N 0 0 0 0 0 0"),
    ("N of side 3", "W 2 | N 1 0 0 0 0 0 | N 3 0 0 0 0 0"),
    ("V without a number", "W 1 | N 1 0 0 0 0 0 | V"),
    ("V without a word", "W 1 | N 1 0 0 0 0 0 | V 1"),
    ("V with two words", "W 1 | N 1 0 0 0 0 0 | V 1 7 7"),
    ("V of side 0", "W 1 | N 1 0 0 0 0 0 | V 0 7"),
    ("V of side 3", "W 1 | N 1 0 0 0 0 0 | V 3 7"),
    ("S without a number", "W 1 | N 1 0 0 0 0 0 | S"),
    ("S with three numbers", "W 1 | N 1 0 0 0 0 0 | S 1 1 0"),
    (
        "18 value words to enter",
        "W 1 | N 1 0 0 0 0 0 | S 1 1 0 0 20 | S 1 1 0 0 1 2 3 4 5 6 7 8 9 10 11 12 13 14 15 16 17 18",
    ),
    (
        "18 value words of another kind",
        "W 1 | N 1 0 0 0 0 0 | S 9 1 0 0 1 2 3 4 5 6 7 8 9 10 11 12 13 14 15 16 17 18",
    ),
    ("wrapper 4294967296", "W 4294967296"),
    ("4294967296 in a node", "W 1 | N 1 0 0 0 0 4294967296"),
    ("4294967296 as a side", "W 1 | N 4294967297 0 0 0 0 0"),
    ("4294967296 in the pool", "W 1 | N 1 0 0 0 0 0 | V 1 4294967296"),
    ("4294967296 as a kind", "W 1 | N 1 0 0 0 0 0 | S 4294967296 1 0 0"),
    ("4294967296 as a value word", "W 1 | N 1 0 0 0 0 0 | S 1 1 0 0 4294967296"),
    ("a number of 11 digits", "W 1 | N 1 0 0 0 0 0 | S 42949672950 1 0 0"),
    ("a number over 64 bits", "W 18446744073709551617 | N 1 0 0 0 0 0"),
    ("a doubled tab", "W  1 | N 1 0 0 0 0 0"),
    ("a doubled tab in a step", "W 1 | N 1 0 0 0 0 0 | S 1  1 0 0 20"),
    ("a tab at the end", "W 1 | N 1 0 0 0 0 0 | S 1 1 0 0 "),
    ("a tab at the start", " W 1 | N 1 0 0 0 0 0"),
    ("a minus sign", "W 1 | N 1 0 0 0 0 0 | S 1 1 0 0 -1"),
    ("a plus sign", "W 1 | N 1 0 0 0 0 0 | S 1 1 0 0 +1"),
    ("a hexadecimal number", "W 1 | N 1 0 0 0 0 0 | S 1 1 0 0 0x1"),
    ("a point in a number", "W 1 | N 1 0 0 0 0 0 | S 1 1 0 0 1.0"),
    ("a letter for a number", "W 1 | N 1 0 0 0 0 0 | S 1 1 0 0 a"),
    ("the byte before 0", "W 1 | N 1 0 0 0 0 0 | S 1 1 0 0 1/"),
    ("the byte after 9", "W 1 | N 1 0 0 0 0 0 | S 1 1 0 0 1:"),
    ("a small w", "w 1 | N 1 0 0 0 0 0"),
    ("a small n", "W 1 | n 1 0 0 0 0 0"),
    ("a small v", "W 1 | N 1 0 0 0 0 0 | v 1 7"),
    ("a small s", "W 1 | N 1 0 0 0 0 0 | s 1 1 0 0 20"),
    ("a letter twice in its field", "WW 1 | N 1 0 0 0 0 0"),
    ("a digit in the letter's field", "W1 | N 1 0 0 0 0 0"),
    ("an unknown letter", "W 1 | N 1 0 0 0 0 0 | X 1"),
    ("a bad last line hides a wrapper", "W 3 | X"),
    ("a bad last line hides a table", "W 1 | N 1 9 0 0 0 0 | S 1"),
    ("the first of several bad lines", "W 1 | N 1 0 0 0 0 0 | N 1 | V 1 | S | X"),
    ("several faults in one line", "W 1 | N 1 0 0 0 0 0 | S 1  x 4294967296 -1"),
];

/// Inputs that differ from a sound one by a byte, a newline or a line.
fn faulty_bytes() -> Vec<Fixed> {
    let nil = "W\t1\nN\t1\t0\t0\t0\t0\t0\n";
    let step = "S\t1\t1\t0\t0\t20";
    let text = |name: &str, text: String| (name.to_string(), text.into_bytes());
    let mut fixed = vec![
        text("empty input", String::new()),
        text("no newline after W", String::from("W\t1")),
        text(
            "no newline after N",
            String::from("W\t1\nN\t1\t0\t0\t0\t0\t0"),
        ),
        text("no newline after S", format!("{nil}{step}")),
        text(
            "no newline and an earlier bad line",
            String::from("W\t1\nN\t1\nN"),
        ),
        text("a lone newline", String::from("\n")),
        text("an empty line first", format!("\n{nil}")),
        text("an empty line between", format!("{nil}\n{step}\n")),
        text("an empty line last", format!("{nil}{step}\n\n")),
        text("blanks for tabs", nil.replace('\t', " ")),
        text(
            "a blank after a letter",
            format!("{nil}S \t1\t1\t0\t0\t20\n"),
        ),
        text(
            "a blank before a number",
            format!("{nil}S\t 1\t1\t0\t0\t20\n"),
        ),
        text("a blank after a number", format!("{nil}{step} \n")),
        text("a carriage return after W", format!("W\t1\r\n{step}\n")),
        text("a carriage return after S", format!("{nil}{step}\r\n")),
        text("a carriage return for a newline", format!("{nil}{step}\r")),
        text("a mark of the byte order", format!("\u{feff}{nil}")),
    ];
    for byte in [0, 11, 12, 127, 128, 178, 255] {
        let bytes = [nil.as_bytes(), step.as_bytes(), &[byte, b'\n']].concat();
        fixed.push((format!("byte {byte} in a number"), bytes));
    }
    fixed.push((
        String::from("byte 0 for a letter"),
        [nil.as_bytes(), b"\0\t1\t1\t0\t0\n"].concat(),
    ));
    fixed.push((
        String::from("byte 215 for a letter"),
        [b"\xd7", &nil.as_bytes()[1..]].concat(),
    ));
    fixed
}

/// As many lines and bytes as may be, and one more.
fn line_limits() -> Vec<Fixed> {
    let nil = "W 2 | N 1 0 0 0 0 0 | N 2 0 0 0 0 0";
    let nodes = |side: u32, count: usize| format!(" | N {side} 0 0 0 0 0").repeat(count);
    let words = |side: u32, count: usize| format!(" | V {side} 7").repeat(count);
    let mut fixed = Vec::new();
    let mut add = |name: String, text: String| fixed.push((name, listing(&text)));
    for count in [257, 258] {
        add(
            format!("{count} N lines of side 1"),
            format!("W 2{}", nodes(1, count)),
        );
        let text = format!("W 2{}{}", nodes(1, 1), nodes(2, count));
        add(format!("{count} N lines of side 2"), text);
    }
    let text = format!("{nil}{}{}", words(1, 1_024), words(2, 1_024));
    add(String::from("1024 V lines of both sides"), text);
    for count in [1_025, 1_026] {
        for side in [1, 2] {
            let text = format!("{nil}{}", words(side, count));
            add(format!("{count} V lines of side {side}"), text);
        }
    }
    for count in [1_024, 1_025] {
        let text = nil.to_string() + &" | S 6 1 0 0".repeat(count);
        add(format!("{count} S lines"), text);
    }
    let long_step = " | S 1 1 0 0".to_string() + &" 20".repeat(17);
    let full = listing(&format!("{nil}{}", long_step.repeat(1_024)));
    let name = "65536 bytes, 1024 steps of 17 value words";
    fixed.push((name.to_string(), fill(full, BYTE_LIMIT)));
    let lines = listing("S 6 1 0 0").into_iter().cycle();
    let too_much = listing("X").into_iter().chain(lines);
    let name = "65537 bytes, the first line bad";
    fixed.push((name.to_string(), too_much.take(BYTE_LIMIT + 1).collect()));
    fixed
}

/// Tables that load refuses, or just may not, and which number goes first.
const REFUSED_TABLES: &[(&str, &str)] = &[
    ("the pipeline without side 2", "W 2 | N 1 0 0 0 0 0"),
    ("the pipeline without side 1", "W 2 | N 2 0 0 0 0 0"),
    ("kind 7", "W 1 | N 1 7 0 0 0 0"),
    ("an unused field of nil", "W 1 | N 1 0 0 0 0 1"),
    ("an unused field of a parallel", "W 1 | N 1 1 1 2 0 1 | N 1 0 0 0 0 0 | N 1 0 0 0 0 0"),
    ("an unused field of a box", "W 1 | N 1 2 7 1 1 0 | N 1 0 0 0 0 0"),
    ("an unused field of an output", "W 1 | N 1 4 1 1 0 1 | V 1 20"),
    ("a child past the table", "W 1 | N 1 3 5 2 0 0 | N 1 0 0 0 0 0"),
    ("a node that is its own child", "W 1 | N 1 3 5 1 0 0 | N 1 3 5 1 0 0"),
    ("a child 0", "W 1 | N 1 3 5 1 0 0 | N 1 3 5 0 0 0"),
    ("a node that is no child", "W 1 | N 1 0 0 0 0 0 | N 1 0 0 0 0 0"),
    ("a child twice of one node", "W 1 | N 1 1 1 1 0 0 | N 1 0 0 0 0 0"),
    (
        "a child of two nodes",
        "W 1 | N 1 1 1 2 0 0 | N 1 3 5 3 0 0 | N 1 3 5 3 0 0 | N 1 0 0 0 0 0",
    ),
    (
        "a bad child field counts its child",
        "W 1 | N 1 1 1 2 0 0 | N 1 0 0 0 0 0 | N 1 3 5 1 0 0",
    ),
    (
        "a bad child field that alone names its child",
        "W 1 | N 1 3 5 2 0 0 | N 1 0 0 0 0 0 | N 1 3 5 1 0 0",
    ),
    ("names of 63 and a tag of 65", "W 1 | N 1 2 63 1 0 0 | N 1 4 63 65 0 0 | V 1 63 | S 4 1 0 1"),
    ("a box name of 64", "W 1 | N 1 2 64 1 0 0 | N 1 0 0 0 0 0"),
    ("a new name of 64", "W 1 | N 1 3 64 1 0 0 | N 1 0 0 0 0 0"),
    ("a channel of 64", "W 1 | N 1 4 64 1 0 0 | V 1 20"),
    ("a tag of 66", "W 2 | N 1 0 0 0 0 0 | N 2 5 0 66 0 1 | N 2 0 0 0 0 0 | V 2 10"),
    ("no pool for a value", "W 1 | N 1 4 1 1 0 0"),
    ("a value that ends past the pool", "W 1 | N 1 4 1 1 0 0 | V 1 4000002 | V 1 20"),
    ("a place past the pool", "W 1 | N 1 4 1 1 2 0 | V 1 20 | V 1 20"),
    ("the wildcard in a value", "W 1 | N 1 4 1 1 0 0 | V 1 4999999"),
    ("the wildcard in a pattern", "W 1 | N 1 5 0 1 0 1 | N 1 0 0 0 0 0 | V 1 4999999"),
    ("a minted name in a value", "W 1 | N 1 4 1 1 0 0 | V 1 65536"),
    ("a tuple of 16", "W 1 | N 1 4 1 1 0 0 | V 1 4000016"),
    (
        "a name twice in a pattern",
        "W 1 | N 1 5 0 1 0 1 | N 1 0 0 0 0 0 | V 1 4000002 | V 1 10 | V 1 10",
    ),
    (
        "a value of 17 words",
        "W 1 | N 1 4 1 1 0 0 | V 1 4000015 | V 1 4000001 | V 1 1 | V 1 2 | V 1 3 | V 1 4 | V 1 5 | \
         V 1 6 | V 1 7 | V 1 8 | V 1 9 | V 1 10 | V 1 11 | V 1 12 | V 1 13 | V 1 14 | V 1 15",
    ),
    (
        "a pattern of 9 names",
        "W 1 | N 1 5 0 1 0 1 | N 1 0 0 0 0 0 | V 1 4000009 | V 1 10 | V 1 11 | V 1 12 | V 1 13 | \
         V 1 14 | V 1 15 | V 1 16 | V 1 17 | V 1 18",
    ),
    (
        "15 boxes at the start",
        "W 1 | N 1 2 5 1 0 0 | N 1 2 5 2 0 0 | N 1 2 5 3 0 0 | N 1 2 5 4 0 0 | N 1 2 5 5 0 0 | \
         N 1 2 5 6 0 0 | N 1 2 5 7 0 0 | N 1 2 5 8 0 0 | N 1 2 5 9 0 0 | N 1 2 5 10 0 0 | \
         N 1 2 5 11 0 0 | N 1 2 5 12 0 0 | N 1 2 5 13 0 0 | N 1 2 5 14 0 0 | N 1 2 5 15 0 0 | \
         N 1 0 0 0 0 0",
    ),
    (
        "16 boxes at the start, and nothing on side 2",
        "W 2 | N 1 2 5 1 0 0 | N 1 2 5 2 0 0 | N 1 2 5 3 0 0 | N 1 2 5 4 0 0 | N 1 2 5 5 0 0 | \
         N 1 2 5 6 0 0 | N 1 2 5 7 0 0 | N 1 2 5 8 0 0 | N 1 2 5 9 0 0 | N 1 2 5 10 0 0 | \
         N 1 2 5 11 0 0 | N 1 2 5 12 0 0 | N 1 2 5 13 0 0 | N 1 2 5 14 0 0 | N 1 2 5 15 0 0 | \
         N 1 2 5 16 0 0 | N 1 0 0 0 0 0",
    ),
    ("2 at a higher node before 3", "W 1 | N 1 3 5 7 0 0 | N 1 9 0 0 0 0"),
    ("3 at a higher node before 4", "W 1 | N 1 3 64 1 0 0 | N 1 3 5 7 0 0"),
    (
        "4 at a higher node before 5",
        "W 1 | N 1 1 1 2 0 0 | N 1 4 0 0 9 0 | N 1 4 64 0 0 0 | V 1 10",
    ),
    (
        "5 on side 1 before 2 on side 2",
        "W 2 | N 1 4 1 1 0 0 | N 2 7 0 0 0 0",
    ),
];

/// Steps that are easily answered in another way.
const STEPS: &[(&str, &str)] = &[
    (
        "a refusal does not end the run",
        "W 1 | N 1 0 0 0 0 0 | S 9 1 0 0 | S 1 1 0 0 20 | S 7 1 0 0 | S 2 1 0 0",
    ),
    (
        "each side has its own mint count",
        "W 2 | N 1 1 1 2 0 0 | N 1 3 10 3 0 0 | N 1 3 10 4 0 0 | N 1 4 1 1 0 0 | N 1 4 1 1 0 0 | \
         N 2 3 10 1 0 0 | N 2 4 1 1 0 0 | V 1 10 | V 2 10 | S 3 1 1 0 | S 6 1 0 0 | S 7 1 0 0 | \
         S 3 1 0 0 | S 6 1 0 0 | S 7 1 0 0 | S 3 2 0 0 | S 6 2 0 0 | S 7 2 0 0 | S 1 1 0 0 131072",
    ),
    (
        "15 deep in the body",
        "W 1 | N 1 6 0 1 0 1 | N 1 5 5 0 1 2 | N 1 2 7 3 0 0 | N 1 3 12 4 0 0 | N 1 4 10 0 1 0 | \
         V 1 10 | V 1 11 | S 1 1 0 0 4000000 | S 2 1 0 0 | S 5 1 1 0 | S 1 1 0 0 20 | S 2 1 0 0 | \
         S 5 1 2 0",
    ),
    (
        "an inner binder hides the name from 15",
        "W 1 | N 1 6 0 1 0 1 | N 1 3 10 2 0 0 | N 1 4 10 1 0 0 | V 1 10 | S 1 1 0 0 4000000 | \
         S 2 1 0 0 | S 5 1 1 0 | S 3 1 1 0 | S 6 1 0 0",
    ),
    (
        "a waiting input with a hidden tuple",
        "W 1 | N 1 6 0 1 0 1 | N 1 5 0 1 0 2 | N 1 4 10 0 0 0 | V 1 10 | S 1 1 0 0 4000000 | \
         S 2 1 0 0 | S 5 1 1 0 | S 1 1 0 0 4000000 | S 2 1 0 0 | S 5 1 2 1 | S 1 1 0 0 20 | \
         S 2 1 0 0 | S 5 1 3 1",
    ),
    (
        "descend on any channel",
        "W 1 | N 1 3 9 1 0 0 | N 1 1 2 3 0 0 | N 1 4 9 9 0 0 | N 1 2 7 4 0 0 | N 1 0 0 0 0 0 | \
         V 1 20 | S 4 1 0 2 | S 4 1 0 0 | S 4 1 0 1 | S 4 1 0 1",
    ),
    (
        "a name that side 1 minted leaves by side 2",
        "W 2 | N 1 3 10 1 0 0 | N 1 4 2 1 0 0 | N 2 5 2 1 0 1 | N 2 4 1 1 0 0 | V 1 10 | V 2 10 | \
         S 3 1 0 0 | S 8 2 0 0 | S 2 2 0 0 | S 5 2 1 0 | S 1 1 0 0 65536 | S 3 2 0 0 | \
         S 6 2 0 0 | S 7 2 0 0 | S 1 1 0 0 65536",
    ),
    (
        "mid under the filter",
        "W 1 | N 1 4 2 1 0 0 | V 1 20 | S 3 1 0 0 | S 6 1 0 0 | S 8 1 0 0 | S 8 2 0 0 | S 2 1 0 0",
    ),
    (
        "words that may enter and words that may not",
        "W 1 | N 1 0 0 0 0 0 | S 1 1 0 0 0 | S 1 1 0 0 63 | S 1 1 0 0 64 | S 1 1 0 0 65535 | \
         S 1 1 0 0 65536 | S 1 1 0 0 65791 | S 1 1 0 0 65792 | S 1 1 0 0 131071 | \
         S 1 1 0 0 131072 | S 1 1 0 0 131327 | S 1 1 0 0 131328 | S 1 1 0 0 196607 | \
         S 1 1 0 0 196608 | S 1 1 0 0 196863 | S 1 1 0 0 196864 | S 1 1 0 0 4000000 | S 1 1 0 0 4000001 | S 1 1 0 0 4000001 4000000 | \
         S 1 1 0 0 4000002 65536 64 | S 1 1 0 0 20 20 | S 1 1 0 0 4000016 | S 1 1 0 0 4999999 | \
         S 1 1 0 0 5000000 | S 1 1 1 0 64 | S 1 1 0 1 64",
    ),
    (
        "unused i and j and value words",
        "W 2 | N 1 1 1 2 0 0 | N 1 4 2 1 0 0 | N 1 4 1 1 0 0 | N 2 0 0 0 0 0 | V 1 20 | \
         S 3 1 0 1 | S 3 1 0 0 20 | S 3 1 0 0 | S 8 2 0 1 | S 8 2 0 0 20 | S 8 1 0 0 | S 8 2 0 0 | \
         S 3 1 0 0 | S 6 1 0 1 | S 6 1 0 0 20 | S 6 1 0 0 | S 7 1 0 1 | S 7 1 0 0 20 | S 7 1 0 0 | \
         S 2 2 0 1 | S 2 2 0 0 20 | S 2 2 0 0 | S 4 2 0 1 | S 4 2 0 0 20 | S 5 2 0 0 | S 5 2 0 0 20",
    ),
];

/// Names that the environment brings.
const FROM_OUTSIDE: &[(&str, &str)] = &[
    (
        "an outside name crosses mid and leaves by the second outlet",
        "W 2 | N 1 6 0 1 0 1 | N 1 4 2 1 0 0 | N 2 6 2 1 0 1 | N 2 4 1 1 0 0 | V 1 10 | V 2 10 | \
         S 1 1 0 0 196608 | S 2 1 0 0 | S 5 1 1 0 | S 3 1 1 0 | S 8 2 0 0 | S 2 2 0 0 | S 5 2 1 0 | \
         S 3 2 1 0 | S 6 2 0 0 | S 7 2 0 0 | S 1 2 0 0 196608",
    ),
    (
        "an outside name of side 2 leaves by the first outlet only once side 1 brings it",
        "W 2 | N 1 6 0 1 0 1 | N 1 4 1 1 1 0 | N 2 6 0 1 0 1 | N 2 1 2 3 0 0 | N 2 4 2 1 0 0 | \
         N 2 4 1 1 0 0 | V 1 10 | V 1 4000002 | V 1 10 | V 1 10 | V 2 10 | \
         S 1 2 0 0 196609 | S 2 2 0 0 | S 5 2 1 0 | S 3 2 1 0 | S 6 2 0 0 | S 3 2 1 0 | S 6 2 1 0 | \
         S 7 2 1 0 | S 8 2 0 0 | S 1 1 0 0 20 | S 2 1 0 0 | S 5 1 1 0 | S 3 1 1 0 | S 6 1 0 0 | \
         S 7 1 0 0 | S 1 1 0 0 196609 | S 2 1 0 0 | S 5 1 1 0 | S 3 1 1 0 | S 6 1 0 0 | S 7 1 0 0",
    ),
    (
        "an outside name as channel, as tag and as box name",
        "W 1 | N 1 6 0 1 0 1 | N 1 1 2 3 0 0 | N 1 4 5 12 0 0 | N 1 1 4 5 0 0 | N 1 2 10 6 0 0 | \
         N 1 5 10 12 1 7 | N 1 5 5 1 1 8 | N 1 4 1 1 2 0 | N 1 4 10 1 1 0 | V 1 10 | V 1 11 | \
         V 1 4000002 | V 1 10 | V 1 11 | S 1 1 0 0 196863 | S 2 1 0 0 | S 5 1 1 0 | S 4 1 1 1 | \
         S 5 1 1 2 | S 3 1 2 0 | S 5 1 2 1 | S 3 1 1 0 | S 6 1 0 0 | S 7 1 0 0",
    ),
    (
        "an outside name as the channel of what goes up",
        "W 1 | N 1 6 0 1 0 1 | N 1 4 10 1 0 0 | V 1 10 | S 1 1 0 0 196700 | S 2 1 0 0 | S 5 1 1 0 | \
         S 3 1 1 0 | S 6 1 0 0 | S 7 1 0 0",
    ),
    (
        "a minted name beside an outside one still has to leave",
        "W 1 | N 1 6 0 1 0 1 | N 1 3 9 2 0 0 | N 1 4 1 1 1 0 | V 1 10 | V 1 4000002 | V 1 9 | V 1 10 | \
         S 1 1 0 0 4000002 196608 65536 | S 1 1 0 0 196608 | S 2 1 0 0 | S 5 1 1 0 | S 3 1 1 0 | \
         S 6 1 0 0 | S 1 1 0 0 4000002 196608 65536 | S 7 1 0 0 | S 1 1 0 0 4000002 196608 65536 | \
         S 1 1 0 0 4000002 196608 65537 | S 1 1 0 0 4000002 65537 196864 | S 1 1 0 0 4000002 196608 | \
         S 1 1 0 0 196608 196608 | S 1 1 0 0 4000002 196608 196608",
    ),
    ("an outside name in a value", "W 1 | N 1 4 1 1 0 0 | V 1 196608"),
    ("an outside name in a pattern", "W 1 | N 1 5 0 1 0 1 | N 1 0 0 0 0 0 | V 1 196863"),
    ("an outside name as a channel of a table", "W 1 | N 1 4 196608 1 0 0 | V 1 20"),
    ("an outside name in the pool where nothing is read", "W 1 | N 1 4 1 1 1 0 | V 1 196608 | V 1 20"),
];

/// A body with 33 outputs and one whose value can be too long.
fn too_many_and_too_long() -> Vec<Fixed> {
    let mut text = String::from("W 1 | N 1 6 0 1 0 1");
    for count in 0..33 {
        let (left, right) = (2 + 2 * count, 3 + 2 * count);
        text += &format!(" | N 1 1 {left} {right} 0 0 | N 1 4 6 0 1 0");
    }
    text += " | N 1 4 1 1 2 0 | V 1 10 | V 1 20 | V 1 4000008";
    text += &" | V 1 10".repeat(8);
    text += " | S 1 1 0 0 4000002 1 2 | S 2 1 0 0 | S 5 1 1 0";
    text += " | S 1 1 0 0 20 | S 2 1 0 0 | S 5 1 2 0";
    let name = "16 goes before 17 though the long value comes last";
    vec![(name.to_string(), listing(&text))]
}

#[cfg(test)]
mod tests {
    use super::*;

    #[test]
    fn fixed_runs_have_every_label_and_number() {
        let mut tally = Tally::default();
        for (_, input) in [fixed_inputs(), listings(LOGGED)].concat() {
            tally.add(&reference::outcome(&input));
        }
        assert!(tally.missing().is_empty(), "{:?}", tally.missing());
    }

    #[test]
    fn faulty_lines_are_at_fault_and_sound_ones_are_not() {
        let is_line = |input: &[u8]| matches!(reference::outcome(input), Outcome::Line(_));
        for (name, input) in [listings(FAULTY_LINES), faulty_bytes()].concat() {
            assert!(is_line(&input), "{name}");
        }
        for (name, input) in [listings(TRIALS), long_trials(), listings(SOUND_LINES)].concat() {
            assert!(!is_line(&input), "{name}");
        }
        let others = [REFUSED_TABLES, STEPS, FROM_OUTSIDE].concat();
        for (name, input) in listings(&others) {
            assert!(!is_line(&input), "{name}");
        }
    }

    #[test]
    fn fixed_inputs_are_all_different() {
        let fixed = [fixed_inputs(), listings(LOGGED)].concat();
        let inputs: BTreeSet<_> = fixed.iter().map(|(_, input)| input).collect();
        assert_eq!(inputs.len(), fixed.len());
    }
}
