//! `newnames N [BENCH] [--from S] [--exchanged]` makes N pipeline inputs in
//! which names from outside enter on both sides, runs them on the program BENCH
//! or on the library, and tries the new-name rule on what is printed: a name
//! from outside that no `in1` line of the run has held so far is in no `out1`
//! line.
//!
//! It fails if a run breaks the rule, and also if no run tries it: some name
//! from outside must be in an `in2` line and in no `in1` line yet when there is
//! an `out1` line.
//!
//! With `--exchanged` the sides are exchanged in the rule: a name that no `in2`
//! line has held is in no `out2` line. That is false, since names reach side 2
//! over `mid`, so runs do fail.

use reference::generator::newcomers;
use reference::program::{outside_names, printed_answers};
use std::collections::BTreeSet;
use std::process::ExitCode;

/// What was asked for on the command line.
struct Options {
    count: u64,
    from: u64,
    bench: Option<String>,
    exchanged: bool,
}

/// What was seen in the runs.
#[derive(Debug, Default, PartialEq, Eq)]
struct Counts {
    passed: u64,
    failed: u64,
    /// Runs with an `in` line of the other side that has a name from outside
    /// and, behind it, an `out` line of the side that the rule is about.
    tried: u64,
    /// Those in which the side had not brought that name by then.
    tried_new: u64,
    /// `out1` and `out2` lines with a name from outside.
    out_lines: [u64; 2],
}

fn main() -> ExitCode {
    let Some(options) = read_options() else {
        eprintln!("usage: newnames N [BENCH] [--from S] [--exchanged]");
        return ExitCode::from(2);
    };
    let mut counts = Counts::default();
    let mut seed = options.from;
    while counts.passed + counts.failed < options.count {
        if let Some(script) = newcomers::make(seed) {
            let printed = printed_answers(&script, options.bench.as_deref());
            let verdict = printed.and_then(|lines| judge(&lines, options.exchanged, &mut counts));
            match verdict {
                Ok(()) => counts.passed += 1,
                Err(how) => {
                    counts.failed += 1;
                    println!("seed {seed}: {how}");
                }
            }
        }
        seed += 1;
    }
    println!("seeds {} to {seed}", options.from);
    print!("{}", report(&counts, options.exchanged));
    if counts.failed == 0 && counts.tried_new > 0 {
        ExitCode::SUCCESS
    } else {
        ExitCode::FAILURE
    }
}

fn read_options() -> Option<Options> {
    let mut arguments = std::env::args().skip(1);
    let mut options = Options {
        count: arguments.next()?.parse().ok()?,
        from: 0,
        bench: None,
        exchanged: false,
    };
    while let Some(argument) = arguments.next() {
        match argument.as_str() {
            "--from" => options.from = arguments.next()?.parse().ok()?,
            "--exchanged" => options.exchanged = true,
            path => options.bench = Some(path.to_string()),
        }
    }
    Some(options)
}

/// The last lines of the output.
fn report(counts: &Counts, exchanged: bool) -> String {
    let (own, other) = if exchanged { (2, 1) } else { (1, 2) };
    let [one, two] = counts.out_lines;
    let idle = if counts.tried_new == 0 {
        "no run tries the rule\n"
    } else {
        ""
    };
    format!(
        "{} runs with a name from outside in an in{other} line before an out{own} line\n\
         {} of them while no in{own} line had held that name\n\
         {one} out1 lines and {two} out2 lines with a name from outside\n{idle}\
         {} passed, {} failed\n",
        counts.tried, counts.tried_new, counts.passed, counts.failed
    )
}

/// Tries the rule on the printed answers of a run, and counts what they have.
fn judge(lines: &[String], exchanged: bool, counts: &mut Counts) -> Result<(), String> {
    let labels = [("in1", "out1"), ("in2", "out2")];
    let [(own_in, own_out), (other_in, _)] = if exchanged {
        [labels[1], labels[0]]
    } else {
        labels
    };
    let (mut own, mut others) = (BTreeSet::new(), BTreeSet::new());
    let (mut tried, mut tried_new) = (false, false);
    let mut verdict = Ok(());
    for (index, line) in lines.iter().enumerate() {
        own.extend(outside_names(line, own_in).unwrap_or_default());
        others.extend(outside_names(line, other_in).unwrap_or_default());
        for (count, (_, out)) in counts.out_lines.iter_mut().zip(labels) {
            *count += u64::from(outside_names(line, out).is_some_and(|names| !names.is_empty()));
        }
        if let Some(names) = outside_names(line, own_out) {
            tried |= !others.is_empty();
            tried_new |= !others.is_subset(&own);
            if let (Ok(()), Some(new)) = (&verdict, names.difference(&own).next()) {
                let no = format!("no {own_in} line before it does");
                verdict = Err(format!("answer {index}, {own_out}, has {new}, {no}"));
            }
        }
    }
    counts.tried += u64::from(tried);
    counts.tried_new += u64::from(tried_new);
    verdict
}

#[cfg(test)]
mod tests {
    use super::*;

    /// What comes of a run with these answers, written with blanks.
    fn judged(answers: &[&str], exchanged: bool) -> (bool, Counts) {
        let lines: Vec<String> = answers.iter().map(|line| line.replace(' ', "\t")).collect();
        let mut counts = Counts::default();
        let verdict = judge(&lines, exchanged, &mut counts);
        (verdict.is_ok(), counts)
    }

    fn passes(answers: &[&str]) -> bool {
        judged(answers, false).0
    }

    #[test]
    fn a_name_of_side_2_or_of_nobody_fails() {
        assert!(!passes(&["in2 196608", "tau", "out1 196608"]));
        assert!(!passes(&["out1 196863"]));
        assert!(!passes(&["in1 196608", "out1 4000002 196608 196609"]));
        assert!(!passes(&["in2 196608", "out1 196608", "in1 196608"]));
        assert!(!passes(&["out2 196608", "log1 196608", "out1 196608"]));
        assert!(!passes(&["no 12", "no 11", "out1 196608"]));
    }

    #[test]
    fn a_name_that_side_1_brought_passes() {
        assert!(passes(&[
            "in1 4000002 196608 20",
            "out1 196608",
            "out1 196608"
        ]));
        assert!(passes(&["in2 196608", "in1 196608", "out1 196608"]));
        assert!(passes(&["in1 196608", "out2 196608", "out2 196609"]));
        assert!(passes(&["in2 196608", "out1 20", "out2 196608"]));
        assert!(passes(&["out1 4000000", "out1 196607", "out1 196864"]));
    }

    #[test]
    fn the_sides_exchanged() {
        assert!(!judged(&["in1 196608", "out2 196608"], true).0);
        assert!(judged(&["in2 196608", "out2 196608"], true).0);
        assert!(judged(&["in2 196608", "out1 196608"], true).0);
    }

    #[test]
    fn what_is_counted() {
        let (_, counts) = judged(&["in2 196608", "out1 20", "out2 196608"], false);
        assert_eq!((counts.tried, counts.tried_new), (1, 1));
        assert_eq!(counts.out_lines, [0, 1]);
        let (_, counts) = judged(&["in1 196608", "in2 196608", "out1 196608"], false);
        assert_eq!((counts.tried, counts.tried_new), (1, 0));
        assert_eq!(counts.out_lines, [1, 0]);
        let (_, counts) = judged(&["in2 20", "out1 20", "in2 196608"], false);
        assert_eq!((counts.tried, counts.tried_new), (0, 0));
    }
}
