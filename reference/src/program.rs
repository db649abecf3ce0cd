//! A bench program, or the library in its place: a script goes in, and the
//! printed answers come out.

use crate::lines::{print_script, Script};
use crate::terms::is_outside;
use std::collections::BTreeSet;
use std::io::{self, Write};
use std::process::{Command, Stdio};

/// What is printed for each step of a script, without the indices; by the
/// program at this path, or by the library.
pub fn printed_answers(script: &Script, bench: Option<&str>) -> Result<Vec<String>, String> {
    let output = run(print_script(script).as_bytes(), bench)?;
    let mut lines = output.lines();
    if lines.next() != Some("ok") {
        return Err(format!("not ok: {:?}", output.lines().next()));
    }
    let answer = |line: &str| {
        line.split_once('\t')
            .map_or(line, |(_, rest)| rest)
            .to_string()
    };
    let answers: Vec<String> = lines.map(answer).collect();
    if answers.len() != script.steps.len() {
        return Err(format!(
            "{} answers to {} steps",
            answers.len(),
            script.steps.len()
        ));
    }
    Ok(answers)
}

/// The names from outside in a printed answer that begins with this label; none
/// if it begins otherwise.
pub fn outside_names(answer: &str, label: &str) -> Option<BTreeSet<u32>> {
    let (first, words) = answer.split_once('\t')?;
    if first != label {
        return None;
    }
    let numbers = words.split('\t').filter_map(|word| word.parse().ok());
    Some(numbers.filter(|&word| is_outside(word)).collect())
}

/// The output of the program or of the library.
fn run(input: &[u8], bench: Option<&str>) -> Result<String, String> {
    match bench {
        None => Ok(crate::run(input)),
        Some(path) => run_program(path, input).map_err(|error| format!("{path}: {error}")),
    }
}

fn run_program(path: &str, input: &[u8]) -> io::Result<String> {
    let mut child = Command::new(path)
        .stdin(Stdio::piped())
        .stdout(Stdio::piped())
        .spawn()?;
    let mut stdin = child.stdin.take().expect("a piped input");
    let written = stdin.write_all(input);
    drop(stdin);
    let output = child.wait_with_output()?;
    written?;
    if !output.status.success() {
        return Err(io::Error::other(format!("ended with {}", output.status)));
    }
    String::from_utf8(output.stdout).map_err(io::Error::other)
}
