//! The program `newnames`: the rule holds of the library's runs, the runs put it
//! to the test, and the program can fail.

use std::process::Command;

/// The exit code and the lines of `newnames` with these arguments.
fn newnames(arguments: &[&str]) -> (Option<i32>, Vec<String>) {
    let output = Command::new(env!("CARGO_BIN_EXE_newnames"))
        .args(arguments)
        .output()
        .expect("a program that runs");
    let text = String::from_utf8(output.stdout).expect("text");
    (
        output.status.code(),
        text.lines().map(String::from).collect(),
    )
}

/// The number that the line with these words begins with.
fn number_of(lines: &[String], words: &str) -> usize {
    let line = lines.iter().find(|line| line.contains(words));
    let first = line.and_then(|line| line.split(' ').next());
    first.and_then(|number| number.parse().ok()).expect(words)
}

#[test]
fn the_rule_holds_of_the_library() {
    let (code, lines) = newnames(&["400"]);
    assert_eq!(code, Some(0));
    assert_eq!(lines.last().unwrap(), "400 passed, 0 failed");
    assert!(number_of(&lines, "in an in2 line before an out1 line") > 150);
    assert!(number_of(&lines, "while no in1 line had held") > 150);
    assert!(number_of(&lines, "out1 lines and") > 300);
}

#[test]
fn with_the_sides_exchanged_many_runs_fail() {
    let (code, lines) = newnames(&["400", "--exchanged"]);
    assert_eq!(code, Some(1));
    let last = lines.last().unwrap();
    let failed: usize = last
        .strip_suffix(" failed")
        .and_then(|line| line.split(' ').next_back())
        .and_then(|number| number.parse().ok())
        .expect("how many failed");
    assert!(failed > 30, "{last}");
    assert_eq!(number_of(&lines, " passed, ") + failed, 400);
    assert_eq!(
        lines
            .iter()
            .filter(|line| line.starts_with("seed "))
            .count(),
        failed
    );
}

#[test]
fn a_program_is_judged_by_what_it_prints() {
    let reference = env!("CARGO_BIN_EXE_reference");
    assert_eq!(newnames(&["30", reference]), newnames(&["30"]));
    assert_eq!(
        newnames(&["30", reference, "--from", "7", "--exchanged"]),
        newnames(&["30", "--from", "7", "--exchanged"])
    );
    // One that prints nothing, and one that is not there.
    for program in ["true", "/no/such/program"] {
        let (code, lines) = newnames(&["5", program]);
        assert_eq!(code, Some(1), "{program}");
        assert_eq!(lines.last().unwrap(), "0 passed, 5 failed", "{program}");
    }
}

#[test]
fn runs_that_do_not_try_the_rule_are_not_enough() {
    let (code, lines) = newnames(&["0"]);
    assert_eq!(code, Some(1));
    assert_eq!(
        lines[lines.len() - 2..],
        ["no run tries the rule", "0 passed, 0 failed"]
    );
}

#[test]
fn how_it_is_called() {
    assert_eq!(newnames(&[]).0, Some(2));
    assert_eq!(newnames(&["many"]).0, Some(2));
    assert_eq!(newnames(&["1", "--from"]).0, Some(2));
}
