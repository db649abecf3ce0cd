//! Benches with one error each: the comparison must find every one of them, and nothing in a right one.
//! No library is needed. With `--nocapture` one sees by how many calls each is found.

mod checks;
mod runs;
mod stranded;
mod texts;

use linked::bench::{Bench, Separate, Tables};
use linked::call::Call;
use linked::cases::of_seed;
use linked::compare::compare;
use linked::compare_seeds;

/// So many seeds are compared with each wrong bench.
const SEEDS: u64 = 24;

type Check = fn(Tables, &[u32], &[u32], &mut [usize; 2]) -> usize;
type Run = fn(Tables, &[u32], &mut [u32], &mut [usize; 3]) -> usize;
type Stranded = fn(Tables, &[u32], u32, &mut [u32], &mut [usize; 3]) -> usize;
type Text = fn(&[u8], &mut [u8], &mut usize) -> usize;

/// A bench of any four functions.
struct Stub {
    check: Check,
    run: Run,
    stranded: Stranded,
    text: Text,
}

/// The right bench.
const RIGHT: Stub = Stub {
    check: |tables, steps, labels, place| Separate.check_trace(tables, steps, labels, place),
    run: |tables, steps, out, numbers| Separate.run(tables, steps, out, numbers),
    stranded: |tables, steps, side, out, numbers| {
        Separate.stranded_after(tables, steps, side, out, numbers)
    },
    text: |input, out, bytes| Separate.text(input, out, bytes),
};

impl Bench for Stub {
    fn text(&self, input: &[u8], out: &mut [u8], bytes: &mut usize) -> usize {
        (self.text)(input, out, bytes)
    }

    fn run(
        &self,
        tables: Tables,
        steps: &[u32],
        out: &mut [u32],
        numbers: &mut [usize; 3],
    ) -> usize {
        (self.run)(tables, steps, out, numbers)
    }

    fn check_trace(
        &self,
        tables: Tables,
        steps: &[u32],
        labels: &[u32],
        place: &mut [usize; 2],
    ) -> usize {
        (self.check)(tables, steps, labels, place)
    }

    fn stranded_after(
        &self,
        tables: Tables,
        steps: &[u32],
        side: u32,
        out: &mut [u32],
        numbers: &mut [usize; 3],
    ) -> usize {
        (self.stranded)(tables, steps, side, out, numbers)
    }
}

/// The calls of one function.
fn calls_of(function: &str) -> Vec<Call> {
    let calls = (0..SEEDS).flat_map(of_seed).map(|case| case.call);
    calls.filter(|call| call.function() == function).collect()
}

/// By how many of the calls a bench is found to differ.
fn found(stub: &Stub, calls: &[Call]) -> usize {
    let differs = |call: &&Call| compare(stub, call).difference.is_some();
    calls.iter().filter(differs).count()
}

/// All of these benches must be found by calls of the function that is wrong.
fn expect_found<'n>(function: &str, stubs: impl Iterator<Item = (&'n str, Stub)>) {
    let calls = calls_of(function);
    let mut missed = Vec::new();
    for (name, stub) in stubs {
        let found = found(&stub, &calls);
        println!(
            "{function}, {name}: found by {found} of {} calls",
            calls.len()
        );
        if found == 0 {
            missed.push(name);
        }
    }
    assert!(missed.is_empty(), "not found: {missed:?}");
}

#[test]
fn nothing_is_found_in_a_right_bench() {
    let tally = compare_seeds(&RIGHT, 0, SEEDS, |_, _, _, _| {});
    assert!(tally.compared > 250 * SEEDS);
    assert_eq!(tally.different, 0);
    assert_eq!(tally.missing(), []);
}

#[test]
fn nothing_is_found_in_the_functions_that_wrong_ones_are_made_from() {
    let (check, stranded) = (checks::RIGHT, stranded::RIGHT);
    let stub = Stub {
        check,
        stranded,
        ..RIGHT
    };
    assert_eq!(found(&stub, &calls_of("check_trace")), 0);
    assert_eq!(found(&stub, &calls_of("stranded_after")), 0);
}

#[test]
fn wrong_checks_are_found() {
    let stubs = checks::WRONG.iter();
    let stubs = stubs.map(|&(name, check)| (name, Stub { check, ..RIGHT }));
    expect_found("check_trace", stubs);
}

#[test]
fn wrong_runs_are_found() {
    let stubs = runs::WRONG.iter();
    let stubs = stubs.map(|&(name, run)| (name, Stub { run, ..RIGHT }));
    expect_found("run", stubs);
}

#[test]
fn wrong_questions_for_stranded_positions_are_found() {
    let stubs = stranded::WRONG.iter();
    let stubs = stubs.map(|&(name, stranded)| (name, Stub { stranded, ..RIGHT }));
    expect_found("stranded_after", stubs);
}

#[test]
fn wrong_texts_are_found() {
    let stubs = texts::WRONG.iter();
    let stubs = stubs.map(|&(name, text)| (name, Stub { text, ..RIGHT }));
    expect_found("text", stubs);
}
