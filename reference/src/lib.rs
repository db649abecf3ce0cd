//! The repeater bench, written separately from the tables' interpreter: a
//! handler's table is read into a process term of the box-pi calculus, and a
//! meeting substitutes the parts of the value into the body of the input.
//!
//! [`outcome`] runs an input and [`run`] also prints what came of it.

pub mod claims;
pub mod generator;
pub mod lines;
pub mod program;
pub mod random;
pub mod state;
pub mod steps;
pub mod tables;
pub mod terms;
pub mod words;

use lines::{LineFault, Script};
use state::State;
use steps::Answer;
use tables::LoadRefusal;

/// What comes of an input.
#[derive(Clone, Debug, PartialEq, Eq)]
pub enum Outcome {
    /// A line breaks the rules.
    Line(LineFault),
    /// Load refuses the tables.
    Refused(LoadRefusal),
    /// The answers to the steps.
    Ran(Vec<Answer>),
}

/// Loads the tables of a script.
pub fn load_script(script: &Script) -> Result<State, LoadRefusal> {
    tables::load(script.wrapper, script.tables())
}

/// Reads an input and runs it.
pub fn outcome(input: &[u8]) -> Outcome {
    let script = match lines::read_script(input) {
        Ok(script) => script,
        Err(fault) => return Outcome::Line(fault),
    };
    match load_script(&script) {
        Ok(mut state) => Outcome::Ran(script.steps.iter().map(|step| state.step(step)).collect()),
        Err(refusal) => Outcome::Refused(refusal),
    }
}

/// The text of an outcome.
pub fn print(outcome: &Outcome) -> String {
    match outcome {
        Outcome::Line(fault) => lines::print_line_fault(*fault),
        Outcome::Refused(refusal) => lines::print_load_refusal(*refusal),
        Outcome::Ran(answers) => lines::print_answers(answers),
    }
}

/// Reads an input, runs it and gives the output.
pub fn run(input: &[u8]) -> String {
    print(&outcome(input))
}
