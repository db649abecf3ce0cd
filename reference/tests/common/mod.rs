//! What the tests share: inputs written with blanks, and a bench that is asked
//! step by step.
#![allow(dead_code)]

use reference::generator::lay_out;
use reference::generator::sketch::{output, repeat, tuple, Sketch, PARENT};
use reference::lines::Script;
use reference::load_script;
use reference::random::Random;
use reference::state::State;
use reference::steps::{Label, Step};
use reference::tables::LoadRefusal;

/// `!in y. out <y y>` with its parent.
pub fn copier() -> Sketch {
    repeat(0, PARENT, &[10], output(1, PARENT, &tuple(&[10, 10])))
}

/// The text of a listing: its lines without indentation, tabs for blanks.
pub fn text(listing: &str) -> String {
    let lines = listing.lines().map(str::trim);
    let kept = lines.filter(|line| !line.is_empty());
    kept.map(|line| line.replace(' ', "\t") + "\n").collect()
}

/// The output for a listing, with blanks for tabs.
pub fn bench(listing: &str) -> String {
    raw(text(listing).as_bytes())
}

/// The output for these bytes, with blanks for tabs.
pub fn raw(input: &[u8]) -> String {
    reference::run(input).replace('\t', " ")
}

/// A loaded state that is asked step by step.
#[derive(Clone)]
pub struct Bench {
    pub state: State,
}

/// A script of these handlers.
pub fn script(wrapper: u32, handlers: &[Sketch]) -> Script {
    let mut script = Script {
        wrapper,
        ..Script::default()
    };
    for (place, handler) in handlers.iter().enumerate() {
        lay_out(&mut Random::new(7), &mut script, place, handler);
    }
    script
}

/// What load says to these handlers.
pub fn load(wrapper: u32, handlers: &[Sketch]) -> Result<State, LoadRefusal> {
    load_script(&script(wrapper, handlers))
}

/// Number, side and node of a refusal.
pub fn refusal(result: Result<State, LoadRefusal>) -> Option<(u32, u32, u32)> {
    let refusal = result.err()?;
    Some((refusal.number, refusal.side, refusal.node))
}

impl Bench {
    /// The handler under the filter.
    pub fn filter(handler: Sketch) -> Bench {
        let state = load(1, &[handler]).expect("a handler that loads");
        Bench { state }
    }

    /// The handler under the logging wrapper.
    pub fn logged(handler: Sketch) -> Bench {
        let state = load(3, &[handler]).expect("a handler that loads");
        Bench { state }
    }

    /// Two handlers under the pipeline.
    pub fn pipeline(first: Sketch, second: Sketch) -> Bench {
        let state = load(2, &[first, second]).expect("handlers that load");
        Bench { state }
    }

    /// Asks a step and gives the answer as the program prints it. Also checks
    /// that a refusal changes nothing.
    pub fn step(&mut self, step: Step) -> String {
        let before = self.state.clone();
        let answer = self.state.step(&step);
        assert_eq!(answer.side, step.side);
        let words = |value: &reference::terms::Value| {
            let words = value.words();
            words
                .iter()
                .map(|word| format!(" {word}"))
                .collect::<String>()
        };
        match answer.outcome {
            Ok(Label::Silent) => String::from("tau"),
            Ok(Label::In(value)) => format!("in{}{}", answer.side, words(&value)),
            Ok(Label::Out(value)) => format!("out{}{}", answer.side, words(&value)),
            Ok(Label::Log(value)) => format!("log{}{}", answer.side, words(&value)),
            Err(refusal) => {
                assert_eq!(self.state, before);
                format!("no {}", refusal.number())
            }
        }
    }

    /// Asks a step without value words.
    pub fn ask(&mut self, kind: u32, side: u32, i: u32, j: u32) -> String {
        self.step(Step {
            kind,
            side,
            i,
            j,
            value: vec![],
        })
    }

    /// Asks to enter these words.
    pub fn enter(&mut self, side: u32, words: &[u32]) -> String {
        self.step(Step {
            kind: 1,
            side,
            i: 0,
            j: 0,
            value: words.to_vec(),
        })
    }

    /// Asks a step that must be silent.
    pub fn silent(&mut self, kind: u32, side: u32, i: u32, j: u32) {
        assert_eq!(self.ask(kind, side, i, j), "tau", "{kind} {side} {i} {j}");
    }

    /// Enters a value, brings it down and lets it meet input `j`; gives the
    /// answer of the meeting.
    pub fn receive(&mut self, side: u32, words: &[u32], j: u32) -> String {
        self.enter(side, words);
        let message = self.side(side).lobby.len() as u32 - 1;
        self.silent(2, side, message, 0);
        let output = self.side(side).particles.len() as u32 - 1;
        self.ask(5, side, output, j)
    }

    /// Sends output `i` of box 0 up and out; gives the answer of its leaving.
    pub fn send_out(&mut self, side: u32, i: u32) -> String {
        self.silent(3, side, i, 0);
        let message = self.side(side).lobby.len() as u32 - 1;
        self.silent(6, side, message, 0);
        self.ask(7, side, message, 0)
    }

    /// A side's state.
    pub fn side(&self, side: u32) -> &reference::state::Side {
        &self.state.sides[side as usize - 1]
    }
}
