//! What names from outside do in generated runs: that they enter on both sides
//! and under every wrapper, are used in every place of a name, cross `mid` and
//! leave. `cargo test --release --test mixture -- --nocapture` prints how many
//! runs have each.

use reference::generator::generate;
use reference::lines::read_script;
use reference::load_script;
use reference::state::{Act, Origin, OutputTag, Stage, State, Wrapper};
use reference::steps::{Label, Refusal, Step};
use reference::terms::{Direction, Name, Value};
use std::collections::{BTreeMap, BTreeSet};

const RUNS: u64 = 2_000;

fn is_outside(name: Name) -> bool {
    matches!(name, Name::Outside(_))
}

fn holds_outside(value: &Value) -> bool {
    value.leaves().into_iter().any(|&name| is_outside(name))
}

/// What a label shows of names from outside.
fn in_label(wrapper: Wrapper, side: u32, label: &Label) -> Option<String> {
    let (name, value) = match label {
        Label::In(value) => ("in", value),
        Label::Out(value) => ("out", value),
        Label::Log(value) => ("log", value),
        Label::Silent => return None,
    };
    holds_outside(value).then(|| format!("{wrapper:?}: {name}{side}"))
}

/// What a step does with a name from outside, by the state before it; the step
/// is not refused.
fn in_step(before: &State, step: &Step) -> Vec<&'static str> {
    let side = &before.sides[step.side as usize - 1];
    let (i, j) = (step.i as usize, step.j as usize);
    let mut seen = Vec::new();
    if step.kind == 8 && holds_outside(&before.shelf[i]) {
        seen.push("taken from the shelf");
    }
    if !(3..=5).contains(&step.kind) {
        return seen;
    }
    let Act::Output(output) = &side.particles[i].act else {
        return seen;
    };
    match (step.kind, output.tag) {
        (4, OutputTag::To(Direction::Child(name))) if is_outside(name) => {
            seen.push("descended by its name");
        }
        (5, OutputTag::From(Origin::Child(name))) if is_outside(name) => {
            seen.push("met as the child it came from");
        }
        _ => {}
    }
    if step.kind == 5 && is_outside(output.channel) {
        seen.push("met as channel");
    }
    let replies = |act: &Act| matches!(act, Act::Input(input) if is_outside(input.channel));
    if step.kind == 5 && replies(&side.particles[j].act) && holds_outside(&output.value) {
        seen.push("met as channel and in the value");
    }
    seen
}

/// What a state holds of names from outside.
fn in_state(state: &State) -> Vec<&'static str> {
    let mut seen = Vec::new();
    if state.shelf.iter().any(holds_outside) {
        seen.push("on the shelf");
    }
    for side in &state.sides {
        let named = |name: Option<Name>| name.is_some_and(is_outside);
        if side.boxes.iter().any(|b| named(b.outside.map(|o| o.name))) {
            seen.push("box name");
        }
        let strays = |stage: Stage| matches!(stage, Stage::Arrived(name) if is_outside(name));
        if side.lobby.iter().any(|message| strays(message.stage)) {
            seen.push("arrived as channel");
        }
        assert!(side.left.iter().all(|name| !is_outside(*name)));
    }
    seen
}

/// What a seed's run has of names from outside, and whether it runs at all.
fn in_run(seed: u64) -> Option<BTreeSet<String>> {
    let script = read_script(&generate(seed)).ok()?;
    let mut state = load_script(&script).ok()?;
    let mut seen = BTreeSet::new();
    for step in &script.steps {
        let before = state.clone();
        let Ok(label) = state.step(step).outcome else {
            continue;
        };
        seen.extend(in_label(state.wrapper, step.side, &label));
        seen.extend(in_step(&before, step).into_iter().map(String::from));
        seen.extend(in_state(&state).into_iter().map(String::from));
    }
    Some(seen)
}

/// Each thing that generated runs should have.
const WANTED: [&str; 17] = [
    "Filter: in1",
    "Filter: out1",
    "Logging: in1",
    "Logging: log1",
    "Logging: out1",
    "Pipeline: in1",
    "Pipeline: in2",
    "Pipeline: out1",
    "Pipeline: out2",
    "arrived as channel",
    "box name",
    "descended by its name",
    "met as channel",
    "met as channel and in the value",
    "met as the child it came from",
    "on the shelf",
    "taken from the shelf",
];

#[test]
fn names_from_outside_in_generated_runs() {
    let mut counts: BTreeMap<String, usize> = BTreeMap::new();
    let runs: Vec<_> = (0..RUNS).filter_map(in_run).collect();
    for seen in runs.iter().flatten() {
        *counts.entry(seen.clone()).or_default() += 1;
    }
    println!("{RUNS} seeds, {} runs that load", runs.len());
    for (what, count) in &counts {
        println!("{what}: {count}");
    }
    for wanted in WANTED {
        assert!(
            counts.get(wanted).is_some_and(|&count| count > 10),
            "{wanted}"
        );
    }
}

/// True if the run of a seed has an enter with one of these words answered so.
fn asks_for(seed: u64, words: &[u32], refused: Option<u32>) -> bool {
    let Ok(script) = read_script(&generate(seed)) else {
        return false;
    };
    let Ok(mut state) = load_script(&script) else {
        return false;
    };
    script.steps.iter().any(|step| {
        let number = state.step(step).outcome.err().map(Refusal::number);
        let asked = step.kind == 1 && step.value.iter().any(|word| words.contains(word));
        asked && number == refused
    })
}

#[test]
fn the_edges_are_asked_for() {
    let runs = |words: &[u32], refused: Option<u32>| {
        let asking = (0..500).filter(|&seed| asks_for(seed, words, refused));
        asking.count()
    };
    for word in [196_608, 196_863] {
        assert!(runs(&[word], None) > 50, "{word}");
    }
    for word in [196_607, 196_864] {
        assert!(runs(&[word], Some(11)) > 5, "{word}");
    }
    // Beside a word that is none, and beside a minted name that has not left.
    assert!(runs(&[196_608], Some(11)) > 5);
    assert!(runs(&[196_863], Some(12)) > 5);
}
