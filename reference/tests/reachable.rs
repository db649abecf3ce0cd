//! What holds of every state that generated runs reach, and what must not
//! change a trace: the layout of a table and the numbers of its binders.

use reference::generator::sketch::{self, pattern_names, Sketch};
use reference::generator::tally::Tally;
use reference::generator::{generate, handlers, lay_out, newcomers, schedule};
use reference::lines::{read_script, Script};
use reference::load_script;
use reference::random::Random;
use reference::state::{Act, Origin, OutputTag, Side, Stage, State, Wrapper};
use reference::steps::{Label, Refusal};
use reference::terms::{Direction, Expression, Name, Process, Subject, Value, LOG, MID};
use std::collections::BTreeSet;

/// The names of a tag.
fn tag_names(tag: OutputTag) -> Vec<Name> {
    match tag {
        OutputTag::To(Direction::Child(name)) | OutputTag::From(Origin::Child(name)) => vec![name],
        _ => vec![],
    }
}

/// Every name a side holds outside its waiting bodies.
fn held_names(side: &Side) -> Vec<Name> {
    let mut names: Vec<Name> = side.left.iter().copied().collect();
    let of_value = |value: &Value| value.leaves().into_iter().copied().collect::<Vec<_>>();
    for particle in &side.particles {
        match &particle.act {
            Act::Output(output) => {
                names.push(output.channel);
                names.extend(tag_names(output.tag));
                names.extend(of_value(&output.value));
            }
            Act::Input(input) => {
                names.push(input.channel);
                names.extend(tag_names(OutputTag::To(input.tag)));
                names.extend(free_names(&input.body));
            }
        }
    }
    names.extend(
        side.boxes
            .iter()
            .filter_map(|entry| Some(entry.outside?.name)),
    );
    for message in &side.lobby {
        names.extend(of_value(&message.value));
        if let Stage::Arrived(channel) | Stage::Down(channel) = message.stage {
            names.push(channel);
        }
    }
    names
}

/// The free and the bound name positions of a process, bound ones only where
/// no binder inside the process binds them.
fn subjects(process: &Process, bound: &mut Vec<u32>, found: &mut Vec<Subject>) {
    let mut see = |subject: Subject, bound: &[u32]| match subject {
        Subject::Bound(number) if bound.contains(&number) => {}
        other => found.push(other),
    };
    match process {
        Process::Nil => {}
        Process::Parallel(left, right) => {
            subjects(left, bound, found);
            subjects(right, bound, found);
        }
        Process::Boxed(name, body) => {
            see(*name, bound);
            subjects(body, bound, found);
        }
        Process::New(number, body) => {
            bound.push(*number);
            subjects(body, bound, found);
            bound.pop();
        }
        Process::Output {
            channel,
            tag,
            value,
        } => {
            see(*channel, bound);
            if let Direction::Child(name) = tag {
                see(*name, bound);
            }
            value
                .leaves()
                .into_iter()
                .for_each(|leaf| see(*leaf, bound));
        }
        Process::Input {
            channel,
            tag,
            pattern,
            body,
            ..
        } => {
            see(*channel, bound);
            if let Direction::Child(name) = tag {
                see(*name, bound);
            }
            let outer = bound.len();
            bound.extend(pattern.binders());
            subjects(body, bound, found);
            bound.truncate(outer);
        }
    }
}

/// The names of the running system in a process.
fn free_names(process: &Process) -> Vec<Name> {
    let mut found = Vec::new();
    subjects(process, &mut Vec::new(), &mut found);
    let free = |subject: Subject| match subject {
        Subject::Free(name) => Some(name),
        Subject::Bound(_) => None,
    };
    found.into_iter().filter_map(free).collect()
}

/// The longest value of an output particle or message.
fn longest_value(state: &State) -> usize {
    let mut values: Vec<&Value> = state.shelf.iter().collect();
    for side in &state.sides {
        values.extend(side.lobby.iter().map(|message| &message.value));
        values.extend(
            side.particles
                .iter()
                .filter_map(|particle| match &particle.act {
                    Act::Output(output) => Some(&output.value),
                    Act::Input(_) => None,
                }),
        );
    }
    values.into_iter().map(Value::length).max().unwrap_or(0)
}

/// A name passes 11, and a minted one is below its own side's count.
fn may_be_held(state: &State, name: Name) -> bool {
    match name {
        Name::Public(number) => number <= 63,
        Name::Outside(number) => (196_608..=196_863).contains(&number),
        Name::Minted { side, serial } => {
            let owner = state.sides.iter().find(|known| known.number == side);
            owner.is_some_and(|owner| serial < owner.minted)
        }
    }
}

/// Checks what the scope paper asks of a well-formed state.
fn check(state: &State) {
    for side in &state.sides {
        assert!(side.particles.len() <= 32 && side.lobby.len() <= 16);
        assert!((1..=16).contains(&side.boxes.len()) && side.minted <= 256);
        assert!(side.boxes[0].outside.is_none());
        for (at, entry) in side.boxes.iter().enumerate().skip(1) {
            assert!(entry.outside.is_some_and(|outside| outside.parent < at));
        }
        for particle in &side.particles {
            assert!(particle.home < side.boxes.len());
            if let Act::Input(input) = &particle.act {
                check_body(&input.body, &input.pattern.binders());
            }
        }
        assert!(held_names(side)
            .into_iter()
            .all(|name| may_be_held(state, name)));
        let minted = |name: &Name| matches!(name, Name::Minted { .. });
        assert!(side.left.iter().all(minted));
        let mid_arrived = side.lobby.iter().any(|m| m.stage == Stage::Arrived(MID));
        assert!(!mid_arrived || state.wrapper != Wrapper::Pipeline || side.number == 2);
        let logged = side.lobby.iter().any(|m| m.stage == Stage::Leaving(LOG));
        assert!(!logged || state.wrapper == Wrapper::Logging);
    }
    assert!(longest_value(state) <= 16);
    assert!(state.shelf.len() <= 32);
    assert!(state.taken.iter().all(|&place| place < state.shelf.len()));
    let on_shelf = state.shelf.iter().flat_map(Value::leaves);
    assert!(on_shelf.into_iter().all(|&name| may_be_held(state, name)));
    let alone = state.wrapper != Wrapper::Pipeline;
    assert_eq!(state.sides.len(), if alone { 1 } else { 2 });
    assert!(!alone || state.shelf.is_empty());
}

/// A waiting body is open in its pattern's names only.
fn check_body(body: &Process, binders: &[u32]) {
    let mut found = Vec::new();
    subjects(body, &mut binders.to_vec(), &mut found);
    assert!(found
        .iter()
        .all(|subject| matches!(subject, Subject::Free(_))));
}

#[test]
fn reached_states_are_well_formed() {
    let mut reached = 0;
    for seed in 0..300 {
        let Ok(script) = read_script(&generate(seed)) else {
            continue;
        };
        let Ok(mut state) = load_script(&script) else {
            continue;
        };
        check(&state);
        for step in &script.steps {
            let before = state.clone();
            if state.step(step).outcome.is_err() {
                assert_eq!(state, before);
            }
            check(&state);
            reached += 1;
        }
    }
    assert!(reached > 5_000, "{reached}");
}

/// The names from outside among some names.
fn from_outside(names: Vec<Name>) -> BTreeSet<Name> {
    let outside = names.into_iter();
    outside.filter(|n| matches!(n, Name::Outside(_))).collect()
}

#[test]
fn side_1_and_the_shelf_hold_only_what_side_1_brought_from_outside() {
    let (mut on_side_2_only, mut held_by_1) = (0, 0);
    for script in (0..300).filter_map(newcomers::make) {
        let mut state = load_script(&script).expect("tables that load");
        let mut brought = [BTreeSet::new(), BTreeSet::new()];
        for step in &script.steps {
            if let Ok(Label::In(value)) = state.step(step).outcome {
                let names = value.leaves().into_iter().copied().collect();
                brought[step.side as usize - 1].extend(from_outside(names));
            }
            let on_shelf = state.shelf.iter().flat_map(Value::leaves);
            let mut first = from_outside(on_shelf.copied().collect());
            first.extend(from_outside(held_names(&state.sides[0])));
            assert!(first.is_subset(&brought[0]));
            held_by_1 += usize::from(!first.is_empty());
            on_side_2_only += usize::from(!brought[1].is_subset(&brought[0]));
        }
    }
    assert!(held_by_1 > 5_000, "{held_by_1}");
    assert!(on_side_2_only > 5_000, "{on_side_2_only}");
}

/// The steps refused with 17, by the limit that is full, and the limits
/// reached without passing them.
#[derive(Debug, Default)]
struct Limits {
    full: BTreeSet<&'static str>,
    made: [usize; 9],
}

impl Limits {
    fn see(&mut self, state: &State, step: &reference::steps::Step, refused: Option<Refusal>) {
        if refused.is_none() {
            self.made[step.kind as usize] += 1;
        }
        for side in &state.sides {
            let reached = [
                (side.particles.len() == 32, "32 particles"),
                (side.boxes.len() == 16, "16 boxes"),
                (side.minted == 256, "256 minted"),
                (side.lobby.len() == 16, "16 lobby messages"),
                (state.shelf.len() == 32, "32 shelf messages"),
                (side.minted > 240, "over 240 minted"),
            ];
            self.full
                .extend(reached.iter().filter(|(is, _)| *is).map(|(_, name)| name));
        }
        if refused == Some(Refusal::Full) {
            self.full.insert(match step.kind {
                1 => "enter refused",
                2 => "down refused",
                3 if state.shelf.len() == 32 => "shelf refused",
                3 => "up refused",
                5 => "meet refused",
                _ => "take refused",
            });
        }
    }
}

#[test]
fn generated_runs_reach_every_limit_and_every_kind() {
    let mut limits = Limits::default();
    for seed in 0..1_000 {
        let Ok(script) = read_script(&generate(seed)) else {
            continue;
        };
        let Ok(mut state) = load_script(&script) else {
            continue;
        };
        for step in &script.steps {
            let refused = state.step(step).outcome.err();
            limits.see(&state, step, refused);
        }
    }
    assert!(
        limits.made[1..].iter().all(|&count| count > 100),
        "{limits:?}"
    );
    for wanted in [
        "32 particles",
        "16 boxes",
        "256 minted",
        "16 lobby messages",
        "32 shelf messages",
        "over 240 minted",
        "enter refused",
        "down refused",
        "up refused",
        "shelf refused",
        "meet refused",
        "take refused",
    ] {
        assert!(limits.full.contains(wanted), "{wanted}: {limits:?}");
    }
}

#[test]
fn generated_runs_reach_every_label_and_number() {
    let mut tally = Tally::default();
    for seed in 0..1_000 {
        tally.add(&reference::outcome(&generate(seed)));
    }
    assert!(tally.missing().is_empty(), "{:?}", tally.missing());
}

#[test]
fn the_generator_is_deterministic() {
    assert!((0..50).all(|seed| generate(seed) == generate(seed)));
    let different: BTreeSet<Vec<u8>> = (0..50).map(generate).collect();
    assert!(different.len() > 40);
}

#[test]
fn minted_names_come_back_in() {
    let entered = |outcome: &Result<Label, Refusal>| match outcome {
        Ok(Label::In(value)) => value
            .leaves()
            .into_iter()
            .any(|n| matches!(n, Name::Minted { .. })),
        _ => false,
    };
    let mut count = 0;
    for seed in 0..300 {
        if let reference::Outcome::Ran(answers) = reference::outcome(&generate(seed)) {
            count += answers
                .iter()
                .filter(|answer| entered(&answer.outcome))
                .count();
        }
    }
    assert!(count > 20, "{count}");
}

/// Two handlers under the pipeline with a schedule for them.
fn pipeline(seed: u64) -> Option<([Sketch; 2], Script)> {
    let mut random = Random::new(seed);
    let sides = [1, 2].map(|side| handlers::random_handler(&mut random, side));
    let mut script = Script {
        wrapper: 2,
        ..Script::default()
    };
    for (place, handler) in sides.iter().enumerate() {
        lay_out(&mut random, &mut script, place, handler);
    }
    let state = load_script(&script).ok()?;
    let style = schedule::Style {
        length: 60,
        ..schedule::Style::random(&mut random)
    };
    let mut scheduler = schedule::Scheduler::new(state, style);
    scheduler.run(&mut random);
    script.steps = scheduler.steps;
    Some((sides, script))
}

/// The trace of a script.
fn trace(script: &Script) -> String {
    reference::run(reference::lines::print_script(script).as_bytes())
}

#[test]
fn the_layout_does_not_matter() {
    for seed in 0..150 {
        let Some((sides, mut script)) = pipeline(seed) else {
            continue;
        };
        let before = trace(&script);
        assert!(before.starts_with("ok\n"));
        for (place, handler) in sides.iter().enumerate() {
            lay_out(&mut Random::new(seed + 1_000), &mut script, place, handler);
        }
        assert_eq!(trace(&script), before, "seed {seed}");
    }
}

/// The handler with every binder renamed to 45 plus the number of binders
/// above it, so that nothing hides anything.
fn rename(sketch: &Sketch, scope: &mut Vec<(u32, u32)>) -> Sketch {
    let name = |number: u32, scope: &[(u32, u32)]| {
        let bound = scope.iter().rev().find(|(old, _)| *old == number);
        bound.map_or(number, |(_, new)| *new)
    };
    let tag = |word: u32, scope: &[(u32, u32)]| match word {
        0 | 1 => word,
        child => 2 + name(child - 2, scope),
    };
    let words = |words: &[u32], scope: &[(u32, u32)]| -> Vec<u32> {
        let change = |&word: &u32| if word <= 63 { name(word, scope) } else { word };
        words.iter().map(change).collect()
    };
    match sketch {
        Sketch::Nil => Sketch::Nil,
        Sketch::Parallel(left, right) => {
            sketch::parallel(vec![rename(left, scope), rename(right, scope)])
        }
        Sketch::Boxed(number, body) => sketch::boxed(name(*number, scope), rename(body, scope)),
        Sketch::Output(channel, to, value) => {
            sketch::output(name(*channel, scope), tag(*to, scope), &words(value, scope))
        }
        Sketch::New(number, body) => {
            scope.push((*number, 45 + scope.len() as u32));
            let renamed = sketch::new(name(*number, scope), rename(body, scope));
            scope.pop();
            renamed
        }
        Sketch::Input(again, channel, from, pattern, body) => {
            let (channel, from) = (name(*channel, scope), tag(*from, scope));
            let outer = scope.len();
            for number in pattern_names(pattern) {
                scope.push((number, 45 + scope.len() as u32));
            }
            let pattern = words(pattern, scope);
            let body = rename(body, scope);
            scope.truncate(outer);
            Sketch::Input(*again, channel, from, pattern, Box::new(body))
        }
    }
}

#[test]
fn the_numbers_of_binders_do_not_matter() {
    let mut changed = 0;
    for seed in 0..300 {
        let Some((sides, mut script)) = pipeline(seed) else {
            continue;
        };
        let before = trace(&script);
        let tables = script.pools.clone();
        for (place, handler) in sides.iter().enumerate() {
            let renamed = rename(handler, &mut Vec::new());
            lay_out(&mut Random::new(seed), &mut script, place, &renamed);
        }
        changed += usize::from(tables != script.pools);
        assert_eq!(trace(&script), before, "seed {seed}");
    }
    assert!(changed > 100, "{changed}");
}

#[test]
fn expressions_close_to_their_values() {
    let expression: Expression = reference::terms::Tree::Tuple(vec![
        reference::terms::Tree::Leaf(Subject::Free(Name::Public(5))),
        reference::terms::Tree::Tuple(vec![]),
    ]);
    assert_eq!(expression.closed().words(), [4_000_002, 5, 4_000_000]);
}
