//! Pairs of pipeline inputs with the same side 1: the same table and the same
//! steps in the same order. Side 2's table, its steps and where they stand
//! among side 1's differ.
//!
//! What side 1's kind-1 steps ask to enter keeps the premise: every name in it
//! is public or from outside, or an out label of side 1 before it in the same
//! run holds it.

use super::schedule::{value_over, wild_step, Scheduler, Style, OUTSIDE};
use super::sketch::Sketch;
use super::{handlers, lay_out};
use crate::lines::Script;
use crate::load_script;
use crate::random::Random;
use crate::steps::{Label, Step};
use crate::terms::Name;
use std::collections::BTreeSet;

/// Two scripts with the same side 1.
pub struct Pair {
    pub one: Script,
    pub other: Script,
}

impl Pair {
    /// The pair of a seed, if its tables load and side 1 has steps. Without
    /// the premise side 1 may also ask for names of side 2.
    pub fn make(seed: u64, premise: bool) -> Option<Pair> {
        let random = &mut Random::new(seed ^ 0x696e_6465_7065_6e64);
        let mut one = Script {
            wrapper: 2,
            ..Script::default()
        };
        let busy = random.percent(12);
        let first = handler(random, 1, busy);
        lay_out(random, &mut one, 0, &first);
        let mut other = one.clone();
        for script in [&mut one, &mut other] {
            let drains = busy && random.percent(50);
            let second = handler(random, 2, drains);
            lay_out(random, script, 1, &second);
        }
        let style = if busy {
            Style::busy(random)
        } else {
            Style {
                length: random.between(10, 120),
                ..Style::random(random)
            }
        };
        one.steps = first_schedule(random, &one, style, premise)?;
        let own = own_steps(&one);
        other.steps = around(random, &other, &own)?;
        (!own.is_empty()).then_some(Pair { one, other })
    }
}

/// A handler for a side; a busy one passes much over `mid` or mints much.
fn handler(random: &mut Random, side: u32, busy: bool) -> Sketch {
    if busy {
        let shelf = random.percent(60);
        return handlers::busy_handler(random, side, shelf);
    }
    handlers::random_handler(random, side)
}

/// The steps of side 1, in order.
pub fn own_steps(script: &Script) -> Vec<Step> {
    let own = script.steps.iter().filter(|step| step.side == 1);
    own.cloned().collect()
}

/// A schedule for both sides in which side 1 keeps the premise.
fn first_schedule(
    random: &mut Random,
    script: &Script,
    style: Style,
    premise: bool,
) -> Option<Vec<Step>> {
    let state = load_script(script).ok()?;
    let length = style.length;
    let mut scheduler = Scheduler::new(state, style);
    let mut left = BTreeSet::new();
    for _ in 0..length {
        let side = random.between(1, 2) as u32;
        let mut step = scheduler.next_step_of(random, side);
        if step.side == 1 && step.kind == 1 {
            keep_premise(random, &mut step, &left, premise);
        }
        let answer = scheduler.state.step(&step);
        if let (1, Ok(Label::Out(value))) = (answer.side, &answer.outcome) {
            left.extend(value.leaves().into_iter().map(|name| name.word()));
        }
        scheduler.steps.push(step);
    }
    Some(scheduler.steps)
}

/// Replaces what an enter of side 1 asks for if it breaks the premise; without
/// the premise it may ask for a name of side 2.
fn keep_premise(random: &mut Random, step: &mut Step, left: &BTreeSet<u32>, premise: bool) {
    if !premise {
        if random.percent(20) {
            step.value = vec![131_072 + random.between(0, 1) as u32];
        }
        return;
    }
    let mut names = vec![0, 1, 2, 5, 6, 7, 10, 20, 63];
    names.extend(OUTSIDE);
    names.extend(left);
    if random.percent(40) {
        step.value = value_over(random, &names);
    }
    if !keeps_premise(&step.value, left) {
        step.value = value_over(random, &names);
    }
}

/// True if every minted name among the words has left by side 1's outlet.
pub fn keeps_premise(words: &[u32], left: &BTreeSet<u32>) -> bool {
    let fine = |word: &u32| match Name::from_word(*word) {
        Some(Name::Minted { .. }) => left.contains(word),
        _ => true,
    };
    words.iter().all(fine)
}

/// Another schedule round side 1's steps: side 2's steps are found anew and
/// stand elsewhere among them.
fn around(random: &mut Random, script: &Script, own: &[Step]) -> Option<Vec<Step>> {
    let state = load_script(script).ok()?;
    let mut scheduler = Scheduler::new(state, Style::random(random));
    let gap = random.pick(&[0, 20, 50, 70]);
    for step in own {
        while random.percent(gap) && scheduler.steps.len() + own.len() < 1_000 {
            let step = other_step(random, &scheduler);
            scheduler.state.step(&step);
            scheduler.steps.push(step);
        }
        scheduler.state.step(step);
        scheduler.steps.push(step.clone());
    }
    Some(scheduler.steps)
}

/// A step of any side but 1.
fn other_step(random: &mut Random, scheduler: &Scheduler) -> Step {
    let mut step = if random.percent(10) {
        wild_step(random)
    } else {
        scheduler.next_step_of(random, 2)
    };
    if step.side == 1 {
        step.side = 2;
    }
    step
}
