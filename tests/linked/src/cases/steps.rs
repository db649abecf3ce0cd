//! Claims whose steps are changed, each with the old labels and with those of the changed run.

// All changes have one type, those too that keep the number of steps.
#![allow(clippy::ptr_arg)]

use super::base::{labels_of, Base};
use super::labels::another;
use super::Case;
use reference::generator::schedule::wild_step;
use reference::random::Random;
use reference::steps::Step;
use reference::words::{label_words, step_words};

/// A change of a list of steps.
type Change = fn(&mut Random, &mut Vec<Step>);

const CHANGES: [(&str, Change); 12] = [
    ("step kind changed", kind),
    ("step side changed", side),
    ("step i changed", i),
    ("step j changed", j),
    ("entered word changed", entered_word),
    ("value words in a step of kind 2 to 8", value_words),
    ("enter without words", without_words),
    ("step dropped", drop_any),
    ("step doubled", double),
    ("two steps exchanged", exchange),
    ("any step added", add_any),
    ("any step added last", add_last),
];

pub fn cases(random: &mut Random, base: &Base) -> Vec<Case> {
    let mut cases = Vec::new();
    for (sort, change) in CHANGES {
        let mut steps = base.steps.clone();
        change(random, &mut steps);
        cases.push(Case::check(sort, base.claim_of(&steps, &base.labels)));
        if let Some(labels) = labels_of(&base.script, &step_words(&steps)) {
            let sort = "legal steps changed, with their labels";
            cases.push(Case::check(sort, base.claim_of(&steps, &labels)));
        }
    }
    cases.extend((0..4).map(|_| two_faults(random, base)));
    cases
}

/// A step that is refused, most likely, before something else that is at fault.
fn two_faults(random: &mut Random, base: &Base) -> Case {
    let mut steps = base.steps.clone();
    let place = random.below(steps.len() + 1);
    steps.insert(place, wild_step(random));
    let mut words = step_words(&steps);
    let mut labels = label_words(&base.labels);
    let sort = match random.below(4) {
        0 => {
            words.extend([7, 1, 0, 0, 9]);
            "wild step, then one that breaks off"
        }
        1 => {
            labels.extend([0, 1]);
            "wild step and a label that breaks off"
        }
        2 => {
            labels.drain(..labels.len().min(1));
            "wild step and labels that are no records"
        }
        _ => {
            words.pop();
            labels.clear();
            "wild step, then one that breaks off, no labels"
        }
    };
    Case::check(sort, base.claim_of_words(words, labels))
}

/// One of the steps for which something holds.
fn any<'s>(
    random: &mut Random,
    steps: &'s mut [Step],
    fits: fn(&Step) -> bool,
) -> Option<&'s mut Step> {
    let mut fitting: Vec<&mut Step> = steps.iter_mut().filter(|step| fits(step)).collect();
    if fitting.is_empty() {
        return None;
    }
    Some(fitting.swap_remove(random.below(fitting.len())))
}

fn kind(random: &mut Random, steps: &mut Vec<Step>) {
    if let Some(step) = any(random, steps, |_| true) {
        step.kind = another(random, step.kind, &[0, 1, 2, 3, 4, 5, 6, 7, 8, 9, u32::MAX]);
    }
}

fn side(random: &mut Random, steps: &mut Vec<Step>) {
    if let Some(step) = any(random, steps, |_| true) {
        step.side = another(random, step.side, &[0, 1, 1, 2, 2, 3, u32::MAX]);
    }
}

fn i(random: &mut Random, steps: &mut Vec<Step>) {
    if let Some(step) = any(random, steps, |_| true) {
        step.i = another(random, step.i, &[0, 1, 2, 3, 16, 32, u32::MAX]);
    }
}

fn j(random: &mut Random, steps: &mut Vec<Step>) {
    if let Some(step) = any(random, steps, |_| true) {
        step.j = another(random, step.j, &[0, 1, 2, 3, 16, 32, u32::MAX]);
    }
}

fn entered_word(random: &mut Random, steps: &mut Vec<Step>) {
    if let Some(step) = any(random, steps, |step| step.kind == 1) {
        let place = random.below(step.value.len());
        let words = [
            20, 63, 64, 65_536, 131_072, 196_608, 4_000_000, 4_000_016, 4_999_999,
        ];
        step.value[place] = another(random, step.value[place], &words);
    }
}

fn value_words(random: &mut Random, steps: &mut Vec<Step>) {
    if let Some(step) = any(random, steps, |step| step.kind != 1) {
        step.value = vec![20; random.pick(&[1, 2, 16, 17, 40])];
    }
}

fn without_words(random: &mut Random, steps: &mut Vec<Step>) {
    if let Some(step) = any(random, steps, |step| step.kind == 1) {
        step.value.clear();
    }
}

fn drop_any(random: &mut Random, steps: &mut Vec<Step>) {
    if !steps.is_empty() {
        steps.remove(random.below(steps.len()));
    }
}

fn double(random: &mut Random, steps: &mut Vec<Step>) {
    if !steps.is_empty() {
        let place = random.below(steps.len());
        steps.insert(place, steps[place].clone());
    }
}

fn exchange(random: &mut Random, steps: &mut Vec<Step>) {
    if steps.len() > 1 {
        let place = random.below(steps.len() - 1);
        steps.swap(place, place + 1);
    }
}

fn add_any(random: &mut Random, steps: &mut Vec<Step>) {
    let place = random.below(steps.len() + 1);
    steps.insert(place, wild_step(random));
}

fn add_last(random: &mut Random, steps: &mut Vec<Step>) {
    steps.push(wild_step(random));
}
