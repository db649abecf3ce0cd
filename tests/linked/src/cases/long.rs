//! Runs of well over 1,024 steps, which the text does not allow but lists do.

use super::base::{claim_about, labels_of};
use super::Case;
use crate::call::{Call, Claim};
use reference::generator::schedule::{plain, value_over};
use reference::lines::Script;
use reference::random::Random;
use reference::steps::Step;
use reference::words::{label_words, step_words, Record, ANSWER_WORDS};

/// The copier `!in y. out <y y>`: its nodes and its pool.
const COPIER: ([u32; 10], [u32; 4]) = ([6, 0, 1, 0, 1, 4, 1, 1, 1, 0], [10, 4_000_002, 10, 10]);

/// The labels of a long run with a change of its last one; that its steps end otherwise; the run.
pub fn cases(random: &mut Random) -> Vec<Case> {
    let wrapper = random.between(1, 3) as u32;
    let script = copiers(wrapper);
    let mut steps = Vec::new();
    let length = random.between(1_025, 2_200);
    while steps.len() < length {
        steps.extend(round(random, wrapper));
    }
    let words = step_words(&steps);
    let labels = labels_of(&script, &words).expect("legal steps");
    let claim = |steps: &[u32], labels: &[Record]| {
        claim_about(&script, steps.to_vec(), label_words(labels))
    };
    let mut changed = labels.clone();
    let last = changed.last_mut().expect("a label of each round");
    *last.value.last_mut().expect("a value") ^= 1;
    let refused = [&words[..], &[2, 1, 16, 0, 0]].concat();
    let right = claim(&words, &labels);
    let run = |claim: Claim, room: usize, sort| Case {
        sort,
        call: Call::Run(claim, room),
    };
    let room = steps.len() * ANSWER_WORDS;
    vec![
        run(right.clone(), room, "long run"),
        run(right.clone(), room - 1, "long run, a word too few"),
        Case::check("long run, right claim", right),
        Case::check("long run, last word changed", claim(&words, &changed)),
        Case::check(
            "long run, last label dropped",
            claim(&words, &labels[..labels.len() - 1]),
        ),
        Case::check(
            "long run, last step breaks off",
            claim(&words[..words.len() - 1], &labels),
        ),
        Case::check("long run, last step refused", claim(&refused, &labels)),
    ]
}

/// A copier on each side that the wrapper has.
fn copiers(wrapper: u32) -> Script {
    let mut script = Script {
        wrapper,
        ..Script::default()
    };
    for place in 0..if wrapper == 2 { 2 } else { 1 } {
        script.nodes[place] = COPIER.0.to_vec();
        script.pools[place] = COPIER.1.to_vec();
    }
    script
}

/// A value goes through a copier: enter, down, meet, up, pass, leave; copies leave at once.
fn round(random: &mut Random, wrapper: u32) -> Vec<Step> {
    let side = if wrapper == 2 {
        random.between(1, 2) as u32
    } else {
        1
    };
    let step = |(kind, i): (u32, u32)| plain(kind, side, i, 0);
    let enter = Step {
        value: entered(random),
        ..plain(1, side, 0, 0)
    };
    let logged = [(7, 0), (2, 0), (5, 1), (3, 1), (6, 0), (7, 0), (7, 0)];
    let usual = [(2, 0), (5, 1), (3, 1), (6, 0), (7, 0)];
    let rest = if wrapper == 3 { &logged[..] } else { &usual };
    std::iter::once(enter)
        .chain(rest.iter().copied().map(step))
        .collect()
}

/// A value of at most seven words, so that a pair of it has at most 16.
fn entered(random: &mut Random) -> Vec<u32> {
    let names = [0, 5, 20, 63, 196_608];
    let mut values = (0..).map(|_| value_over(random, &names));
    let short = values.find(|value| value.len() <= 7);
    short.expect("most values are short")
}
