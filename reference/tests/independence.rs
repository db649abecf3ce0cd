//! Side 2 does not show in side 1: the claim about two pipeline runs, tried on
//! pairs of runs with side 1's answers and side 1's state.

mod common;
use common::text;
use reference::generator::pairs::{keeps_premise, own_steps, Pair};
use reference::lines::{read_script, Script};
use reference::load_script;
use reference::state::{Side, State};
use reference::steps::{Answer, Label};
use reference::terms::{is_outside, Value};
use std::collections::BTreeSet;

/// Side 1's state: its own part and the shelf.
type FirstSide = (Side, Vec<Value>);

fn first_side(state: &State) -> FirstSide {
    (state.sides[0].clone(), state.shelf.clone())
}

/// Side 1's answers and side 1's state after each of them.
fn run(script: &Script) -> Vec<(Answer, FirstSide)> {
    let mut state = load_script(script).expect("tables that load");
    let mut seen = Vec::new();
    for step in &script.steps {
        let answer = state.step(step);
        if step.side == 1 {
            seen.push((answer, first_side(&state)));
        }
    }
    seen
}

#[test]
fn side_1_answers_and_state_do_not_depend_on_side_2() {
    let mut answers = 0;
    for pair in (0..400).filter_map(|seed| Pair::make(seed, true)) {
        assert_eq!(own_steps(&pair.one), own_steps(&pair.other));
        assert_eq!(pair.one.nodes[0], pair.other.nodes[0]);
        assert_eq!(pair.one.pools[0], pair.other.pools[0]);
        let (one, other) = (run(&pair.one), run(&pair.other));
        assert_eq!(one, other);
        answers += one.len();
    }
    assert!(answers > 4_000, "{answers}");
}

#[test]
fn the_pairs_keep_the_premise() {
    let mut entered_again = 0;
    for pair in (0..400).filter_map(|seed| Pair::make(seed, true)) {
        for script in [&pair.one, &pair.other] {
            let mut left = BTreeSet::new();
            for (step, (answer, _)) in own_steps(script).iter().zip(run(script)) {
                assert!(step.kind != 1 || keeps_premise(&step.value, &left));
                entered_again += usize::from(step.value.iter().any(|word| left.contains(word)));
                if let Ok(Label::Out(value)) = answer.outcome {
                    left.extend(value.words().into_iter().filter(|&word| word > 63));
                }
            }
        }
    }
    assert!(entered_again > 20, "{entered_again}");
}

/// The names from outside that the in labels of a side hold in a run, each
/// with the place of the step.
fn brought(script: &Script, side: u32) -> Vec<(usize, u32)> {
    let mut state = load_script(script).expect("tables that load");
    let mut found = Vec::new();
    for (place, step) in script.steps.iter().enumerate() {
        if let (Ok(Label::In(value)), true) = (state.step(step).outcome, step.side == side) {
            let words = value.words().into_iter().filter(|&word| is_outside(word));
            found.extend(words.map(|word| (place, word)));
        }
    }
    found
}

#[test]
fn names_from_outside_enter_on_either_side_of_the_pairs() {
    let [mut first, mut second, mut after, mut one_run] = [0; 4];
    for pair in (0..400).filter_map(|seed| Pair::make(seed, true)) {
        let on_1 = brought(&pair.one, 1);
        let on_2 = [&pair.one, &pair.other].map(|script| brought(script, 2));
        let words = |found: &[(usize, u32)]| -> BTreeSet<u32> {
            found.iter().map(|(_, word)| *word).collect()
        };
        first += usize::from(!on_1.is_empty());
        second += usize::from(on_2.iter().all(|found| !found.is_empty()));
        let later = |&(place, word): &(usize, u32)| {
            on_1.iter()
                .any(|&(later, same)| later > place && same == word)
        };
        after += usize::from(on_2[0].iter().any(later));
        let [here, there] = on_2.map(|found| words(&found));
        let differ = here.symmetric_difference(&there);
        let both = words(&on_1);
        one_run += usize::from(differ.into_iter().any(|word| both.contains(word)));
    }
    println!("on side 1: {first}, on side 2 in both runs: {second}");
    println!("on side 1 after side 2: {after}, on side 2 in one run alone: {one_run}");
    assert!(first > 100 && second > 100, "{first} {second}");
    assert!(after > 50 && one_run > 50, "{after} {one_run}");
}

#[test]
fn without_the_premise_some_pairs_differ() {
    let pairs = (0..400).filter_map(|seed| Pair::make(seed, false));
    let different = pairs.filter(|pair| run(&pair.one) != run(&pair.other));
    assert!(different.count() > 10);
}

#[test]
fn the_pairs_differ_on_side_2() {
    let pairs: Vec<Pair> = (0..100).filter_map(|seed| Pair::make(seed, true)).collect();
    let different = pairs
        .iter()
        .filter(|pair| pair.one.nodes[1] != pair.other.nodes[1]);
    assert!(different.count() > pairs.len() / 2);
    let interleaved = pairs.iter().filter(|pair| {
        let order = |script: &Script| -> Vec<bool> {
            script.steps.iter().map(|step| step.side == 1).collect()
        };
        order(&pair.one) != order(&pair.other)
    });
    assert!(interleaved.count() > pairs.len() / 2);
}

/// Side 1 sends on what enters to the first outlet; side 2's lines and steps
/// are given, and what stands before side 1's steps.
fn beside(second: &str, before: &str) -> Script {
    let listing = format!(
        "W 2
         N 1 6 0 1 0 1
         N 1 4 1 1 0 0
         {second}
         V 1 10
         V 2 10
         {before}
         S 1 1 0 0 4000002 196608 196863
         S 2 1 0 0
         S 5 1 1 0
         S 3 1 1 0
         S 6 1 0 0
         S 7 1 0 0
         S 1 1 0 0 196609"
    );
    read_script(text(&listing).as_bytes()).expect("sound lines")
}

#[test]
fn a_name_from_outside_enters_on_side_1_whatever_side_2_does_with_it() {
    let silent = "N 2 0 0 0 0 0";
    let sender = "N 2 6 0 1 0 1\nN 2 4 1 1 0 0";
    let brings = "S 1 2 0 0 196608\nS 1 2 0 0 196609";
    let lets_out = "S 1 2 0 0 196608\nS 2 2 0 0\nS 5 2 1 0\nS 3 2 1 0\nS 6 2 0 0\nS 7 2 0 0";
    let runs = [
        beside(silent, ""),
        beside(silent, brings),
        beside(sender, lets_out),
    ];
    let seen = runs.each_ref().map(run);
    assert_eq!(seen[0].len(), 7);
    assert_eq!(seen[0], seen[1]);
    assert_eq!(seen[0], seen[2]);
    let labels: Vec<Vec<u32>> = seen[0]
        .iter()
        .filter_map(|(answer, _)| match &answer.outcome {
            Ok(Label::In(value) | Label::Out(value)) => Some(value.words()),
            _ => None,
        })
        .collect();
    let pair = vec![4_000_002, 196_608, 196_863];
    assert_eq!(labels, [pair.clone(), pair, vec![196_609]]);
    for script in &runs {
        let none = BTreeSet::new();
        let enters = own_steps(script).into_iter().filter(|step| step.kind == 1);
        assert!(enters
            .into_iter()
            .all(|step| keeps_premise(&step.value, &none)));
    }
}

#[test]
fn the_premise_is_about_minted_names_alone() {
    let none = BTreeSet::new();
    for word in [0, 63, 64, 196_607, 196_608, 196_863, 196_864] {
        assert!(keeps_premise(&[4_000_002, 20, word], &none), "{word}");
    }
    for word in [65_536, 65_791, 131_072, 131_327] {
        assert!(!keeps_premise(&[4_000_002, 196_608, word], &none), "{word}");
        assert!(keeps_premise(&[word], &BTreeSet::from([word])), "{word}");
    }
}
