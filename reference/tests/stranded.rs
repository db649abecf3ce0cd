//! All stranded positions of a side after a list of steps, by words.

mod common;
use common::script;
use reference::generator::generate;
use reference::generator::schedule::plain;
use reference::generator::sketch::{new, output, parallel, Sketch, PARENT};
use reference::lines::{read_script, Script};
use reference::load_script;
use reference::state::State;
use reference::steps::{Refusal, Step};
use reference::tables::LoadRefusal;
use reference::words::{step_words, stranded_words, NoList};

const ON_IN: u32 = 0;
const ON_OUT: u32 = 1;
const ON_MID: u32 = 2;
const ON_LOG: u32 = 3;

/// What the lent list holds before, another word at each place.
fn before(room: usize) -> Vec<u32> {
    (0..room as u32).map(|place| 1_000 + place).collect()
}

/// What is told with a list of so many words, and the list after it.
fn told(
    script: &Script,
    steps: &[u32],
    side: u32,
    room: usize,
) -> (Result<usize, NoList>, Vec<u32>) {
    let mut out = before(room);
    let told = stranded_words(script.wrapper, script.tables(), steps, side, &mut out);
    (told, out)
}

/// What is told where nothing may be written.
fn untouched(script: &Script, steps: &[u32], side: u32, room: usize) -> Option<NoList> {
    let (told, out) = told(script, steps, side, room);
    assert_eq!(out, before(room));
    told.err()
}

/// Expects these positions with a list of every length up to a few words over.
fn expect(script: &Script, steps: &[Step], side: u32, positions: &[u32]) {
    let words = step_words(steps);
    let count = positions.len();
    for room in 0..count {
        let why = untouched(script, &words, side, room);
        assert_eq!(why, Some(NoList::TooShort), "{room} words");
    }
    for room in count..count + 4 {
        let (told, out) = told(script, &words, side, room);
        assert_eq!(told, Ok(count));
        assert_eq!(out, [positions, &before(room)[count..]].concat());
    }
}

/// Outputs to the parent on these channels, in order.
fn sends(channels: &[u32]) -> Sketch {
    let send = |&channel: &u32| output(channel, PARENT, &[20]);
    parallel(channels.iter().map(send).collect())
}

/// The first output goes up.
fn up(side: u32) -> Step {
    plain(3, side, 0, 0)
}

fn enter(side: u32) -> Step {
    Step {
        value: vec![20],
        ..plain(1, side, 0, 0)
    }
}

fn down(side: u32, i: u32) -> Step {
    plain(2, side, i, 0)
}

fn pass(side: u32, i: u32) -> Step {
    plain(6, side, i, 0)
}

fn leave(side: u32, i: u32) -> Step {
    plain(7, side, i, 0)
}

#[test]
fn none() {
    for wrapper in [1, 3] {
        let script = script(wrapper, &[sends(&[ON_OUT])]);
        for steps in [
            &[][..],
            &[enter(1)],
            &[up(1)],
            &[up(1), pass(1, 0)],
            &[up(1), pass(1, 0), leave(1, 0)],
        ] {
            expect(&script, steps, 1, &[]);
        }
    }
    let shelved = script(2, &[sends(&[ON_MID]), Sketch::Nil]);
    expect(&shelved, &[up(1)], 1, &[]);
    expect(&shelved, &[up(1)], 2, &[]);
    expect(&shelved, &[up(1), plain(8, 2, 0, 0)], 2, &[]);
}

#[test]
fn one() {
    for wrapper in [1, 3] {
        for channel in [ON_IN, ON_MID, ON_LOG, 5, 63] {
            let script = script(wrapper, &[sends(&[channel])]);
            expect(&script, &[], 1, &[]);
            expect(&script, &[up(1)], 1, &[0]);
        }
    }
    // new out. out^parent: the minted channel is not `out`.
    let minted = script(1, &[new(ON_OUT, sends(&[ON_OUT]))]);
    expect(&minted, &[up(1)], 1, &[0]);
}

#[test]
fn each_side_of_the_pipeline_has_its_own() {
    let script = script(2, &[sends(&[5, ON_MID, 6]), sends(&[ON_OUT, ON_MID])]);
    let steps = [up(1), up(2), up(1), up(2), up(1)];
    expect(&script, &steps, 1, &[0, 1]);
    expect(&script, &steps, 2, &[1]);
    expect(&script, &steps[..2], 1, &[0]);
    expect(&script, &steps[..2], 2, &[]);
}

#[test]
fn messages_between_them_that_are_not_stranded() {
    let channels = [ON_MID, ON_OUT, 5, ON_OUT, ON_IN];
    let steps = [up(1), enter(1), up(1), up(1), up(1), pass(1, 4), up(1)];
    let filter = script(1, &[sends(&channels)]);
    expect(&filter, &steps, 1, &[0, 3, 5]);
    // Copies on `log` stand before what enters and behind all where something passes.
    let logging = script(3, &[sends(&channels)]);
    let steps = [up(1), enter(1), up(1), up(1), up(1), pass(1, 3), up(1)];
    expect(&logging, &steps, 1, &[0, 4, 7]);
    let taken = script(2, &[sends(&[ON_MID]), sends(&[ON_MID, ON_MID])]);
    let steps = [up(2), up(1), plain(8, 2, 0, 0), enter(2), up(2)];
    expect(&taken, &steps, 2, &[0, 3]);
}

#[test]
fn all_sixteen() {
    for (wrapper, side) in [(1, 1), (2, 1), (2, 2), (3, 1)] {
        let handler = sends(&[5; 18]);
        let handlers = vec![handler; if wrapper == 2 { 2 } else { 1 }];
        let script = script(wrapper, &handlers);
        let steps = vec![up(side); 18];
        expect(&script, &steps, side, &Vec::from_iter(0..16));
        expect(&script, &steps[..15], side, &Vec::from_iter(0..15));
    }
    let last = script(1, &[sends(&[5])]);
    let steps = [vec![enter(1); 15], vec![up(1)]].concat();
    expect(&last, &steps, 1, &[15]);
}

#[test]
fn how_long_the_list_is() {
    let script = script(1, &[sends(&[5, 6])]);
    let two = step_words(&[up(1), enter(1), up(1)]);
    assert_eq!(told(&script, &two, 1, 2), (Ok(2), vec![0, 2]));
    assert_eq!(told(&script, &two, 1, 3), (Ok(2), vec![0, 2, 1_002]));
    let longer = [&[0, 2], &before(20)[2..]].concat();
    assert_eq!(told(&script, &two, 1, 20), (Ok(2), longer));
    let short = |room: usize| (Err(NoList::TooShort), before(room));
    assert_eq!(told(&script, &two, 1, 1), short(1));
    assert_eq!(told(&script, &two, 1, 0), short(0));
    let one = step_words(&[up(1)]);
    assert_eq!(told(&script, &one, 1, 0), short(0));
    assert_eq!(told(&script, &one, 1, 1), (Ok(1), vec![0]));
    assert_eq!(told(&script, &[], 1, 0), (Ok(0), vec![]));
}

#[test]
fn a_side_that_the_wrapper_lacks_has_none() {
    for wrapper in [1, 3] {
        let script = script(wrapper, &[sends(&[5])]);
        for side in [0, 2, 3, u32::MAX] {
            expect(&script, &[up(1)], side, &[]);
        }
        expect(&script, &[up(1)], 1, &[0]);
    }
    let script = script(2, &[sends(&[5]), sends(&[5])]);
    for side in [0, 3, u32::MAX] {
        expect(&script, &[up(1), up(2)], side, &[]);
    }
}

#[test]
fn a_removal_closes_the_gap() {
    let filter = script(1, &[sends(&[ON_OUT, 5, 6])]);
    let steps = [enter(1), up(1), up(1), enter(1), up(1)];
    expect(&filter, &steps, 1, &[2, 4]);
    let steps = [&steps[..], &[down(1, 0)]].concat();
    expect(&filter, &steps, 1, &[1, 3]);
    let steps = [&steps[..], &[pass(1, 0)]].concat();
    expect(&filter, &steps, 1, &[1, 3]);
    let steps = [&steps[..], &[leave(1, 0)]].concat();
    expect(&filter, &steps, 1, &[0, 2]);
    let steps = [&steps[..], &[down(1, 1)]].concat();
    expect(&filter, &steps, 1, &[0, 1]);

    let logging = script(3, &[sends(&[5])]);
    let steps = [enter(1), up(1), leave(1, 0), down(1, 0)];
    for (count, position) in [(2, 2), (3, 1), (4, 0)] {
        expect(&logging, &steps[..count], 1, &[position]);
    }

    let pipeline = script(2, &[sends(&[ON_MID]), sends(&[ON_MID])]);
    let steps = [up(1), plain(8, 2, 0, 0), up(2), down(2, 0)];
    expect(&pipeline, &steps[..3], 2, &[1]);
    expect(&pipeline, &steps, 2, &[0]);
}

#[test]
fn refused_steps_change_nothing_and_the_others_go_on() {
    let script = script(1, &[sends(&[5, 6])]);
    let refused = [
        pass(1, 0),
        leave(1, 0),
        down(1, 0),
        up(2),
        plain(9, 1, 0, 0),
    ];
    let steps = [&refused[..], &[up(1)], &refused, &[up(1)], &refused].concat();
    expect(&script, &steps, 1, &[0, 1]);
}

#[test]
fn tables_that_load_refuses() {
    let refusal = |number, side, node| Some(NoList::Unloaded(LoadRefusal { number, side, node }));
    let mut script = script(1, &[sends(&[5])]);
    let up = step_words(&[up(1)]);
    let broken = &up[..4];
    for steps in [&up, &up[..0], broken] {
        for (side, room) in [(1, 0), (1, 16), (2, 0), (u32::MAX, 3)] {
            script.wrapper = 4;
            assert_eq!(untouched(&script, steps, side, room), refusal(1, 0, 0));
            script.wrapper = 2;
            assert_eq!(untouched(&script, steps, side, room), refusal(1, 2, 0));
        }
    }
    script.wrapper = 1;
    script.nodes[0][0] = 7;
    assert_eq!(untouched(&script, broken, 1, 0), refusal(2, 1, 0));
    assert_eq!(untouched(&script, &up, 2, 16), refusal(2, 1, 0));
}

#[test]
fn steps_that_break_off() {
    let script = script(1, &[sends(&[5])]);
    let steps = step_words(&[up(1), enter(1), leave(1, 9)]);
    for end in (0..16).filter(|end| ![0, 5, 11, 16].contains(end)) {
        for (side, room) in [(1, 0), (1, 1), (1, 16), (2, 0)] {
            let why = untouched(&script, &steps[..end], side, room);
            assert_eq!(why, Some(NoList::BrokenOff), "cut at {end}");
        }
    }
    for count in [1, u32::MAX - 4, u32::MAX] {
        let behind_refused = [&steps[11..], &[3, 1, 0, 0, count]].concat();
        let why = untouched(&script, &behind_refused, 1, 16);
        assert_eq!(why, Some(NoList::BrokenOff), "{count}");
    }
    assert_eq!(told(&script, &steps, 1, 1), (Ok(1), vec![0]));
}

/// The positions at which down, pass and leave all give 13.
fn stuck(state: &State, side: u32) -> Vec<u32> {
    let lobby = state.sides.iter().find(|part| part.number == side);
    let count = lobby.map_or(0, |part| part.lobby.len() as u32);
    let unable = |kind: u32, i: u32| {
        let outcome = state.clone().step(&plain(kind, side, i, 0)).outcome;
        outcome == Err(Refusal::Unable)
    };
    let stuck = |&i: &u32| [2, 6, 7].iter().all(|&kind| unable(kind, i));
    (0..count).filter(stuck).collect()
}

#[test]
fn generated_runs() {
    let mut tried = [0; 3];
    for seed in 0..400 {
        let Ok(script) = read_script(&generate(seed)) else {
            continue;
        };
        let Ok(mut state) = load_script(&script) else {
            let words = step_words(&script.steps);
            let why = untouched(&script, &words, 1, 16);
            assert!(matches!(why, Some(NoList::Unloaded(_))));
            continue;
        };
        for step in &script.steps {
            state.step(step);
        }
        for side in 0..4 {
            let positions = stuck(&state, side);
            expect(&script, &script.steps, side, &positions);
            tried[positions.len().min(2)] += 1;
        }
    }
    assert!(tried.iter().all(|&count| count > 20), "{tried:?}");
}
