//! Pipeline inputs in which names from outside enter on both sides, in most of
//! them some name on side 2 only.

use super::schedule::{plain, Scheduler, Style, OUTSIDE};
use super::{handlers, lay_out};
use crate::lines::{print_script, Script, BYTE_LIMIT};
use crate::load_script;
use crate::random::Random;
use crate::state::{Act, State};
use crate::steps::Step;
use crate::terms::{is_outside, LAST_PUBLIC};

/// With so many steps there is room for no more than single ones.
const ROOM: usize = 700;

/// The input of a seed, if its tables load.
pub fn make(seed: u64) -> Option<Script> {
    let random = &mut Random::new(seed ^ 0x6e65_776e_616d_6573);
    let mut script = Script {
        wrapper: 2,
        ..Script::default()
    };
    for place in 0..2 {
        let handler = if random.percent(65) {
            handlers::forwarder(random)
        } else {
            handlers::random_handler(random, place as u32 + 1)
        };
        lay_out(random, &mut script, place, &handler);
    }
    let style = style(random);
    let length = style.length;
    let mut scheduler = Scheduler::new(load_script(&script).ok()?, style);
    let brought = names_of_sides(random);
    for _ in 0..length {
        let side = random.between(1, 2) as u32;
        let mut step = scheduler.next_step_of(random, side);
        if brings(&scheduler.state, &step) {
            bring(random, &mut step.value, &brought[step.side as usize - 1]);
        }
        scheduler.state.step(&step);
        scheduler.steps.push(step);
        if side == 2 && random.percent(20) && scheduler.steps.len() < ROOM {
            scheduler.steps.extend(past_the_ends(&scheduler.state));
        }
    }
    script.steps = scheduler.steps;
    (print_script(&script).len() <= BYTE_LIMIT).then_some(script)
}

/// Steps just past the ends of side 1's lists: down, a meeting with each input,
/// up, pass and leave. They are all refused, but something of side 2's that had
/// come to the end of a list would leave by them.
fn past_the_ends(state: &State) -> Vec<Step> {
    let side = &state.sides[0];
    let (messages, particles) = (side.lobby.len() as u32, side.particles.len() as u32);
    let mut steps = Vec::new();
    let mut add = |kind: u32, end: u32, j: u32| {
        steps.extend([end + 1, end].map(|i| plain(kind, 1, i, j)));
    };
    add(2, messages, 0);
    for (j, particle) in (0..).zip(&side.particles) {
        if matches!(particle.act, Act::Input(_)) {
            add(5, particles, j);
        }
    }
    add(3, particles, 0);
    add(6, messages, 0);
    add(7, messages, 0);
    steps
}

/// A style in which most of what enters is soon out again, or any style.
fn style(random: &mut Random) -> Style {
    let mut style = Style::random(random);
    if random.percent(80) {
        style.length = random.between(60, 200);
        style.weights = [10, 25, 40, 10, 40, 40, 40, 40];
    }
    style
}

/// The names from outside that each side brings: side 2 alone, so that side 1
/// has a public one in their place, each side its own, some in common, or all.
fn names_of_sides(random: &mut Random) -> [Vec<u32>; 2] {
    let [one, two, three] = OUTSIDE;
    match random.below(5) {
        0 => [vec![20], vec![one, two, three]],
        1 => [vec![one], vec![two, three]],
        2 => [vec![two], vec![one, three]],
        3 => [vec![one, two], vec![two, three]],
        _ => [OUTSIDE.to_vec(), OUTSIDE.to_vec()],
    }
}

/// True for an enter that is not refused. A refused one brings nothing and may
/// ask for any name.
fn brings(state: &State, step: &Step) -> bool {
    step.kind == 1 && state.clone().step(step).outcome.is_ok()
}

/// Puts a side's names in the place of those from outside and of some public
/// ones.
fn bring(random: &mut Random, words: &mut [u32], names: &[u32]) {
    for word in words {
        if is_outside(*word) || (*word <= LAST_PUBLIC && random.percent(30)) {
            *word = random.pick(names);
        }
    }
}
