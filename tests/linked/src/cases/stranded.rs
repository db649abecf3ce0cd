//! Questions for stranded positions: after the runs of a seed and after runs that strand messages, of sides
//! that are there and of others, with more and less room.

use super::base::{claim_about, Base};
use super::runs::Checked;
use super::Case;
use crate::call::{Call, Claim, List};
use reference::generator::schedule::{plain, Scheduler, Style};
use reference::generator::sketch::{new, output, parallel, repeat, Sketch, PARENT};
use reference::generator::{lay_out, sides_of};
use reference::lines::Script;
use reference::load_script;
use reference::random::Random;
use reference::state::LOBBY_LIMIT;
use reference::steps::Step;
use reference::words::{step_words, stranded_words};

/// After so many claims of a seed the question is asked too.
const CLAIMS: usize = 6;
/// Sides that no wrapper has.
const NO_SIDES: [u32; 3] = [0, 3, u32::MAX];
/// Channels on which a message strands, from side 1 of the pipeline not on `mid`.
const STRANDING: [u32; 5] = [0, 2, 3, 5, 63];
/// The channel `out`.
const OUT: u32 = 1;
/// With all cuts a run has at most so many steps.
const FEW_STEPS: usize = 25;
/// A run of so many refused steps is longer than a text allows.
const MANY_STEPS: usize = 1_030;

pub fn cases(random: &mut Random, seed: u64, base: &Base, checked: &[Case]) -> Vec<Case> {
    let asked = base.claim_of(&base.asked, &[]);
    let mut cases = of_sides(random, "steps as scheduled", &asked);
    let checked = Checked::of(checked);
    for place in 0..CLAIMS {
        let claim = checked.pick(random, place);
        let side = any_side(random);
        cases.extend(with_rooms(random, "claim of the seed", claim, side));
    }
    let (script, steps) = stranding(random);
    cases.extend(after_stranding(random, &script, &steps));
    match seed % 10 {
        0 => cases.extend(all_cuts(random, &script, &steps)),
        1 => cases.extend(long(random, &script, &steps)),
        _ => {}
    }
    cases
}

/// A run that strands messages: as a whole, with fewer steps, broken off, and under other wrappers.
fn after_stranding(random: &mut Random, script: &Script, steps: &[Step]) -> Vec<Case> {
    let claim = |steps: &[Step]| claim_about(script, step_words(steps), Vec::new());
    let whole = claim(steps);
    let mut cases = of_sides(random, "run that strands", &whole);
    let side = random.between(1, sides_of(script)) as u32;
    let fewer = claim(&steps[..random.below(steps.len() + 1)]);
    let sort = "run that strands, with fewer steps";
    cases.extend(with_rooms(random, sort, &fewer, side));
    cases.extend(broken(random, &whole, side));
    let wrapper = random.pick(&[0, 1, 2, 3, 4]);
    let other = Claim { wrapper, ..whole };
    let sort = "run that strands, any wrapper";
    cases.extend(with_rooms(random, sort, &other, side));
    cases
}

/// Steps that break off: cut by a word, cut anywhere, and behind the last record.
fn broken(random: &mut Random, whole: &Claim, side: u32) -> Vec<Case> {
    let count = whole.steps.lent().len();
    let behind = [whole.steps.lent(), &[9, 9, 9, 9, 0, 3, 1, 0, 0, 1]].concat();
    let lists = [
        whole.steps.cut(count.saturating_sub(1)),
        whole.steps.cut(random.below(count + 1)),
        List::whole(behind),
    ];
    let mut cases = Vec::new();
    for steps in lists {
        let claim = whole.with_steps(steps);
        let room = random.pick(&[0, 1, LOBBY_LIMIT]);
        cases.push(ask("run that strands, cut", &claim, side, room));
    }
    cases
}

/// The first steps of a run that strands messages, cut at every place.
fn all_cuts(random: &mut Random, script: &Script, steps: &[Step]) -> Vec<Case> {
    let few = &steps[..steps.len().min(FEW_STEPS)];
    let side = random.between(1, sides_of(script)) as u32;
    let whole = claim_about(script, step_words(few), Vec::new());
    let cuts = (0..=whole.steps.lent().len()).map(|at| whole.with_steps(whole.steps.cut(at)));
    let sort = "run that strands, cut at every place";
    cuts.map(|claim| ask(sort, &claim, side, LOBBY_LIMIT))
        .collect()
}

/// A run that strands messages behind so many refused steps that a text could not have them.
fn long(random: &mut Random, script: &Script, steps: &[Step]) -> Vec<Case> {
    let refused = vec![plain(7, 1, 0, 0); MANY_STEPS];
    let words = step_words(&[&refused, steps].concat());
    let claim = claim_about(script, words, Vec::new());
    of_sides(random, "long run that strands", &claim)
}

fn ask(sort: &'static str, claim: &Claim, side: u32, room: usize) -> Case {
    let call = Call::Stranded(claim.clone(), side, room);
    Case { sort, call }
}

/// A side, mostly one that a wrapper has.
fn any_side(random: &mut Random) -> u32 {
    let side = random.pick(&NO_SIDES);
    random.pick(&[1, 1, 1, 2, 2, side])
}

/// The question for both sides and for one that is not there.
fn of_sides(random: &mut Random, sort: &'static str, claim: &Claim) -> Vec<Case> {
    let none = random.pick(&NO_SIDES);
    let mut cases = with_rooms(random, sort, claim, 1);
    cases.extend(with_rooms(random, sort, claim, 2));
    cases.push(ask(sort, claim, none, 0));
    cases.push(ask(sort, claim, none, random.between(1, LOBBY_LIMIT)));
    cases
}

/// The question with exactly enough words, with one too few, with more, with none and with any number.
fn with_rooms(random: &mut Random, sort: &'static str, claim: &Claim, side: u32) -> Vec<Case> {
    let tables = claim.tables();
    let found = stranded_words(
        tables.wrapper,
        tables.parts(),
        claim.steps.lent(),
        side,
        &mut [0; LOBBY_LIMIT],
    );
    let exact = found.unwrap_or(0);
    let more = exact + random.pick(&[1, 2, 7, LOBBY_LIMIT]);
    let mut rooms = vec![exact, more, random.below(more)];
    if exact > 0 {
        rooms.extend([exact - 1, 0]);
    }
    rooms
        .into_iter()
        .map(|room| ask(sort, claim, side, room))
        .collect()
}

/// Tables under some wrapper and a schedule by which messages strand, often many of them.
fn stranding(random: &mut Random) -> (Script, Vec<Step>) {
    let mut script = Script {
        wrapper: random.between(1, 3) as u32,
        ..Script::default()
    };
    let full = random.percent(20);
    for place in 0..sides_of(&script) {
        let handler = sender(random, full);
        lay_out(random, &mut script, place, &handler);
    }
    let state = load_script(&script).expect("a handler that loads");
    let mut scheduler = Scheduler::new(state, style(random, full));
    scheduler.run(random);
    (script, scheduler.steps)
}

/// A handler that sends up from the start and on what comes in, on channels of which many strand; full is
/// one with which they can fill the lobby.
fn sender(random: &mut Random, full: bool) -> Sketch {
    let (least, passing) = if full {
        (LOBBY_LIMIT + 2, 0)
    } else {
        (1, random.pick(&[0, 20, 50]))
    };
    let count = random.between(least, LOBBY_LIMIT + 6);
    let mut parts: Vec<Sketch> = (0..count).map(|_| send(random, passing, 20)).collect();
    let replies = (0..random.between(1, 3)).map(|_| send(random, passing, 10));
    let replies = parallel(replies.collect());
    parts.push(repeat(0, PARENT, &[10], replies.clone()));
    parts.push(repeat(2, PARENT, &[10], replies));
    parallel(parts)
}

/// An output to the parent: on `out` so many times in a hundred, else where it strands.
fn send(random: &mut Random, passing: usize, value: u32) -> Sketch {
    let channel = random.pick(&STRANDING);
    match random.below(100) {
        share if share < passing => output(OUT, PARENT, &[value]),
        share if share > 94 => new(OUT, output(OUT, PARENT, &[value])),
        _ => output(channel, PARENT, &[value]),
    }
}

/// A style in which much goes up, and what enters or passes stays between or makes room; full is one in
/// which hardly anything else happens.
fn style(random: &mut Random, full: bool) -> Style {
    let length = random.pick(&[6, 15, 30, 45, 60]);
    let weights = [
        [1, 10, 60, 0, 10, 10, 20, 5],
        [20, 10, 30, 0, 20, 20, 10, 10],
        [12, 20, 40, 0, 30, 30, 30, 20],
    ];
    Style {
        length: if full { 60 } else { length },
        weights: if full {
            weights[0]
        } else {
            random.pick(&weights)
        },
        refused: random.pick(&[0, 5, 20]),
        wild: random.pick(&[0, 2, 10]),
    }
}
