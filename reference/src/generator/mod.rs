//! Seeded inputs: handlers written as small processes, laid out as tables,
//! with schedules that the library itself helps to find, and damage.

pub mod damage;
pub mod handlers;
pub mod newcomers;
pub mod pairs;
pub mod schedule;
pub mod sketch;
pub mod tally;

use crate::lines::{print_script, Script, BYTE_LIMIT};
use crate::load_script;
use crate::random::Random;
use crate::state::State;
use crate::steps::Step;
use schedule::{Scheduler, Style};
use sketch::Sketch;

/// The input for a seed; every fourth is of the logging wrapper.
pub fn generate(seed: u64) -> Vec<u8> {
    if seed % 4 == 3 {
        generate_logged(seed)
    } else {
        generate_unlogged(seed)
    }
}

/// The input for a seed under the filter or the pipeline.
pub fn generate_unlogged(seed: u64) -> Vec<u8> {
    generate_with(seed, false)
}

/// The input for a seed under the logging wrapper.
pub fn generate_logged(seed: u64) -> Vec<u8> {
    generate_with(seed, true)
}

fn generate_with(seed: u64, logged: bool) -> Vec<u8> {
    let mut random = Random::new(seed);
    let script = random_script(&mut random, logged);
    let mut text = print_script(&script).into_bytes();
    if random.percent(8) {
        text = rewrite_lines(&mut random, &text);
    }
    if random.percent(10) {
        text = damage::damage_text(&mut random, text);
    }
    text
}

/// Tables, perhaps damaged, and a schedule for them.
fn random_script(random: &mut Random, logged: bool) -> Script {
    let mut script = random_tables(random, logged);
    if random.percent(22) {
        damage::damage_tables(random, &mut script);
    }
    let mut style = Style::random(random);
    if logged && random.percent(40) {
        style = Style::crowded(random);
    } else if random.percent(5) {
        style = busy_script(random, &mut script, logged);
    } else if random.percent(6) {
        style.length = random.between(300, 1_024);
    }
    add_steps(random, &mut script, style);
    script
}

/// Makes the script a long one whose handlers fill the shelf or the mint.
fn busy_script(random: &mut Random, script: &mut Script, logged: bool) -> Style {
    let shelf = random.percent(60) && !logged;
    script.wrapper = match (logged, shelf) {
        (true, _) => 3,
        (false, true) => 2,
        (false, false) => script.wrapper.clamp(1, 2),
    };
    for place in 0..sides_of(script) {
        let handler = handlers::busy_handler(random, place as u32 + 1, shelf);
        lay_out(random, script, place, &handler);
    }
    if sides_of(script) == 1 {
        (script.nodes[1], script.pools[1]) = (vec![], vec![]);
    }
    Style::busy(random)
}

/// How many handlers the wrapper of a script has.
pub fn sides_of(script: &Script) -> usize {
    if script.wrapper == 2 {
        2
    } else {
        1
    }
}

/// Sound tables for the logging wrapper, or for one of the others.
fn random_tables(random: &mut Random, logged: bool) -> Script {
    let unlogged = random.between(1, 2) as u32;
    let mut script = Script {
        wrapper: if logged { 3 } else { unlogged },
        ..Script::default()
    };
    for place in 0..sides_of(&script) {
        let handler = handlers::random_handler(random, place as u32 + 1);
        lay_out(random, &mut script, place, &handler);
    }
    script
}

/// Puts a handler's table into a place of the script.
pub fn lay_out(random: &mut Random, script: &mut Script, place: usize, handler: &Sketch) {
    let (nodes, pool) = sketch::table(random, handler);
    script.nodes[place] = nodes;
    script.pools[place] = pool;
}

/// Adds steps: found with the state's help if the tables load, else any.
fn add_steps(random: &mut Random, script: &mut Script, style: Style) {
    match load_script(script) {
        Ok(state) => script.steps = schedule_for(random, state, style),
        Err(_) => {
            let count = random.below(4);
            script.steps = (0..count).map(|_| schedule::wild_step(random)).collect();
        }
    }
    while print_script(script).len() > BYTE_LIMIT {
        let half = script.steps.len() / 2;
        script.steps.truncate(half);
    }
}

/// A schedule in a style from a state on.
fn schedule_for(random: &mut Random, state: State, style: Style) -> Vec<Step> {
    let mut scheduler = Scheduler::new(state, style);
    scheduler.run(random);
    scheduler.steps
}

/// The same input written in another way: sides of N and V lines interleaved,
/// and leading zeros.
fn rewrite_lines(random: &mut Random, text: &[u8]) -> Vec<u8> {
    let text = String::from_utf8_lossy(text);
    let mut lines: Vec<String> = text.lines().map(String::from).collect();
    if random.percent(60) {
        for letter in ["N", "V"] {
            interleave_sides(random, &mut lines, letter);
        }
    }
    let zeros = "0".repeat(random.below(12));
    let share = random.between(0, 30);
    for line in &mut lines {
        if random.percent(share) {
            *line = line.replace('\t', &format!("\t{zeros}"));
        }
    }
    lines
        .iter()
        .flat_map(|line| format!("{line}\n").into_bytes())
        .collect()
}

/// Mixes the two sides' lines of a letter, each side's order kept.
fn interleave_sides(random: &mut Random, lines: &mut [String], letter: &str) {
    let first = format!("{letter}\t1\t");
    let both = format!("{letter}\t");
    let places: Vec<usize> = (0..lines.len())
        .filter(|&at| lines[at].starts_with(&both))
        .collect();
    let (mut one, mut two): (Vec<String>, Vec<String>) = places
        .iter()
        .map(|&at| lines[at].clone())
        .partition(|line| line.starts_with(&first));
    one.reverse();
    two.reverse();
    for at in places {
        let from_one = two.is_empty() || (!one.is_empty() && random.percent(50));
        let next = if from_one { one.pop() } else { two.pop() };
        lines[at] = next.expect("as many lines as places");
    }
}
