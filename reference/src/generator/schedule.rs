//! Schedules: lists of steps found by trying them on the state. A refused step
//! changes nothing, so trying is free.

use crate::random::Random;
use crate::state::{Act, BoxEntry, Origin, OutputTag, Particle, State, Wrapper};
use crate::steps::{tags_fit, Refusal, Step};
use crate::terms::{Direction, Name, TUPLE_WORD, WILDCARD_WORD};

/// A schedule ends after so many refusals in a row.
const STUCK: usize = 12;
/// The names from outside that schedules bring: few, so that they meet again.
pub const OUTSIDE: [u32; 3] = [196_608, 196_609, 196_863];

/// What a schedule is like.
#[derive(Clone, Debug)]
pub struct Style {
    /// How many steps.
    pub length: usize,
    /// How much each kind, 1 to 8, is sought.
    pub weights: [usize; 8],
    /// How many steps in a hundred are sought for a refusal.
    pub refused: usize,
    /// How many steps in a hundred are anything at all.
    pub wild: usize,
}

impl Style {
    /// Some style: even, or one kind pressed far more than the others.
    pub fn random(random: &mut Random) -> Style {
        let mut weights = [5, 14, 16, 14, 24, 16, 16, 20];
        match random.below(6) {
            0 => weights[0] = 60,
            1 => weights = [20, 30, 5, 5, 60, 1, 1, 10],
            2 => weights = [10, 20, 40, 10, 40, 1, 1, 2],
            3 => weights = [8, 20, 40, 10, 40, 40, 40, 30],
            _ => {}
        }
        Style {
            length: random.pick(&[3, 10, 20, 40, 60, 90, 140, 220]),
            weights,
            refused: random.pick(&[0, 5, 15, 30]),
            wild: random.pick(&[0, 2, 5, 20]),
        }
    }

    /// A style in which little leaves, so that the lobby stays nearly full and
    /// a copy is what does not fit.
    pub fn crowded(random: &mut Random) -> Style {
        Style {
            length: random.pick(&[40, 60, 90, 140]),
            weights: [40, 12, 30, 6, 24, 24, 5, 1],
            refused: random.pick(&[15, 30, 45]),
            wild: 2,
        }
    }

    /// A long style in which everything moves on as soon as it can.
    pub fn busy(random: &mut Random) -> Style {
        Style {
            length: random.between(250, 600),
            weights: [4, 20, 40, 10, 40, 30, 30, 40],
            refused: 10,
            wild: 1,
        }
    }
}

/// Finds steps for a state and keeps both.
pub struct Scheduler {
    pub state: State,
    pub steps: Vec<Step>,
    style: Style,
}

impl Scheduler {
    /// A scheduler with nothing scheduled yet.
    pub fn new(state: State, style: Style) -> Scheduler {
        Scheduler {
            state,
            steps: Vec::new(),
            style,
        }
    }

    /// Schedules as many steps as the style says; fewer if hardly any step is
    /// left that would not be refused.
    pub fn run(&mut self, random: &mut Random) {
        let mut stuck = 0;
        for _ in 0..self.style.length {
            let side = random.between(1, self.state.sides.len()) as u32;
            let step = self.next_step_of(random, side);
            let refused = self.state.step(&step).outcome.is_err();
            self.steps.push(step);
            stuck = if refused { stuck + 1 } else { 0 };
            if stuck > STUCK {
                return;
            }
        }
    }

    /// A next step of a side.
    pub fn next_step_of(&self, random: &mut Random, side: u32) -> Step {
        if random.percent(self.style.wild) {
            return wild_step(random);
        }
        let mut tried = self.state.clone();
        if random.percent(self.style.refused) {
            if let Some(step) = refused_step(random, &mut tried, side) {
                return step;
            }
        }
        self.legal_step(random, &mut tried, side)
    }

    /// A step that is not refused, of a kind chosen by weight; or an enter.
    fn legal_step(&self, random: &mut Random, tried: &mut State, side: u32) -> Step {
        for kind in kinds_by_weight(random, self.style.weights) {
            let mut steps = candidates(random, tried, kind, side);
            random.shuffle(&mut steps);
            for step in steps {
                if tried.step(&step).outcome.is_ok() {
                    return step;
                }
            }
        }
        enter(random, tried, side)
    }
}

/// The kinds in random order, heavier ones sooner.
fn kinds_by_weight(random: &mut Random, mut weights: [usize; 8]) -> Vec<u32> {
    let mut kinds = Vec::new();
    loop {
        let total: usize = weights.iter().sum();
        if total == 0 {
            return kinds;
        }
        let mut ticket = random.below(total);
        let at = weights.iter().position(|&weight| {
            let hit = ticket < weight;
            ticket = ticket.saturating_sub(weight);
            hit
        });
        let at = at.expect("a ticket below the total");
        weights[at] = 0;
        kinds.push(at as u32 + 1);
    }
}

/// Steps of a kind and side that have a chance.
fn candidates(random: &mut Random, state: &State, kind: u32, side: u32) -> Vec<Step> {
    let part = &state.sides[side as usize - 1];
    let each = |count: usize| (0..count).map(|i| (i, 0)).collect::<Vec<_>>();
    let places = match kind {
        1 => return vec![enter(random, state, side)],
        2 | 6 | 7 => each(part.lobby.len()),
        3 => each(part.particles.len()),
        4 => pairs(&senders(state, side, true), part.boxes.len()),
        5 => pairs(&senders(state, side, false), part.particles.len()),
        _ => each(state.shelf.len()),
    };
    let step = |(i, j): (usize, usize)| plain(kind, side, i as u32, j as u32);
    places.into_iter().map(step).collect()
}

/// Every one of these positions with every position below a bound.
fn pairs(first: &[usize], bound: usize) -> Vec<(usize, usize)> {
    let with_all = |&i: &usize| (0..bound).map(move |j| (i, j));
    first.iter().flat_map(with_all).collect()
}

/// The positions of outputs with or without a child's tag.
fn senders(state: &State, side: u32, to_child: bool) -> Vec<usize> {
    let particles = &state.sides[side as usize - 1].particles;
    let fits = |i: &usize| match &particles[*i].act {
        Act::Output(output) => matches!(output.tag, OutputTag::To(Direction::Child(_))) == to_child,
        Act::Input(_) => false,
    };
    (0..particles.len()).filter(fits).collect()
}

/// A step without value words.
pub fn plain(kind: u32, side: u32, i: u32, j: u32) -> Step {
    Step {
        kind,
        side,
        i,
        j,
        value: Vec::new(),
    }
}

/// An enter of a value that is well formed.
fn enter(random: &mut Random, state: &State, side: u32) -> Step {
    Step {
        kind: 1,
        side,
        value: sound_value(random, state),
        ..Step::default()
    }
}

/// A step refused for a number chosen first, if one is found.
fn refused_step(random: &mut Random, tried: &mut State, side: u32) -> Option<Step> {
    let number = random.pick(&[10, 11, 12, 13, 13, 14, 14, 15, 15, 16, 16, 17, 17, 17, 17]);
    match number {
        10 => Some(odd_step(random, tried, side)),
        11 => Some(enter_words(side, malformed_words(random))),
        12 => Some(enter_words(side, unknown_words(random))),
        13 if random.percent(70) => near_miss(random, tried, side),
        _ => {
            let kinds: &[u32] = match number {
                13 => &[2, 3, 4, 5, 6, 7, 8],
                17 if tried.wrapper == Wrapper::Logging => &[1, 2, 3, 5, 6, 6],
                17 => &[1, 2, 3, 5, 5, 8],
                _ => &[5],
            };
            let kind = random.pick(kinds);
            let mut steps = candidates(random, tried, kind, side);
            random.shuffle(&mut steps);
            find_refused(tried, steps, number)
        }
    }
}

/// A meeting or descent that fails in one respect only: the respect is chosen
/// first, then the step.
fn near_miss(random: &mut Random, state: &State, side: u32) -> Option<Step> {
    let mut steps: Vec<(usize, Step)> = Vec::new();
    let part = &state.sides[side as usize - 1];
    for (i, particle) in part.particles.iter().enumerate() {
        for (j, other) in part.particles.iter().enumerate() {
            let respect = missed_meeting(particle, other);
            steps.extend(respect.map(|respect| (respect, plain(5, side, i as u32, j as u32))));
        }
        for (j, entry) in part.boxes.iter().enumerate() {
            let respect = missed_descent(particle, entry);
            steps.extend(respect.map(|respect| (respect, plain(4, side, i as u32, j as u32))));
        }
    }
    let mut respects: Vec<usize> = steps.iter().map(|(respect, _)| *respect).collect();
    respects.sort_unstable();
    respects.dedup();
    let chosen = *respects.get(random.below(respects.len().max(1)))?;
    steps.retain(|(respect, _)| *respect == chosen);
    Some(steps.swap_remove(random.below(steps.len())).1)
}

/// The one respect in which an output and an input do not fit: box 0, channel
/// 1, a child's name 2, or else the tag 3.
fn missed_meeting(output: &Particle, input: &Particle) -> Option<usize> {
    let (Act::Output(sender), Act::Input(receiver)) = (&output.act, &input.act) else {
        return None;
    };
    let same_box = output.home == input.home;
    let same_channel = sender.channel == receiver.channel;
    let fit = tags_fit(sender.tag, receiver.tag);
    match (same_box, same_channel, fit) {
        (false, true, true) => Some(0),
        (true, false, true) => Some(1),
        (true, true, false) => match (sender.tag, receiver.tag) {
            (OutputTag::From(Origin::Child(_)), Direction::Child(_)) => Some(2),
            _ => Some(3),
        },
        _ => None,
    }
}

/// The one respect in which an output may not descend into a box: the name 4
/// or the parent 5.
fn missed_descent(output: &Particle, entry: &BoxEntry) -> Option<usize> {
    let Act::Output(sender) = &output.act else {
        return None;
    };
    let OutputTag::To(Direction::Child(name)) = sender.tag else {
        return None;
    };
    let outside = entry.outside?;
    match (outside.name == name, outside.parent == output.home) {
        (false, true) => Some(4),
        (true, false) => Some(5),
        _ => None,
    }
}

/// The first of the steps that is refused with this number. A refused step
/// leaves the state as it is, so only after another one it is restored.
fn find_refused(tried: &mut State, steps: Vec<Step>, number: u32) -> Option<Step> {
    let before = tried.clone();
    for step in steps {
        match tried.step(&step).outcome.map_err(Refusal::number) {
            Err(found) if found == number => return Some(step),
            Err(_) => {}
            Ok(_) => tried.clone_from(&before),
        }
    }
    None
}

/// An enter of these words.
fn enter_words(side: u32, value: Vec<u32>) -> Step {
    Step {
        kind: 1,
        side,
        value,
        ..Step::default()
    }
}

/// A step just past a list's end, or with something in an unused field.
fn odd_step(random: &mut Random, state: &State, side: u32) -> Step {
    let part = &state.sides[side as usize - 1];
    let kind = random.between(0, 9) as u32;
    let end = match kind {
        2 | 6 | 7 => part.lobby.len(),
        8 => state.shelf.len(),
        _ => part.particles.len(),
    };
    let mut step = plain(kind, side, end as u32, 0);
    match random.below(6) {
        0 => step.j = 1,
        1 => step.value = vec![20],
        2 => step.side = random.pick(&[0, 3, 1, 2, u32::MAX]),
        3 => (step.i, step.j) = (0, end.max(part.boxes.len()) as u32),
        _ => {}
    }
    step
}

/// Any step at all.
pub fn wild_step(random: &mut Random) -> Step {
    let small = |random: &mut Random| random.pick(&[0, 0, 0, 1, 1, 2, 3, 5, 8, 15, 16, 31, 32]);
    let mut step = plain(
        random.pick(&[0, 1, 2, 3, 4, 5, 5, 6, 7, 8, 9, u32::MAX]),
        random.pick(&[1, 1, 1, 1, 2, 2, 2, 2, 0, 3, u32::MAX]),
        small(random),
        small(random),
    );
    if random.percent(60) {
        step.j = 0;
    }
    if step.kind == 1 && random.percent(80) {
        step.i = 0;
    }
    if step.kind == 1 || random.percent(5) {
        step.value = match random.below(3) {
            0 => malformed_words(random),
            1 => unknown_words(random),
            _ => vec![random.pick(&[0, 20, 63, 196_608, 196_863])],
        };
    }
    step
}

/// The names that may enter now: some public ones, some from outside and all
/// that have left.
fn known_names(state: &State) -> Vec<u32> {
    let mut names = vec![0, 1, 2, 5, 6, 7, 9, 10, 20, 63];
    names.extend(OUTSIDE);
    for side in &state.sides {
        let left: Vec<u32> = side.left.iter().map(|name| name.word()).collect();
        names.extend(left.iter().rev().take(8));
        names.extend(left.iter().take(4));
    }
    names
}

/// A value that may enter, of 1 to 16 words.
fn sound_value(random: &mut Random, state: &State) -> Vec<u32> {
    value_over(random, &known_names(state))
}

/// A value of 1 to 16 words over these names.
pub fn value_over(random: &mut Random, names: &[u32]) -> Vec<u32> {
    let parts = match random.below(20) {
        0..=8 => return vec![random.pick(names)],
        9..=12 => 2,
        13 => 0,
        14 => 3,
        15 => random.pick(&[6, 7]),
        16 => random.pick(&[14, 15]),
        17 => return nest(random, names),
        18 => 8,
        _ => random.between(1, 5),
    };
    let mut words = vec![TUPLE_WORD + parts as u32];
    words.extend((0..parts).map(|_| random.pick(names)));
    words
}

/// A value of tuples in tuples, at most 16 words.
fn nest(random: &mut Random, names: &[u32]) -> Vec<u32> {
    if random.percent(20) {
        let mut words = vec![TUPLE_WORD + 1; random.between(1, 15)];
        words.push(random.pick(names));
        return words;
    }
    let mut words = vec![TUPLE_WORD + 2, random.pick(names)];
    words.push(TUPLE_WORD + 2);
    words.extend([random.pick(names), TUPLE_WORD]);
    words
}

/// Words that are no value.
fn malformed_words(random: &mut Random) -> Vec<u32> {
    let bad = [
        64, 65_535, 65_792, 131_071, 131_328, 196_607, 196_864, 3_999_999,
    ];
    let name = random.pick(&[65_536, 196_608]);
    let tuples = [4_000_016, WILDCARD_WORD, 5_000_000, u32::MAX];
    match random.below(8) {
        0 => vec![],
        1 => vec![20; random.between(2, 17)],
        2 => vec![TUPLE_WORD + 2, 20],
        3 => [vec![TUPLE_WORD + 15], vec![20; 16]].concat(),
        4 => [vec![TUPLE_WORD + 1; 16], vec![20]].concat(),
        5 => vec![TUPLE_WORD + 2, name, random.pick(&bad)],
        6 => vec![random.pick(&tuples)],
        _ => vec![random.pick(&bad)],
    }
}

/// A value with a minted name that has most likely not left.
fn unknown_words(random: &mut Random) -> Vec<u32> {
    let side = random.between(1, 2) as u32;
    let serial = random.pick(&[0, 1, 2, 3, 7, 254, 255]);
    let name = Name::Minted { side, serial }.word();
    if random.percent(70) {
        vec![name]
    } else {
        vec![TUPLE_WORD + 2, random.pick(&[20, 196_863]), name]
    }
}
