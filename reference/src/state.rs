//! The state of a run: each side's particles, boxes and lobby, and the shelf
//! of the pipeline; and the unfolding of processes into it.

use crate::terms::{
    Direction, Name, Pattern, Process, Substitution, Tree, Value, MINT_LIMIT, OUT, WORD_LIMIT,
};
use std::collections::BTreeSet;

/// The most particles of a side.
pub const PARTICLE_LIMIT: usize = 32;
/// The most boxes of a side, box 0 among them.
pub const BOX_LIMIT: usize = 16;
/// The most messages in a side's lobby.
pub const LOBBY_LIMIT: usize = 16;
/// How many messages the shelf takes in a whole run.
pub const SHELF_LIMIT: usize = 32;

/// The wrapper round the handlers.
#[derive(Clone, Copy, Debug, PartialEq, Eq)]
pub enum Wrapper {
    /// One handler, W1.
    Filter,
    /// Two handlers, W2.
    Pipeline,
    /// One handler, L: a copy of each message goes to the environment on `log`.
    Logging,
}

/// Everything a run holds between two steps.
#[derive(Clone, Debug, PartialEq, Eq)]
pub struct State {
    pub wrapper: Wrapper,
    /// Side 1, and side 2 under the pipeline.
    pub sides: Vec<Side>,
    /// What came up on `mid` from side 1, in order.
    pub shelf: Vec<Value>,
    /// The shelf places that side 2 has taken.
    pub taken: BTreeSet<usize>,
}

/// One side's part of the state.
#[derive(Clone, Debug, PartialEq, Eq)]
pub struct Side {
    /// 1 or 2.
    pub number: u32,
    pub particles: Vec<Particle>,
    pub boxes: Vec<BoxEntry>,
    /// How many names this side has minted.
    pub minted: u32,
    pub lobby: Vec<Message>,
    /// The minted names, of either side, that have left by this side's outlet
    /// or in a copy.
    pub left: BTreeSet<Name>,
}

/// A box: its name and the position of its parent. Box 0, the wrapper's own,
/// has neither.
#[derive(Clone, Copy, Debug, PartialEq, Eq)]
pub struct BoxEntry {
    pub outside: Option<Inside>,
}

/// Where a box other than box 0 stands, and its name.
#[derive(Clone, Copy, Debug, PartialEq, Eq)]
pub struct Inside {
    pub parent: usize,
    pub name: Name,
}

/// An active output or input and the position of the box it stands in.
#[derive(Clone, Debug, PartialEq, Eq)]
pub struct Particle {
    pub home: usize,
    pub act: Act,
}

/// What a particle does.
#[derive(Clone, Debug, PartialEq, Eq)]
pub enum Act {
    Output(Output),
    Input(Input),
}

/// An active output.
#[derive(Clone, Debug, PartialEq, Eq)]
pub struct Output {
    pub channel: Name,
    pub tag: OutputTag,
    pub value: Value,
}

/// The tag of an active output.
#[derive(Clone, Copy, Debug, PartialEq, Eq)]
pub enum OutputTag {
    /// As written: within the box, to the parent, to a child.
    To(Direction<Name>),
    /// Received from the parent or a child and waiting for an input.
    From(Origin),
}

/// Where a received output came from.
#[derive(Clone, Copy, Debug, PartialEq, Eq)]
pub enum Origin {
    Parent,
    Child(Name),
}

/// A waiting input. Its body is open in the pattern's names only.
#[derive(Clone, Debug, PartialEq, Eq)]
pub struct Input {
    pub replicated: bool,
    pub channel: Name,
    pub tag: Direction<Name>,
    pub pattern: Pattern,
    pub body: Process,
}

/// A lobby message.
#[derive(Clone, Debug, PartialEq, Eq)]
pub struct Message {
    pub stage: Stage,
    pub value: Value,
}

impl Message {
    /// True if it arrived on a channel other than `out`, from where nothing
    /// takes it on.
    pub fn is_stranded(&self) -> bool {
        matches!(self.stage, Stage::Arrived(channel) if channel != OUT)
    }
}

/// How far a lobby message is on its way.
#[derive(Clone, Copy, Debug, PartialEq, Eq)]
pub enum Stage {
    /// On its way to box 0, on `in` or `mid`.
    Down(Name),
    /// Came up out of box 0 on this channel.
    Arrived(Name),
    /// On its way to the environment, on `out` or `log`.
    Leaving(Name),
}

/// What unfolding adds to a side.
#[derive(Clone, Debug, Default)]
pub struct Growth {
    pub particles: Vec<Particle>,
    pub boxes: Vec<BoxEntry>,
    pub minted: u32,
}

impl Growth {
    /// True if an unfolded output's value has over 16 words.
    pub fn value_too_long(&self) -> bool {
        self.particles.iter().any(
            |particle| matches!(&particle.act, Act::Output(out) if out.value.length() > WORD_LIMIT),
        )
    }
}

impl Side {
    /// The side at the start: box 0 with the process unfolded in it. None if
    /// that passes a limit.
    pub fn start(number: u32, process: &Process) -> Option<Side> {
        let mut side = Side {
            number,
            particles: Vec::new(),
            boxes: vec![BoxEntry { outside: None }],
            minted: 0,
            lobby: Vec::new(),
            left: BTreeSet::new(),
        };
        let growth = side.unfold(process, 0);
        if !side.has_room(&growth, 0) {
            return None;
        }
        side.grow(growth);
        Some(side)
    }

    /// Unfolds a closed process in a box of this side, which itself stays as
    /// it is.
    pub fn unfold(&self, process: &Process, home: usize) -> Growth {
        let mut growth = Growth::default();
        self.unfold_into(&mut growth, process, home);
        growth
    }

    fn unfold_into(&self, growth: &mut Growth, process: &Process, home: usize) {
        match process {
            Process::Nil => {}
            Process::Parallel(left, right) => {
                self.unfold_into(growth, left, home);
                self.unfold_into(growth, right, home);
            }
            Process::Boxed(name, body) => {
                let inner = self.boxes.len() + growth.boxes.len();
                let outside = Inside {
                    parent: home,
                    name: name.name(),
                };
                growth.boxes.push(BoxEntry {
                    outside: Some(outside),
                });
                self.unfold_into(growth, body, inner);
            }
            Process::New(number, body) => {
                let fresh = Tree::Leaf(self.fresh_name(growth));
                growth.minted += 1;
                let opened = Substitution::one(*number, &fresh).apply(body);
                self.unfold_into(growth, &opened.expect("a name fits anywhere"), home);
            }
            Process::Output {
                channel,
                tag,
                value,
            } => growth.particles.push(Particle {
                home,
                act: Act::Output(Output {
                    channel: channel.name(),
                    tag: OutputTag::To(tag.map(|name| name.name())),
                    value: value.closed(),
                }),
            }),
            Process::Input {
                replicated,
                channel,
                tag,
                pattern,
                body,
            } => growth.particles.push(Particle {
                home,
                act: Act::Input(Input {
                    replicated: *replicated,
                    channel: channel.name(),
                    tag: tag.map(|name| name.name()),
                    pattern: pattern.clone(),
                    body: (**body).clone(),
                }),
            }),
        }
    }

    /// The next name this side mints, after those of a growth under way.
    fn fresh_name(&self, growth: &Growth) -> Name {
        Name::Minted {
            side: self.number,
            serial: self.minted + growth.minted,
        }
    }

    /// True if the side keeps its limits when so many particles go and the
    /// growth is added.
    pub fn has_room(&self, growth: &Growth, going: usize) -> bool {
        self.particles.len() - going + growth.particles.len() <= PARTICLE_LIMIT
            && self.boxes.len() + growth.boxes.len() <= BOX_LIMIT
            && self.minted + growth.minted <= MINT_LIMIT
    }

    /// Adds what was unfolded, at the end of each list.
    pub fn grow(&mut self, growth: Growth) {
        self.particles.extend(growth.particles);
        self.boxes.extend(growth.boxes);
        self.minted += growth.minted;
    }
}

impl State {
    /// The state right after loading these sides.
    pub fn new(wrapper: Wrapper, sides: Vec<Side>) -> State {
        State {
            wrapper,
            sides,
            shelf: Vec::new(),
            taken: BTreeSet::new(),
        }
    }

    /// The positions of all stranded lobby messages of this side, smallest
    /// first. A side that the wrapper lacks has none.
    pub fn stranded(&self, side: u32) -> Vec<usize> {
        let Some(side) = self.sides.iter().find(|known| known.number == side) else {
            return Vec::new();
        };
        let stranded = |&i: &usize| side.lobby[i].is_stranded();
        (0..side.lobby.len()).filter(stranded).collect()
    }
}
