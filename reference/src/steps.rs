//! The eight steps: each is one transition of the wrapped system, with its
//! label, or is refused and changes nothing.

use crate::state::{
    Act, Growth, Input, Message, Origin, Output, OutputTag, Particle, Side, Stage, State, Wrapper,
    LOBBY_LIMIT, PARTICLE_LIMIT, SHELF_LIMIT,
};
use crate::terms::{Direction, Name, Value, IN, LOG, MID, OUT};

/// A step as asked for.
#[derive(Clone, Debug, Default, PartialEq, Eq)]
pub struct Step {
    pub kind: u32,
    pub side: u32,
    pub i: u32,
    pub j: u32,
    pub value: Vec<u32>,
}

/// The label of a transition.
#[derive(Clone, Debug, PartialEq, Eq)]
pub enum Label {
    In(Value),
    Out(Value),
    Log(Value),
    Silent,
}

/// Why a step is refused.
#[derive(Clone, Copy, Debug, PartialEq, Eq, PartialOrd, Ord)]
pub enum Refusal {
    /// 10: no such kind, side or position; an unused field or value words.
    NoSuchStep,
    /// 11: the entered words are not a value.
    Malformed,
    /// 12: the entered value holds a minted name that has not left.
    NotLeft,
    /// 13: the thing at that position cannot make this step.
    Unable,
    /// 14: the pattern does not take the value.
    NoMatch,
    /// 15: a name bound to a tuple is used as channel, tag or box name.
    TupleUsed,
    /// 16: an unfolded output's value has over 16 words.
    TooLong,
    /// 17: the state after would pass a limit.
    Full,
}

impl Refusal {
    /// The number of the refusal.
    pub fn number(self) -> u32 {
        match self {
            Refusal::NoSuchStep => 10,
            Refusal::Malformed => 11,
            Refusal::NotLeft => 12,
            Refusal::Unable => 13,
            Refusal::NoMatch => 14,
            Refusal::TupleUsed => 15,
            Refusal::TooLong => 16,
            Refusal::Full => 17,
        }
    }
}

/// An answer: a label or a refusal, with the side as asked.
#[derive(Clone, Debug, PartialEq, Eq)]
pub struct Answer {
    pub side: u32,
    pub outcome: Result<Label, Refusal>,
}

/// What a step of one kind comes to.
type Outcome = Result<Label, Refusal>;

impl State {
    /// Makes a step if it is possible; a refused one leaves the state as it is.
    pub fn step(&mut self, step: &Step) -> Answer {
        Answer {
            side: step.side,
            outcome: self.transition(step),
        }
    }

    fn transition(&mut self, step: &Step) -> Outcome {
        let side = self.side_position(step.side)?;
        let positions = Positions::of(step)?;
        match positions {
            Positions::Enter => self.enter(side, &step.value),
            Positions::Down(i) => self.sides[side].down(i),
            Positions::Up(i) => self.up(side, i),
            Positions::Descend(i, j) => self.sides[side].descend(i, j),
            Positions::Meet(i, j) => self.sides[side].meet(i, j),
            Positions::Pass(i) => self.pass(side, i),
            Positions::Leave(i) => self.sides[side].leave(i),
            Positions::Take(i) => self.take(i),
        }
    }

    /// The place in `sides` of a side the wrapper has.
    fn side_position(&self, number: u32) -> Result<usize, Refusal> {
        let found = self.sides.iter().position(|side| side.number == number);
        found.ok_or(Refusal::NoSuchStep)
    }

    /// Kind 1: a down message on `in`. L's input on `in` has the body
    /// `log y | in y`, so there the copy comes first.
    fn enter(&mut self, side: usize, words: &[u32]) -> Outcome {
        let value = Value::from_words(words).ok_or(Refusal::Malformed)?;
        if value.leaves().into_iter().any(|name| !self.is_known(name)) {
            return Err(Refusal::NotLeft);
        }
        let mut stages = self.copies();
        stages.push(Stage::Down(IN));
        self.sides[side].add_messages(&stages, &value)?;
        Ok(Label::In(value))
    }

    /// The stages of the copies that are made of a message: one leaving on
    /// `log` under L.
    fn copies(&self) -> Vec<Stage> {
        match self.wrapper {
            Wrapper::Logging => vec![Stage::Leaving(LOG)],
            Wrapper::Filter | Wrapper::Pipeline => vec![],
        }
    }

    /// True for a public name, for one from outside, and for a minted one that
    /// has left by either outlet.
    fn is_known(&self, name: &Name) -> bool {
        match name {
            Name::Public(_) | Name::Outside(_) => true,
            Name::Minted { .. } => self.sides.iter().any(|side| side.left.contains(name)),
        }
    }

    /// Kind 3: an output moves to the parent box; from box 0 to the lobby or
    /// the shelf.
    fn up(&mut self, side: usize, i: usize) -> Outcome {
        let (home, output) = self.sides[side].output(i)?;
        if output.tag != OutputTag::To(Direction::Parent) {
            return Err(Refusal::Unable);
        }
        if let Some(outside) = self.sides[side].boxes[home].outside {
            let tag = OutputTag::From(Origin::Child(outside.name));
            self.sides[side].move_output(i, outside.parent, tag);
            return Ok(Label::Silent);
        }
        let (channel, value) = (output.channel, output.value.clone());
        if self.wrapper == Wrapper::Pipeline && side == 0 && channel == MID {
            self.add_to_shelf(value)?;
        } else {
            self.sides[side].add_messages(&[Stage::Arrived(channel)], &value)?;
        }
        self.sides[side].particles.remove(i);
        Ok(Label::Silent)
    }

    /// Puts a value on the shelf, which never frees a place.
    fn add_to_shelf(&mut self, value: Value) -> Result<(), Refusal> {
        if self.shelf.len() == SHELF_LIMIT {
            return Err(Refusal::Full);
        }
        self.shelf.push(value);
        Ok(())
    }

    /// Kind 6: a message that arrived on `out` becomes leaving where it stands;
    /// L's input on `out` sends a copy too, which goes to the end.
    fn pass(&mut self, side: usize, i: usize) -> Outcome {
        let message = self.sides[side].message(i)?;
        if message.stage != Stage::Arrived(OUT) {
            return Err(Refusal::Unable);
        }
        let value = message.value.clone();
        let copies = self.copies();
        self.sides[side].add_messages(&copies, &value)?;
        self.sides[side].lobby[i].stage = Stage::Leaving(OUT);
        Ok(Label::Silent)
    }

    /// Kind 8: side 2 takes a copy of a shelf message.
    fn take(&mut self, i: usize) -> Outcome {
        let value = self.shelf.get(i).ok_or(Refusal::NoSuchStep)?.clone();
        if self.taken.contains(&i) {
            return Err(Refusal::Unable);
        }
        self.sides[1].add_messages(&[Stage::Down(MID)], &value)?;
        self.taken.insert(i);
        Ok(Label::Silent)
    }
}

/// A step's kind with the positions it uses.
enum Positions {
    Enter,
    Down(usize),
    Up(usize),
    Descend(usize, usize),
    Meet(usize, usize),
    Pass(usize),
    Leave(usize),
    Take(usize),
}

impl Positions {
    /// Refuses unknown kinds, unused fields that are not 0, value words where
    /// there are none, and kind 8 from side 1 (only the pipeline has another
    /// side).
    fn of(step: &Step) -> Result<Positions, Refusal> {
        let (i, j) = (step.i as usize, step.j as usize);
        let words = !step.value.is_empty();
        match (step.kind, i, j, words) {
            (1, 0, 0, _) => Ok(Positions::Enter),
            (2, i, 0, false) => Ok(Positions::Down(i)),
            (3, i, 0, false) => Ok(Positions::Up(i)),
            (4, i, j, false) => Ok(Positions::Descend(i, j)),
            (5, i, j, false) => Ok(Positions::Meet(i, j)),
            (6, i, 0, false) => Ok(Positions::Pass(i)),
            (7, i, 0, false) => Ok(Positions::Leave(i)),
            (8, i, 0, false) if step.side == 2 => Ok(Positions::Take(i)),
            _ => Err(Refusal::NoSuchStep),
        }
    }
}

impl Side {
    /// Adds lobby messages with one value at the end, all of them or none.
    fn add_messages(&mut self, stages: &[Stage], value: &Value) -> Result<(), Refusal> {
        if self.lobby.len() + stages.len() > LOBBY_LIMIT {
            return Err(Refusal::Full);
        }
        self.lobby.extend(stages.iter().map(|&stage| Message {
            stage,
            value: value.clone(),
        }));
        Ok(())
    }

    /// The lobby message at a position.
    fn message(&self, i: usize) -> Result<&Message, Refusal> {
        self.lobby.get(i).ok_or(Refusal::NoSuchStep)
    }

    /// The particle at a position.
    fn particle(&self, i: usize) -> Result<&Particle, Refusal> {
        self.particles.get(i).ok_or(Refusal::NoSuchStep)
    }

    /// The output at a position and its box.
    fn output(&self, i: usize) -> Result<(usize, &Output), Refusal> {
        let particle = self.particle(i)?;
        match &particle.act {
            Act::Output(output) => Ok((particle.home, output)),
            Act::Input(_) => Err(Refusal::Unable),
        }
    }

    /// The input at a position and its box.
    fn input(&self, j: usize) -> Result<(usize, &Input), Refusal> {
        let particle = self.particle(j)?;
        match &particle.act {
            Act::Input(input) => Ok((particle.home, input)),
            Act::Output(_) => Err(Refusal::Unable),
        }
    }

    /// Moves an output to another box with a new tag; its position stays.
    fn move_output(&mut self, i: usize, home: usize, tag: OutputTag) {
        let particle = &mut self.particles[i];
        particle.home = home;
        if let Act::Output(output) = &mut particle.act {
            output.tag = tag;
        }
    }

    /// Kind 2: a down message becomes a particle of box 0.
    fn down(&mut self, i: usize) -> Outcome {
        let Stage::Down(channel) = self.message(i)?.stage else {
            return Err(Refusal::Unable);
        };
        if self.particles.len() == PARTICLE_LIMIT {
            return Err(Refusal::Full);
        }
        let message = self.lobby.remove(i);
        self.particles.push(Particle {
            home: 0,
            act: Act::Output(Output {
                channel,
                tag: OutputTag::From(Origin::Parent),
                value: message.value,
            }),
        });
        Ok(Label::Silent)
    }

    /// Kind 4: an output moves into a child box of the name in its tag.
    fn descend(&mut self, i: usize, j: usize) -> Outcome {
        self.particle(i)?;
        let target = *self.boxes.get(j).ok_or(Refusal::NoSuchStep)?;
        let (home, output) = self.output(i)?;
        let OutputTag::To(Direction::Child(name)) = output.tag else {
            return Err(Refusal::Unable);
        };
        match target.outside {
            Some(outside) if outside.parent == home && outside.name == name => {
                self.move_output(i, j, OutputTag::From(Origin::Parent));
                Ok(Label::Silent)
            }
            _ => Err(Refusal::Unable),
        }
    }

    /// Kind 5: an output and an input synchronise and the body unfolds.
    fn meet(&mut self, i: usize, j: usize) -> Outcome {
        self.particle(i)?;
        self.particle(j)?;
        let (replicated, growth) = self.communicate(i, j)?;
        let going = if replicated { 1 } else { 2 };
        if !self.has_room(&growth, going) {
            return Err(Refusal::Full);
        }
        let goes = |position: usize| position == i || (position == j && !replicated);
        let mut position = 0;
        self.particles.retain(|_| {
            position += 1;
            !goes(position - 1)
        });
        self.grow(growth);
        Ok(Label::Silent)
    }

    /// What a meeting unfolds and whether the input is a replicated one;
    /// limits are not yet looked at.
    fn communicate(&self, i: usize, j: usize) -> Result<(bool, Growth), Refusal> {
        let (sender_home, output) = self.output(i)?;
        let (home, input) = self.input(j)?;
        let same_port = sender_home == home && output.channel == input.channel;
        if !same_port || !tags_fit(output.tag, input.tag) {
            return Err(Refusal::Unable);
        }
        let substitution = input.pattern.take(&output.value);
        let substitution = substitution.ok_or(Refusal::NoMatch)?;
        let body = substitution.apply(&input.body);
        let body = body.map_err(|_| Refusal::TupleUsed)?;
        let growth = self.unfold(&body, home);
        if growth.value_too_long() {
            return Err(Refusal::TooLong);
        }
        Ok((input.replicated, growth))
    }

    /// Kind 7: a leaving message goes out on its channel, and its minted names
    /// are marked.
    fn leave(&mut self, i: usize) -> Outcome {
        let Stage::Leaving(channel) = self.message(i)?.stage else {
            return Err(Refusal::Unable);
        };
        let value = self.lobby.remove(i).value;
        let minted = |name: &&Name| matches!(**name, Name::Minted { .. });
        let names = value.leaves().into_iter().filter(minted).copied();
        self.left.extend(names);
        Ok(if channel == OUT {
            Label::Out(value)
        } else {
            Label::Log(value)
        })
    }
}

/// Which output tags an input tag synchronises with.
pub fn tags_fit(output: OutputTag, input: Direction<Name>) -> bool {
    match (output, input) {
        (OutputTag::To(Direction::Within), Direction::Within) => true,
        (OutputTag::From(Origin::Parent), Direction::Parent) => true,
        (OutputTag::From(Origin::Child(left)), Direction::Child(wanted)) => left == wanted,
        _ => false,
    }
}
