//! Handlers as the generator writes them, and their layout as tables.

use crate::random::Random;
use crate::terms::{LAST_PUBLIC, TUPLE_WORD, WILDCARD_WORD};
use std::collections::VecDeque;

/// A process in table numbers.
#[derive(Clone, Debug)]
pub enum Sketch {
    Nil,
    Parallel(Box<Sketch>, Box<Sketch>),
    Boxed(u32, Box<Sketch>),
    New(u32, Box<Sketch>),
    Output(u32, u32, Vec<u32>),
    Input(bool, u32, u32, Vec<u32>, Box<Sketch>),
}

/// The tag "within".
pub const WITHIN: u32 = 0;
/// The tag "parent".
pub const PARENT: u32 = 1;

/// The tag of a child box.
pub fn child(name: u32) -> u32 {
    2 + name
}

/// Processes side by side; nil for none.
pub fn parallel(parts: Vec<Sketch>) -> Sketch {
    let mut parts = parts.into_iter();
    let Some(first) = parts.next() else {
        return Sketch::Nil;
    };
    parts.fold(first, |left, right| {
        Sketch::Parallel(Box::new(left), Box::new(right))
    })
}

/// A box.
pub fn boxed(name: u32, body: Sketch) -> Sketch {
    Sketch::Boxed(name, Box::new(body))
}

/// A new name.
pub fn new(name: u32, body: Sketch) -> Sketch {
    Sketch::New(name, Box::new(body))
}

/// An output.
pub fn output(channel: u32, tag: u32, value: &[u32]) -> Sketch {
    Sketch::Output(channel, tag, value.to_vec())
}

/// An input.
pub fn input(channel: u32, tag: u32, pattern: &[u32], body: Sketch) -> Sketch {
    Sketch::Input(false, channel, tag, pattern.to_vec(), Box::new(body))
}

/// A replicated input.
pub fn repeat(channel: u32, tag: u32, pattern: &[u32], body: Sketch) -> Sketch {
    Sketch::Input(true, channel, tag, pattern.to_vec(), Box::new(body))
}

/// The words of a tuple of names.
pub fn tuple(names: &[u32]) -> Vec<u32> {
    let mut words = vec![TUPLE_WORD + names.len() as u32];
    words.extend_from_slice(names);
    words
}

/// The names among a pattern's words.
pub fn pattern_names(pattern: &[u32]) -> Vec<u32> {
    let names = pattern.iter().filter(|&&word| word <= LAST_PUBLIC);
    names.copied().collect()
}

impl Sketch {
    /// How many nodes the table will have.
    pub fn nodes(&self) -> usize {
        1 + self.below().iter().map(|part| part.nodes()).sum::<usize>()
    }

    /// The processes right below.
    fn below(&self) -> Vec<&Sketch> {
        match self {
            Sketch::Nil | Sketch::Output(..) => vec![],
            Sketch::Parallel(left, right) => vec![left, right],
            Sketch::Boxed(_, body) | Sketch::New(_, body) | Sketch::Input(.., body) => vec![body],
        }
    }
}

/// Lays a handler out as node words and a pool: nodes in some order with each
/// child after its parent, values shared or not, spare words between them.
pub fn table(random: &mut Random, root: &Sketch) -> (Vec<u32>, Vec<u32>) {
    let order = random.below(3);
    let mut layout = Layout {
        nodes: Vec::new(),
        pool: Vec::new(),
        share: random.pick(&[0, 50, 100]),
        spare: random.pick(&[0, 0, 0, 20]),
    };
    let mut waiting = VecDeque::from([(root, None)]);
    while !waiting.is_empty() {
        let at = match order {
            0 => 0,
            1 => waiting.len() - 1,
            _ => random.below(waiting.len()),
        };
        let (sketch, parent) = waiting.remove(at).expect("a waiting node");
        let number = layout.add(random, sketch, parent);
        let fields = child_fields(sketch);
        waiting.extend(
            sketch
                .below()
                .into_iter()
                .zip(fields.iter().map(|&f| Some((number, f)))),
        );
    }
    (layout.nodes.concat(), layout.pool)
}

/// A table in the making.
struct Layout {
    nodes: Vec<[u32; 5]>,
    pool: Vec<u32>,
    share: usize,
    spare: usize,
}

/// The words of a node that name its children.
fn child_fields(sketch: &Sketch) -> &'static [usize] {
    match sketch {
        Sketch::Nil | Sketch::Output(..) => &[],
        Sketch::Parallel(..) => &[1, 2],
        Sketch::Boxed(..) | Sketch::New(..) => &[2],
        Sketch::Input(..) => &[4],
    }
}

impl Layout {
    /// Adds a node and tells its parent.
    fn add(
        &mut self,
        random: &mut Random,
        sketch: &Sketch,
        parent: Option<(usize, usize)>,
    ) -> usize {
        let number = self.nodes.len();
        if let Some((above, field)) = parent {
            self.nodes[above][field] = number as u32;
        }
        let words = match sketch {
            Sketch::Nil => [0; 5],
            Sketch::Parallel(..) => [1, 0, 0, 0, 0],
            Sketch::Boxed(name, _) => [2, *name, 0, 0, 0],
            Sketch::New(name, _) => [3, *name, 0, 0, 0],
            Sketch::Output(channel, tag, value) => {
                [4, *channel, *tag, self.place(random, value), 0]
            }
            Sketch::Input(again, channel, tag, pattern, _) => {
                let place = self.place(random, pattern);
                [5 + u32::from(*again), *channel, *tag, place, 0]
            }
        };
        self.nodes.push(words);
        number
    }

    /// A place for these words: an old one or one at the end.
    fn place(&mut self, random: &mut Random, words: &[u32]) -> u32 {
        if random.percent(self.share) {
            if let Some(at) = self.pool.windows(words.len()).position(|old| old == words) {
                return at as u32;
            }
        }
        if random.percent(self.spare) {
            self.pool
                .push(random.pick(&[0, 7, 64, WILDCARD_WORD, 4_000_003, u32::MAX]));
        }
        self.pool.extend_from_slice(words);
        (self.pool.len() - words.len()) as u32
    }
}
