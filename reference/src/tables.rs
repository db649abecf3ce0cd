//! A handler's table: the checks of loading (numbers 1 to 7) and the process
//! term that a sound table stands for.

use crate::state::{Side, State, Wrapper};
use crate::terms::{
    Direction, Expression, Name, Pattern, Process, Slot, Subject, Tree, LAST_PUBLIC, WILDCARD_WORD,
    WORD_LIMIT,
};

/// Words of one node.
const NODE_WORDS: usize = 5;
/// The most nodes of a table.
const NODE_LIMIT: usize = 256;
/// The most pool words of a table.
const POOL_LIMIT: usize = 1_024;
/// The most bound names in force at a node.
const SCOPE_LIMIT: usize = 8;
/// The greatest tag: child box named 63.
const LAST_TAG: u32 = 2 + LAST_PUBLIC;

/// A side's table: its nodes' words and its pool.
#[derive(Clone, Copy, Debug, Default)]
pub struct Table<'t> {
    pub nodes: &'t [u32],
    pub pool: &'t [u32],
}

impl Table<'_> {
    /// True if both slices are empty.
    fn is_empty(&self) -> bool {
        self.nodes.is_empty() && self.pool.is_empty()
    }
}

/// Why load makes no state.
#[derive(Clone, Copy, Debug, PartialEq, Eq)]
pub struct LoadRefusal {
    pub number: u32,
    pub side: u32,
    pub node: u32,
}

/// A number with the node at fault, before the side is known.
type Fault = (u32, usize);

/// Loads two tables under a wrapper: the state at the start, or the refusal.
pub fn load(wrapper: u32, tables: [Table; 2]) -> Result<State, LoadRefusal> {
    let refusal = |side: u32, (number, node): Fault| LoadRefusal {
        number,
        side,
        node: node as u32,
    };
    let wrapper = match wrapper {
        1 => Wrapper::Filter,
        2 => Wrapper::Pipeline,
        3 => Wrapper::Logging,
        _ => return Err(refusal(0, (1, 0))),
    };
    let mut sides = vec![load_side(1, tables[0]).map_err(|fault| refusal(1, fault))?];
    match wrapper {
        Wrapper::Pipeline => {
            sides.push(load_side(2, tables[1]).map_err(|fault| refusal(2, fault))?)
        }
        Wrapper::Filter | Wrapper::Logging if !tables[1].is_empty() => {
            return Err(refusal(2, (1, 0)))
        }
        Wrapper::Filter | Wrapper::Logging => {}
    }
    Ok(State::new(wrapper, sides))
}

/// Checks one side's table and unfolds its root in box 0.
fn load_side(side: u32, table: Table) -> Result<Side, Fault> {
    let process = read_table(table)?;
    Side::start(side, &process).ok_or((7, 0))
}

/// Checks 1 to 6, then reads the process that the table stands for.
pub fn read_table(table: Table) -> Result<Process, Fault> {
    if !sizes_fit(table) {
        return Err((1, 0));
    }
    let words: Vec<&[u32]> = table.nodes.chunks(NODE_WORDS).collect();
    let nodes = read_nodes(&words)?;
    fail_at(3, lowest_bad_child(&nodes))?;
    fail_at(4, nodes.iter().position(|node| !node.names_fit()))?;
    fail_at(5, nodes.iter().position(|node| !node.words_fit(table.pool)))?;
    fail_at(6, lowest_deep_scope(&nodes, table.pool))?;
    Ok(Reader::new(&nodes, table.pool).process(0))
}

/// Turns the lowest node at fault into a refusal.
fn fail_at(number: u32, node: Option<usize>) -> Result<(), Fault> {
    match node {
        Some(node) => Err((number, node)),
        None => Ok(()),
    }
}

/// Check 1 for one side.
fn sizes_fit(table: Table) -> bool {
    let count = table.nodes.len() / NODE_WORDS;
    table.nodes.len().is_multiple_of(NODE_WORDS)
        && (1..=NODE_LIMIT).contains(&count)
        && table.pool.len() <= POOL_LIMIT
}

/// A node whose kind is known and whose unused fields are 0.
#[derive(Clone, Copy, Debug, PartialEq, Eq)]
enum Node {
    Nil,
    Parallel { left: u32, right: u32 },
    Boxed { name: u32, body: u32 },
    New { name: u32, body: u32 },
    Output(Port),
    Input { port: Port, body: u32, again: bool },
}

/// Channel, tag and place in the pool of an output or input node.
#[derive(Clone, Copy, Debug, PartialEq, Eq)]
struct Port {
    channel: u32,
    tag: u32,
    place: u32,
}

/// Check 2: every node's words make a node.
fn read_nodes(words: &[&[u32]]) -> Result<Vec<Node>, Fault> {
    let read = |(number, words): (usize, &&[u32])| Node::read(words).ok_or((2, number));
    words.iter().enumerate().map(read).collect()
}

impl Node {
    /// Reads five words; none for an unknown kind or an unused field not 0.
    fn read(words: &[u32]) -> Option<Node> {
        match *words {
            [0, 0, 0, 0, 0] => Some(Node::Nil),
            [1, left, right, 0, 0] => Some(Node::Parallel { left, right }),
            [2, name, body, 0, 0] => Some(Node::Boxed { name, body }),
            [3, name, body, 0, 0] => Some(Node::New { name, body }),
            [4, channel, tag, place, 0] => Some(Node::Output(Port {
                channel,
                tag,
                place,
            })),
            [kind @ (5 | 6), channel, tag, place, body] => Some(Node::Input {
                port: Port {
                    channel,
                    tag,
                    place,
                },
                body,
                again: kind == 6,
            }),
            _ => None,
        }
    }

    /// The child fields.
    fn children(&self) -> Vec<u32> {
        match *self {
            Node::Nil | Node::Output(_) => vec![],
            Node::Parallel { left, right } => vec![left, right],
            Node::Boxed { body, .. } | Node::New { body, .. } | Node::Input { body, .. } => {
                vec![body]
            }
        }
    }

    /// Check 4 at this node.
    fn names_fit(&self) -> bool {
        match *self {
            Node::Nil | Node::Parallel { .. } => true,
            Node::Boxed { name, .. } | Node::New { name, .. } => name <= LAST_PUBLIC,
            Node::Output(port) | Node::Input { port, .. } => {
                port.channel <= LAST_PUBLIC && port.tag <= LAST_TAG
            }
        }
    }

    /// Check 5 at this node.
    fn words_fit(&self, pool: &[u32]) -> bool {
        match *self {
            Node::Output(port) => read_value(pool, port.place).is_some(),
            Node::Input { port, .. } => read_pattern(pool, port.place).is_some(),
            _ => true,
        }
    }

    /// The numbers this node binds in its body; the table has passed check 5.
    fn binders(&self, pool: &[u32]) -> Vec<u32> {
        match *self {
            Node::New { name, .. } => vec![name],
            Node::Input { port, .. } => sound_pattern(pool, port.place).binders(),
            _ => vec![],
        }
    }
}

/// Check 3: the lowest node that has a bad child field, or is not 0 and not
/// named by exactly one child field. A bad field within the table counts too.
fn lowest_bad_child(nodes: &[Node]) -> Option<usize> {
    let mut named = vec![0_usize; nodes.len()];
    let mut bad = vec![false; nodes.len()];
    for (number, node) in nodes.iter().enumerate() {
        for child in node.children() {
            let child = child as usize;
            bad[number] |= child <= number || child >= nodes.len();
            if let Some(count) = named.get_mut(child) {
                *count += 1;
            }
        }
    }
    (0..nodes.len()).find(|&node| bad[node] || (node != 0 && named[node] != 1))
}

/// Check 6: the lowest node with over eight bound names in force.
fn lowest_deep_scope(nodes: &[Node], pool: &[u32]) -> Option<usize> {
    let mut in_force = vec![0_usize; nodes.len()];
    for (number, node) in nodes.iter().enumerate() {
        for child in node.children() {
            in_force[child as usize] = in_force[number] + node.binders(pool).len();
        }
    }
    in_force.iter().position(|&count| count > SCOPE_LIMIT)
}

/// The pool words from a place on, as many as one value can have.
fn window(pool: &[u32], place: u32) -> &[u32] {
    let start = (place as usize).min(pool.len());
    let end = (start + WORD_LIMIT).min(pool.len());
    &pool[start..end]
}

/// A value of table names at a place of the pool.
fn read_value(pool: &[u32], place: u32) -> Option<Tree<u32>> {
    let leaf = |word: u32| (word <= LAST_PUBLIC).then_some(word);
    Tree::read_front(window(pool, place), &leaf).map(|(tree, _)| tree)
}

/// A pattern at a place of the pool, with no name twice.
fn read_pattern(pool: &[u32], place: u32) -> Option<Pattern> {
    let leaf = |word: u32| match word {
        WILDCARD_WORD => Some(Slot::Wildcard),
        0..=LAST_PUBLIC => Some(Slot::Binder(word)),
        _ => None,
    };
    let (pattern, _) = Tree::read_front(window(pool, place), &leaf)?;
    let mut binders = pattern.binders();
    let count = binders.len();
    binders.sort_unstable();
    binders.dedup();
    (binders.len() == count).then_some(pattern)
}

/// A pattern of a table that has passed check 5.
fn sound_pattern(pool: &[u32], place: u32) -> Pattern {
    read_pattern(pool, place).expect("a pattern that passed check 5")
}

/// Reads the process from a checked table, with the numbers bound above the
/// present node.
struct Reader<'t> {
    nodes: &'t [Node],
    pool: &'t [u32],
    scope: Vec<u32>,
}

impl<'t> Reader<'t> {
    fn new(nodes: &'t [Node], pool: &'t [u32]) -> Self {
        Reader {
            nodes,
            pool,
            scope: Vec::new(),
        }
    }

    /// The process that a node stands for.
    fn process(&mut self, number: u32) -> Process {
        match self.nodes[number as usize] {
            Node::Nil => Process::Nil,
            Node::Parallel { left, right } => {
                let left = self.process(left);
                Process::Parallel(Box::new(left), Box::new(self.process(right)))
            }
            Node::Boxed { name, body } => {
                Process::Boxed(self.subject(name), Box::new(self.process(body)))
            }
            Node::New { name, body } => Process::New(name, self.body(&[name], body)),
            Node::Output(port) => Process::Output {
                channel: self.subject(port.channel),
                tag: self.tag(port.tag),
                value: self.value(port.place),
            },
            Node::Input { port, body, again } => {
                let pattern = sound_pattern(self.pool, port.place);
                Process::Input {
                    replicated: again,
                    channel: self.subject(port.channel),
                    tag: self.tag(port.tag),
                    body: self.body(&pattern.binders(), body),
                    pattern,
                }
            }
        }
    }

    /// The process of a node below a binder of these numbers.
    fn body(&mut self, binders: &[u32], node: u32) -> Box<Process> {
        let outer = self.scope.len();
        self.scope.extend_from_slice(binders);
        let body = self.process(node);
        self.scope.truncate(outer);
        Box::new(body)
    }

    /// A table name, bound or public.
    fn subject(&self, number: u32) -> Subject {
        if self.scope.contains(&number) {
            Subject::Bound(number)
        } else {
            Subject::Free(Name::Public(number))
        }
    }

    /// A tag word: 0 within, 1 parent, 2 + n child n.
    fn tag(&self, word: u32) -> Direction<Subject> {
        match word {
            0 => Direction::Within,
            1 => Direction::Parent,
            child => Direction::Child(self.subject(child - 2)),
        }
    }

    /// The value at a place, its names bound or public.
    fn value(&self, place: u32) -> Expression {
        let tree = read_value(self.pool, place).expect("a value that passed check 5");
        self.resolve(&tree)
    }

    fn resolve(&self, tree: &Tree<u32>) -> Expression {
        match tree {
            Tree::Leaf(number) => Tree::Leaf(self.subject(*number)),
            Tree::Tuple(parts) => Tree::Tuple(parts.iter().map(|p| self.resolve(p)).collect()),
        }
    }
}
