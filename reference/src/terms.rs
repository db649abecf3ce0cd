//! Names, values, patterns and processes of the box-pi calculus, and
//! substitution of a value's parts for a pattern's names.
//!
//! A process is a term with named binders. Occurrences of a name that a binder
//! above them binds are [`Subject::Bound`]; all others are [`Subject::Free`] and
//! hold a name of the running system. Values substituted into a term hold free
//! names only, so nothing can be captured. Substitution stops at an inner
//! binder that binds the same number, which is how hiding works here.

/// The word of the empty tuple; the word of a tuple of `k` parts is `k` more.
pub const TUPLE_WORD: u32 = 4_000_000;
/// The most parts a tuple can have.
pub const MOST_PARTS: u32 = 15;
/// The word of the wildcard pattern.
pub const WILDCARD_WORD: u32 = 4_999_999;
/// The greatest public name.
pub const LAST_PUBLIC: u32 = 63;
/// Minted names are this number times their side, plus the serial.
pub const MINT_FACTOR: u32 = 65_536;
/// How many names a side can mint; serials are below it.
pub const MINT_LIMIT: u32 = 256;
/// The first name that the environment can bring.
pub const FIRST_OUTSIDE: u32 = 196_608;
/// The last name that the environment can bring.
pub const LAST_OUTSIDE: u32 = 196_863;
/// The most words of a value or pattern.
pub const WORD_LIMIT: usize = 16;

/// A name of the running system.
#[derive(Clone, Copy, Debug, PartialEq, Eq, PartialOrd, Ord)]
pub enum Name {
    /// A name that is free in the tables, 0 to 63.
    Public(u32),
    /// A name made by a `new` of side 1 or 2.
    Minted { side: u32, serial: u32 },
    /// A name that no table has and no side mints: the environment brings it
    /// in a value. It is written as this number.
    Outside(u32),
}

/// The public name `in`.
pub const IN: Name = Name::Public(0);
/// The public name `out`.
pub const OUT: Name = Name::Public(1);
/// The public name `mid`.
pub const MID: Name = Name::Public(2);
/// The channel of the copies that the logging wrapper sends.
pub const LOG: Name = Name::Public(3);

impl Name {
    /// The number this name is written as.
    pub fn word(self) -> u32 {
        match self {
            Name::Public(number) | Name::Outside(number) => number,
            Name::Minted { side, serial } => MINT_FACTOR * side + serial,
        }
    }

    /// The name a number stands for: public, minted with side 1 or 2 and a
    /// serial up to 255, or from outside.
    pub fn from_word(word: u32) -> Option<Name> {
        let (side, serial) = (word / MINT_FACTOR, word % MINT_FACTOR);
        match side {
            0 if word <= LAST_PUBLIC => Some(Name::Public(word)),
            1 | 2 if serial < MINT_LIMIT => Some(Name::Minted { side, serial }),
            _ if is_outside(word) => Some(Name::Outside(word)),
            _ => None,
        }
    }
}

/// True for the numbers of names from outside.
pub fn is_outside(word: u32) -> bool {
    (FIRST_OUTSIDE..=LAST_OUTSIDE).contains(&word)
}

/// A tuple-structured item: values, patterns and the values inside a process
/// differ only in what stands at the leaves.
#[derive(Clone, Debug, PartialEq, Eq)]
pub enum Tree<L> {
    Leaf(L),
    Tuple(Vec<Tree<L>>),
}

/// A value that is sent: its leaves are names of the running system.
pub type Value = Tree<Name>;

/// A value inside a process: its leaves may still be bound.
pub type Expression = Tree<Subject>;

/// A pattern, with no number twice.
pub type Pattern = Tree<Slot>;

/// A leaf of a pattern.
#[derive(Clone, Copy, Debug, PartialEq, Eq)]
pub enum Slot {
    /// Takes anything and binds nothing.
    Wildcard,
    /// Takes anything and binds it to this number.
    Binder(u32),
}

impl<L> Tree<L> {
    /// Reads one tree from the front of `words`; also says how many words it
    /// took. None when a word is no tuple and no leaf, or the words run out.
    pub fn read_front<F>(words: &[u32], leaf: &F) -> Option<(Tree<L>, usize)>
    where
        F: Fn(u32) -> Option<L>,
    {
        let first = *words.first()?;
        let Some(parts) = tuple_parts(first) else {
            return Some((Tree::Leaf(leaf(first)?), 1));
        };
        let mut tuple = Vec::new();
        let mut used = 1;
        for _ in 0..parts {
            let (part, length) = Tree::read_front(&words[used..], leaf)?;
            tuple.push(part);
            used += length;
        }
        Some((Tree::Tuple(tuple), used))
    }

    /// How many words the tree is written with.
    pub fn length(&self) -> usize {
        match self {
            Tree::Leaf(_) => 1,
            Tree::Tuple(parts) => 1 + parts.iter().map(Tree::length).sum::<usize>(),
        }
    }

    /// The leaves from left to right.
    pub fn leaves(&self) -> Vec<&L> {
        match self {
            Tree::Leaf(leaf) => vec![leaf],
            Tree::Tuple(parts) => parts.iter().flat_map(Tree::leaves).collect(),
        }
    }
}

/// How many parts the tuple has whose word this is.
fn tuple_parts(word: u32) -> Option<u32> {
    (TUPLE_WORD..=TUPLE_WORD + MOST_PARTS)
        .contains(&word)
        .then(|| word - TUPLE_WORD)
}

impl Value {
    /// Reads a value that takes up all the words, 1 to 16 of them.
    pub fn from_words(words: &[u32]) -> Option<Value> {
        if words.len() > WORD_LIMIT {
            return None;
        }
        let (value, used) = Tree::read_front(words, &Name::from_word)?;
        (used == words.len()).then_some(value)
    }

    /// The words of the value, each tuple's word before its parts.
    pub fn words(&self) -> Vec<u32> {
        match self {
            Tree::Leaf(name) => vec![name.word()],
            Tree::Tuple(parts) => {
                let mut words = vec![TUPLE_WORD + parts.len() as u32];
                words.extend(parts.iter().flat_map(Value::words));
                words
            }
        }
    }
}

impl Pattern {
    /// The numbers the pattern binds, from left to right.
    pub fn binders(&self) -> Vec<u32> {
        let bound = |slot: &&Slot| match **slot {
            Slot::Binder(number) => Some(number),
            Slot::Wildcard => None,
        };
        self.leaves().iter().filter_map(bound).collect()
    }

    /// The substitution of the value's parts for the pattern's names, or none
    /// if the pattern does not take the value.
    pub fn take<'v>(&self, value: &'v Value) -> Option<Substitution<'v>> {
        match (self, value) {
            (Tree::Leaf(Slot::Wildcard), _) => Some(Substitution::default()),
            (Tree::Leaf(Slot::Binder(number)), _) => Some(Substitution::one(*number, value)),
            (Tree::Tuple(patterns), Tree::Tuple(values)) if patterns.len() == values.len() => {
                let mut whole = Substitution::default();
                for (pattern, value) in patterns.iter().zip(values) {
                    whole.pairs.extend(pattern.take(value)?.pairs);
                }
                Some(whole)
            }
            _ => None,
        }
    }
}

/// A name position in a process.
#[derive(Clone, Copy, Debug, PartialEq, Eq)]
pub enum Subject {
    /// A name of the running system.
    Free(Name),
    /// The name bound by the innermost binder of this number above it.
    Bound(u32),
}

impl Subject {
    /// The name, once every binder above has been opened.
    pub fn name(self) -> Name {
        match self {
            Subject::Free(name) => name,
            Subject::Bound(number) => panic!("bound name {number} in a closed term"),
        }
    }
}

/// A tag as written in a table: where an output goes, or where an input
/// receives from.
#[derive(Clone, Copy, Debug, PartialEq, Eq)]
pub enum Direction<N> {
    Within,
    Parent,
    Child(N),
}

impl<N> Direction<N> {
    /// The same tag with another kind of name in it.
    pub fn map<M>(self, change: impl FnOnce(N) -> M) -> Direction<M> {
        match self {
            Direction::Within => Direction::Within,
            Direction::Parent => Direction::Parent,
            Direction::Child(name) => Direction::Child(change(name)),
        }
    }
}

/// A process term.
#[derive(Clone, Debug, PartialEq, Eq)]
pub enum Process {
    Nil,
    Parallel(Box<Process>, Box<Process>),
    Boxed(Subject, Box<Process>),
    New(u32, Box<Process>),
    Output {
        channel: Subject,
        tag: Direction<Subject>,
        value: Expression,
    },
    Input {
        replicated: bool,
        channel: Subject,
        tag: Direction<Subject>,
        pattern: Pattern,
        body: Box<Process>,
    },
}

/// A substitution of values for bound names.
#[derive(Clone, Debug, Default, PartialEq, Eq)]
pub struct Substitution<'v> {
    pairs: Vec<(u32, &'v Value)>,
}

/// The substitution is not defined: it would put a tuple where the syntax has
/// only names (channel, tag or box name).
#[derive(Clone, Copy, Debug, PartialEq, Eq)]
pub struct Undefined;

impl<'v> Substitution<'v> {
    /// The substitution of one value for one name.
    pub fn one(number: u32, value: &'v Value) -> Self {
        Substitution {
            pairs: vec![(number, value)],
        }
    }

    /// The substitution below a binder of these numbers: it no longer touches
    /// them.
    fn below(&self, hidden: &[u32]) -> Self {
        let mut rest = self.clone();
        rest.pairs.retain(|(number, _)| !hidden.contains(number));
        rest
    }

    /// What stands for this number, if anything does.
    fn get(&self, number: u32) -> Option<&'v Value> {
        let found = self.pairs.iter().find(|(bound, _)| *bound == number);
        found.map(|(_, value)| *value)
    }

    /// Applies the substitution to a name position.
    fn subject(&self, subject: Subject) -> Result<Subject, Undefined> {
        let Subject::Bound(number) = subject else {
            return Ok(subject);
        };
        match self.get(number) {
            None => Ok(subject),
            Some(Tree::Leaf(name)) => Ok(Subject::Free(*name)),
            Some(Tree::Tuple(_)) => Err(Undefined),
        }
    }

    /// Applies the substitution to a tag.
    fn tag(&self, tag: Direction<Subject>) -> Result<Direction<Subject>, Undefined> {
        match tag {
            Direction::Child(name) => Ok(Direction::Child(self.subject(name)?)),
            other => Ok(other),
        }
    }

    /// Applies the substitution to a value; this is always defined.
    fn expression(&self, expression: &Expression) -> Expression {
        match expression {
            Tree::Tuple(parts) => Tree::Tuple(parts.iter().map(|p| self.expression(p)).collect()),
            Tree::Leaf(Subject::Bound(number)) => match self.get(*number) {
                Some(value) => quote(value),
                None => expression.clone(),
            },
            Tree::Leaf(Subject::Free(_)) => expression.clone(),
        }
    }

    /// Applies the substitution to a process.
    pub fn apply(&self, process: &Process) -> Result<Process, Undefined> {
        Ok(match process {
            Process::Nil => Process::Nil,
            Process::Parallel(left, right) => {
                Process::Parallel(Box::new(self.apply(left)?), Box::new(self.apply(right)?))
            }
            Process::Boxed(name, body) => {
                Process::Boxed(self.subject(*name)?, Box::new(self.apply(body)?))
            }
            Process::New(number, body) => {
                let below = self.below(&[*number]);
                Process::New(*number, Box::new(below.apply(body)?))
            }
            Process::Output {
                channel,
                tag,
                value,
            } => Process::Output {
                channel: self.subject(*channel)?,
                tag: self.tag(*tag)?,
                value: self.expression(value),
            },
            Process::Input {
                replicated,
                channel,
                tag,
                pattern,
                body,
            } => Process::Input {
                replicated: *replicated,
                channel: self.subject(*channel)?,
                tag: self.tag(*tag)?,
                pattern: pattern.clone(),
                body: Box::new(self.below(&pattern.binders()).apply(body)?),
            },
        })
    }
}

/// A value as it stands inside a process.
fn quote(value: &Value) -> Expression {
    match value {
        Tree::Leaf(name) => Tree::Leaf(Subject::Free(*name)),
        Tree::Tuple(parts) => Tree::Tuple(parts.iter().map(quote).collect()),
    }
}

impl Expression {
    /// The value, once every binder above has been opened.
    pub fn closed(&self) -> Value {
        match self {
            Tree::Leaf(subject) => Tree::Leaf(subject.name()),
            Tree::Tuple(parts) => Tree::Tuple(parts.iter().map(Expression::closed).collect()),
        }
    }
}
