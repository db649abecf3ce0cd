//! What a call is lent.

use crate::bench::Tables;

/// A list of words of which only the front is lent; the rest stands behind it in memory.
#[derive(Clone, Debug, Default)]
pub struct List {
    words: Vec<u32>,
    length: usize,
}

impl List {
    /// A list that is lent as a whole.
    pub fn whole(words: Vec<u32>) -> List {
        let length = words.len();
        List { words, length }
    }

    /// The list cut at a place.
    pub fn cut(&self, at: usize) -> List {
        let length = at.min(self.words.len());
        let words = self.words.clone();
        List { words, length }
    }

    /// What is lent.
    pub fn lent(&self) -> &[u32] {
        &self.words[..self.length]
    }

    /// What is lent and what stands behind it.
    pub fn all(&self) -> &[u32] {
        &self.words
    }
}

/// Tables, steps and labels; only a check asks about the labels.
#[derive(Clone, Debug, Default)]
pub struct Claim {
    pub wrapper: u32,
    pub tables: List,
    pub lengths: List,
    pub steps: List,
    pub labels: List,
}

impl Claim {
    /// The claim with other steps.
    pub fn with_steps(&self, steps: List) -> Claim {
        Claim {
            steps,
            ..self.clone()
        }
    }

    /// The claim with other labels.
    pub fn with_labels(&self, labels: List) -> Claim {
        Claim {
            labels,
            ..self.clone()
        }
    }

    /// The claim about other table words.
    pub fn with_tables(&self, tables: List) -> Claim {
        Claim {
            tables,
            ..self.clone()
        }
    }

    /// The claim with other lengths of the tables.
    pub fn with_lengths(&self, lengths: List) -> Claim {
        Claim {
            lengths,
            ..self.clone()
        }
    }

    /// What load takes.
    pub fn tables(&self) -> Tables<'_> {
        Tables {
            wrapper: self.wrapper,
            words: self.tables.lent(),
            lengths: self.lengths.lent(),
        }
    }
}

/// A call of one of the functions.
#[derive(Clone, Debug)]
pub enum Call {
    Check(Claim),
    /// A run with so many words for its answers.
    Run(Claim, usize),
    /// The stranded positions of a side after a run, with so many words for them.
    Stranded(Claim, u32, usize),
    /// An input with so many bytes for its output.
    Text(Vec<u8>, usize),
}

impl Call {
    /// The name of the function.
    pub fn function(&self) -> &'static str {
        match self {
            Call::Check(_) => "check_trace",
            Call::Run(..) => "run",
            Call::Stranded(..) => "stranded_after",
            Call::Text(..) => "text",
        }
    }
}
