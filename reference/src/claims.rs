//! A maker's claim: the steps he says he made and the visible labels he says
//! came out of them, both as word lists, held to what the steps really give.

use crate::tables::{self, LoadRefusal, Table};
use crate::words::{self, BrokenOff, Record};

/// What is said to a claim.
#[derive(Clone, Copy, Debug, PartialEq, Eq)]
pub enum Verdict {
    /// Every step is legal and the labels are as claimed.
    Accepted,
    /// Load refuses the tables.
    Unloaded(LoadRefusal),
    /// The first step that is refused, or whose record breaks off.
    Step(usize),
    /// The first place where the claimed labels and those of the run part.
    Label(usize),
}

impl Verdict {
    /// The number of the verdict: 0, load's, 20 or 21.
    pub fn number(self) -> u32 {
        match self {
            Verdict::Accepted => 0,
            Verdict::Unloaded(refusal) => refusal.number,
            Verdict::Step(_) => 20,
            Verdict::Label(_) => 21,
        }
    }
}

/// Checks a claim about the handlers of these tables.
pub fn check(wrapper: u32, tables: [Table; 2], steps: &[u32], labels: &[u32]) -> Verdict {
    match visible_labels(wrapper, tables, steps) {
        Ok(seen) => match parting(&seen, &words::labels(labels)) {
            None => Verdict::Accepted,
            Some(index) => Verdict::Label(index),
        },
        Err(verdict) => verdict,
    }
}

/// The visible labels of a run in order, or what is wrong with its load or its
/// steps. Steps are taken in order, so a refused one hides what is behind it.
pub fn visible_labels(
    wrapper: u32,
    tables: [Table; 2],
    steps: &[u32],
) -> Result<Vec<Record>, Verdict> {
    let mut state = tables::load(wrapper, tables).map_err(Verdict::Unloaded)?;
    let mut seen = Vec::new();
    for (index, step) in words::steps(steps).into_iter().enumerate() {
        let step = step.map_err(|BrokenOff| Verdict::Step(index))?;
        let label = state.step(&step).outcome;
        let label = label.map_err(|_| Verdict::Step(index))?;
        seen.extend(words::label_record(step.side, &label));
    }
    Ok(seen)
}

/// The first index at which one list has another label than the other, or none.
/// A record that breaks off is no label of a run.
fn parting(seen: &[Record], claimed: &[Result<Record, BrokenOff>]) -> Option<usize> {
    let agree = |index: usize| match (seen.get(index), claimed.get(index)) {
        (Some(seen), Some(Ok(claimed))) => seen == claimed,
        (None, None) => true,
        _ => false,
    };
    (0..seen.len().max(claimed.len())).find(|&index| !agree(index))
}
