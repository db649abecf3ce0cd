//! What is lent as lists of words: both sides' tables in one list, steps and
//! labels as records, the answers of a run, and the stranded positions after
//! one.

use crate::steps::{Answer, Label, Step};
use crate::tables::{self, LoadRefusal, Table};
use crate::terms::WORD_LIMIT;

/// Words of one answer.
pub const ANSWER_WORDS: usize = 20;

/// A record breaks off: the list ends before the record does.
#[derive(Clone, Copy, Debug, PartialEq, Eq)]
pub struct BrokenOff;

/// A label as a record has it.
#[derive(Clone, Debug, PartialEq, Eq)]
pub struct Record {
    /// 0 for in, 1 for out, 3 for log.
    pub channel: u32,
    pub side: u32,
    pub value: Vec<u32>,
}

/// Why there are no answers.
#[derive(Clone, Copy, Debug, PartialEq, Eq)]
pub enum NoRun {
    /// A step record breaks off.
    BrokenOff,
    /// The lent list has fewer than 20 words for each step.
    TooShort,
    /// Load refuses the tables.
    Unloaded(LoadRefusal),
}

/// Why there is no list of stranded positions.
#[derive(Clone, Copy, Debug, PartialEq, Eq)]
pub enum NoList {
    /// Load refuses the tables.
    Unloaded(LoadRefusal),
    /// A step record breaks off.
    BrokenOff,
    /// The lent list has fewer words than there are stranded messages.
    TooShort,
}

/// Both sides' tables: side 1's nodes and pool, then side 2's, each as long as
/// its length says. A missing length is 0, and a part is cut where the list ends.
pub fn lent_tables<'w>(words: &'w [u32], lengths: &[u32]) -> [Table<'w>; 2] {
    let mut rest = words;
    let mut lengths = lengths.iter();
    let mut part = || {
        let length = lengths.next().map_or(0, |&length| length as usize);
        let (part, behind) = rest.split_at(length.min(rest.len()));
        rest = behind;
        part
    };
    let mut table = || Table {
        nodes: part(),
        pool: part(),
    };
    [table(), table()]
}

/// The steps of a list: kind, side, i, j, count and so many value words each.
/// A record that breaks off is the last.
pub fn steps(words: &[u32]) -> Vec<Result<Step, BrokenOff>> {
    let step = |([kind, side, i, j], value): ([u32; 4], &[u32])| Step {
        kind,
        side,
        i,
        j,
        value: value.to_vec(),
    };
    let records = records(words).into_iter();
    records.map(|record| record.map(step)).collect()
}

/// The steps of a list none of whose records breaks off.
fn whole_steps(words: &[u32]) -> Result<Vec<Step>, BrokenOff> {
    steps(words).into_iter().collect()
}

/// The labels of a list: channel, side, count and so many value words each.
/// A record that breaks off is the last.
pub fn labels(words: &[u32]) -> Vec<Result<Record, BrokenOff>> {
    let label = |([channel, side], value): ([u32; 2], &[u32])| Record {
        channel,
        side,
        value: value.to_vec(),
    };
    let records = records(words).into_iter();
    records.map(|record| record.map(label)).collect()
}

/// The fields of a record before its count, and its value words.
type Parts<'w, const FIELDS: usize> = ([u32; FIELDS], &'w [u32]);

/// Parts a list into records.
fn records<const FIELDS: usize>(words: &[u32]) -> Vec<Result<Parts<'_, FIELDS>, BrokenOff>> {
    let mut found = Vec::new();
    let mut rest = words;
    while !rest.is_empty() {
        let Some((parts, behind)) = first_record(rest) else {
            found.push(Err(BrokenOff));
            return found;
        };
        found.push(Ok(parts));
        rest = behind;
    }
    found
}

/// The record that a list begins with and the words behind it.
fn first_record<const FIELDS: usize>(words: &[u32]) -> Option<(Parts<'_, FIELDS>, &[u32])> {
    let (fields, rest) = words.split_first_chunk::<FIELDS>()?;
    let (count, rest) = rest.split_first()?;
    let (value, rest) = rest.split_at_checked(*count as usize)?;
    Some(((*fields, value), rest))
}

/// The words of a list of steps.
pub fn step_words(steps: &[Step]) -> Vec<u32> {
    let words = |step: &Step| {
        let fields = [step.kind, step.side, step.i, step.j];
        [&fields[..], &[step.value.len() as u32], &step.value].concat()
    };
    steps.iter().flat_map(words).collect()
}

/// The words of a list of labels.
pub fn label_words(labels: &[Record]) -> Vec<u32> {
    let words = |label: &Record| {
        let fields = [label.channel, label.side, label.value.len() as u32];
        [&fields[..], &label.value].concat()
    };
    labels.iter().flat_map(words).collect()
}

/// The record of a visible label; none for a silent one.
pub fn label_record(side: u32, label: &Label) -> Option<Record> {
    let (channel, value) = match label {
        Label::In(value) => (0, value),
        Label::Out(value) => (1, value),
        Label::Log(value) => (3, value),
        Label::Silent => return None,
    };
    let value = value.words();
    Some(Record {
        channel,
        side,
        value,
    })
}

/// Runs a list of steps and writes 20 words for each answer to the front of the
/// lent list; gives how many answers. Where there is no run, nothing is written.
pub fn run_words(
    wrapper: u32,
    tables: [Table; 2],
    words: &[u32],
    out: &mut [u32],
) -> Result<usize, NoRun> {
    let steps = whole_steps(words).map_err(|BrokenOff| NoRun::BrokenOff)?;
    if out.len() / ANSWER_WORDS < steps.len() {
        return Err(NoRun::TooShort);
    }
    let mut state = tables::load(wrapper, tables).map_err(NoRun::Unloaded)?;
    for (step, place) in steps.iter().zip(out.chunks_exact_mut(ANSWER_WORDS)) {
        place.copy_from_slice(&answer_words(&state.step(step)));
    }
    Ok(steps.len())
}

/// Runs a list of steps and writes the positions of the side's stranded
/// messages, smallest first, to the front of the lent list; gives how many.
/// Where there is no list, nothing is written.
pub fn stranded_words(
    wrapper: u32,
    tables: [Table; 2],
    words: &[u32],
    side: u32,
    out: &mut [u32],
) -> Result<usize, NoList> {
    let mut state = tables::load(wrapper, tables).map_err(NoList::Unloaded)?;
    for step in whole_steps(words).map_err(|BrokenOff| NoList::BrokenOff)? {
        state.step(&step);
    }
    let positions = state.stranded(side);
    let front = out.get_mut(..positions.len()).ok_or(NoList::TooShort)?;
    for (word, &position) in front.iter_mut().zip(&positions) {
        *word = position as u32;
    }
    Ok(positions.len())
}

/// The words of an answer: the sort (0 silent, 1 in, 2 out, 3 refused, 4 log),
/// the refusal's number, the side, the value's length and 16 words.
pub fn answer_words(answer: &Answer) -> [u32; ANSWER_WORDS] {
    let (sort, number, value) = match &answer.outcome {
        Ok(Label::Silent) => (0, 0, vec![]),
        Ok(Label::In(value)) => (1, 0, value.words()),
        Ok(Label::Out(value)) => (2, 0, value.words()),
        Err(refusal) => (3, refusal.number(), vec![]),
        Ok(Label::Log(value)) => (4, 0, value.words()),
    };
    let mut told = [0; ANSWER_WORDS];
    told[..4].copy_from_slice(&[sort, number, answer.side, value.len() as u32]);
    told[ANSWER_WORDS - WORD_LIMIT..][..value.len()].copy_from_slice(&value);
    told
}
