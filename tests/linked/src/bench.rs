//! The functions of the library as safe ones, and the separate implementation behind the same ones.

use reference::claims::{check, Verdict};
use reference::tables::{LoadRefusal, Table};
use reference::words::{lent_tables, run_words, stranded_words, NoList, NoRun};

/// What load takes: the wrapper, both sides' tables in one list and the lengths of its parts.
#[derive(Clone, Copy, Debug)]
pub struct Tables<'w> {
    pub wrapper: u32,
    pub words: &'w [u32],
    pub lengths: &'w [u32],
}

/// The functions that are compared; answers and numbers are as the C header says.
pub trait Bench {
    fn text(&self, input: &[u8], out: &mut [u8], bytes: &mut usize) -> usize;
    fn run(
        &self,
        tables: Tables,
        steps: &[u32],
        out: &mut [u32],
        numbers: &mut [usize; 3],
    ) -> usize;
    fn check_trace(
        &self,
        tables: Tables,
        steps: &[u32],
        labels: &[u32],
        place: &mut [usize; 2],
    ) -> usize;
    fn stranded_after(
        &self,
        tables: Tables,
        steps: &[u32],
        side: u32,
        out: &mut [u32],
        numbers: &mut [usize; 3],
    ) -> usize;
}

impl<'w> Tables<'w> {
    /// The tables of side 1 and side 2.
    pub fn parts(&self) -> [Table<'w>; 2] {
        lent_tables(self.words, self.lengths)
    }
}

/// The separate implementation.
pub struct Separate;

impl Bench for Separate {
    fn text(&self, input: &[u8], out: &mut [u8], bytes: &mut usize) -> usize {
        let output = reference::run(input);
        *bytes = 0;
        let Some(front) = out.get_mut(..output.len()) else {
            return 1;
        };
        front.copy_from_slice(output.as_bytes());
        *bytes = output.len();
        0
    }

    fn run(
        &self,
        tables: Tables,
        steps: &[u32],
        out: &mut [u32],
        numbers: &mut [usize; 3],
    ) -> usize {
        let ran = run_words(tables.wrapper, tables.parts(), steps, out);
        told_run(ran, numbers)
    }

    fn check_trace(
        &self,
        tables: Tables,
        steps: &[u32],
        labels: &[u32],
        place: &mut [usize; 2],
    ) -> usize {
        let verdict = check(tables.wrapper, tables.parts(), steps, labels);
        told_verdict(verdict, place)
    }

    fn stranded_after(
        &self,
        tables: Tables,
        steps: &[u32],
        side: u32,
        out: &mut [u32],
        numbers: &mut [usize; 3],
    ) -> usize {
        let found = stranded_words(tables.wrapper, tables.parts(), steps, side, out);
        told_stranded(found, numbers)
    }
}

/// The result of a run with its numbers.
pub fn told_run(ran: Result<usize, NoRun>, numbers: &mut [usize; 3]) -> usize {
    let (result, told) = match ran {
        Ok(count) => (0, [count, 0, 0]),
        Err(NoRun::Unloaded(refusal)) => (1, refusal_numbers(refusal)),
        Err(NoRun::BrokenOff) => (2, [0; 3]),
        Err(NoRun::TooShort) => (3, [0; 3]),
    };
    *numbers = told;
    result
}

/// The result of the question for stranded positions with its numbers.
pub fn told_stranded(found: Result<usize, NoList>, numbers: &mut [usize; 3]) -> usize {
    let (result, told) = match found {
        Ok(count) => (0, [count, 0, 0]),
        Err(NoList::Unloaded(refusal)) => (1, refusal_numbers(refusal)),
        Err(NoList::BrokenOff) => (2, [0; 3]),
        Err(NoList::TooShort) => (22, [0; 3]),
    };
    *numbers = told;
    result
}

/// Number, side and node of load's refusal.
fn refusal_numbers(LoadRefusal { number, side, node }: LoadRefusal) -> [usize; 3] {
    [number, side, node].map(|word| word as usize)
}

/// The number of a verdict with its place.
pub fn told_verdict(verdict: Verdict, place: &mut [usize; 2]) -> usize {
    *place = match verdict {
        Verdict::Accepted => [0, 0],
        Verdict::Unloaded(LoadRefusal { side, node, .. }) => [side as usize, node as usize],
        Verdict::Step(index) | Verdict::Label(index) => [0, index],
    };
    verdict.number() as usize
}
