//! One call, made of a bench and of the separate implementation.

use crate::bench::{Bench, Separate, Tables};
use crate::call::{Call, Claim, List};
use crate::lent::{odd_byte, odd_number, odd_word, small_word, Lent};
use reference::state::LOBBY_LIMIT;
use std::fmt::Debug;

/// What the separate implementation told, and how the bench differs.
pub struct Compared {
    pub told: String,
    pub difference: Option<String>,
}

/// Makes a call of both and compares.
pub fn compare(bench: &dyn Bench, call: &Call) -> Compared {
    match call {
        Call::Check(claim) => compare_check(bench, claim),
        Call::Run(claim, room) => compare_run(bench, claim, *room),
        Call::Stranded(claim, side, room) => compare_stranded(bench, claim, *side, *room),
        Call::Text(input, room) => compare_text(bench, input, *room),
    }
}

/// The lists of a claim, lent.
struct Lists {
    tables: Lent<u32>,
    lengths: Lent<u32>,
    steps: Lent<u32>,
    labels: Lent<u32>,
}

impl Lists {
    fn new(claim: &Claim) -> Lists {
        let lend = |list: &List| Lent::front(list.all(), list.lent().len(), small_word);
        Lists {
            tables: lend(&claim.tables),
            lengths: lend(&claim.lengths),
            steps: lend(&claim.steps),
            labels: lend(&claim.labels),
        }
    }

    fn tables(&self, wrapper: u32) -> Tables<'_> {
        Tables {
            wrapper,
            words: self.tables.list(),
            lengths: self.lengths.list(),
        }
    }

    fn are_kept(&self) -> bool {
        let lists = [&self.tables, &self.lengths, &self.steps, &self.labels];
        lists.iter().all(|list| list.is_kept())
    }
}

/// Collects what differs.
#[derive(Default)]
struct Differences(Vec<String>);

impl Differences {
    fn expect<T: PartialEq + Debug>(&mut self, what: &str, right: T, got: T) {
        if right != got {
            self.0.push(format!("{what} is {got:?}, not {right:?}"));
        }
    }

    fn expect_kept(&mut self, what: &str, kept: bool) {
        if !kept {
            self.0.push(format!("{what} written"));
        }
    }

    /// The first place where two lists differ.
    fn expect_list<T: PartialEq + Debug>(&mut self, what: &str, right: &[T], got: &[T]) {
        if let Some(at) = (0..right.len()).find(|&at| right[at] != got[at]) {
            self.expect(&format!("{what} {at}"), &right[at], &got[at]);
        }
    }

    fn told(self, told: String) -> Compared {
        let difference = (!self.0.is_empty()).then(|| self.0.join("; "));
        Compared { told, difference }
    }
}

fn compare_check(bench: &dyn Bench, claim: &Claim) -> Compared {
    let lists = Lists::new(claim);
    let mut place = Lent::filled(2, odd_number);
    let got = bench.check_trace(
        lists.tables(claim.wrapper),
        lists.steps.list(),
        lists.labels.list(),
        place.list_mut().try_into().expect("two numbers"),
    );
    let mut right_place = [0; 2];
    let right = Separate.check_trace(
        claim.tables(),
        claim.steps.lent(),
        claim.labels.lent(),
        &mut right_place,
    );
    let mut differences = Differences::default();
    differences.expect("verdict", right, got);
    differences.expect("place", &right_place[..], place.list());
    differences.expect_kept("a word of the claim", lists.are_kept());
    differences.expect_kept("a number beside place", place.beside_is_kept());
    differences.told(match right {
        0 => String::from("accepted"),
        number => number.to_string(),
    })
}

/// A call of a function that writes words and three numbers.
type Filling<'f> = &'f dyn Fn(&dyn Bench, Tables, &[u32], &mut [u32], &mut [usize; 3]) -> usize;

/// What the separate implementation told, and how the bench differs.
struct Filled {
    result: usize,
    numbers: [usize; 3],
    differences: Differences,
}

/// Makes such a call of both, with so many words to write to, and compares.
fn compare_filling(bench: &dyn Bench, claim: &Claim, room: usize, fill: Filling) -> Filled {
    let lists = Lists::new(claim);
    let mut numbers = Lent::filled(3, odd_number);
    let mut out = Lent::filled(room, odd_word);
    let got = fill(
        bench,
        lists.tables(claim.wrapper),
        lists.steps.list(),
        out.list_mut(),
        numbers.list_mut().try_into().expect("three numbers"),
    );
    let mut right_numbers = [0; 3];
    let mut right_out = out.first().to_vec();
    let right = fill(
        &Separate,
        claim.tables(),
        claim.steps.lent(),
        &mut right_out,
        &mut right_numbers,
    );
    let mut differences = Differences::default();
    differences.expect("result", right, got);
    differences.expect("numbers", &right_numbers[..], numbers.list());
    differences.expect_list("word", &right_out, out.list());
    differences.expect_kept("a word of the tables or steps", lists.are_kept());
    differences.expect_kept("a number beside numbers", numbers.beside_is_kept());
    differences.expect_kept("a word beside out", out.beside_is_kept());
    Filled {
        result: right,
        numbers: right_numbers,
        differences,
    }
}

impl Filled {
    /// What was told: by these words where the list was filled.
    fn told(self, done: &str) -> Compared {
        self.differences.told(match self.result {
            0 => String::from(done),
            1 => format!("load {}", self.numbers[0]),
            2 => String::from("broken off"),
            _ => String::from("too short"),
        })
    }
}

fn compare_run(bench: &dyn Bench, claim: &Claim, room: usize) -> Compared {
    let filled = compare_filling(bench, claim, room, &|bench, tables, steps, out, numbers| {
        bench.run(tables, steps, out, numbers)
    });
    filled.told("done")
}

fn compare_stranded(bench: &dyn Bench, claim: &Claim, side: u32, room: usize) -> Compared {
    let filled = compare_filling(bench, claim, room, &|bench, tables, steps, out, numbers| {
        bench.stranded_after(tables, steps, side, out, numbers)
    });
    let done = match filled.numbers[0] {
        0 => "none",
        1 => "one",
        LOBBY_LIMIT => "sixteen",
        _ => "several",
    };
    filled.told(done)
}

fn compare_text(bench: &dyn Bench, input: &[u8], room: usize) -> Compared {
    let lent = Lent::front(input, input.len(), odd_byte);
    let mut bytes = Lent::filled(1, odd_number);
    let mut out = Lent::filled(room, odd_byte);
    let got = bench.text(lent.list(), out.list_mut(), &mut bytes.list_mut()[0]);
    let mut right_bytes = 0;
    let mut right_out = out.first().to_vec();
    let right = Separate.text(input, &mut right_out, &mut right_bytes);
    let mut differences = Differences::default();
    differences.expect("result", right, got);
    differences.expect("bytes", right_bytes, bytes.list()[0]);
    differences.expect_list("byte", &right_out, out.list());
    differences.expect_kept("a byte of the input", lent.is_kept());
    differences.expect_kept("a number beside bytes", bytes.beside_is_kept());
    differences.expect_kept("a byte beside out", out.beside_is_kept());
    differences.told(match (right, right_out.first()) {
        (0, Some(b'o')) => String::from("ok"),
        (0, Some(b'r')) => String::from("refused"),
        (0, _) => String::from("line"),
        _ => String::from("too short"),
    })
}
