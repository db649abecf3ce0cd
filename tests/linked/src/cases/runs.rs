//! Runs by words: the claims of a seed as runs, with more and less room for the answers.

use super::base::Base;
use super::Case;
use crate::call::{Call, Claim};
use reference::random::Random;
use reference::words::{self, ANSWER_WORDS};

/// So many claims of a seed are also run.
const CLAIMS: usize = 14;

pub fn cases(random: &mut Random, base: &Base, checked: &[Case]) -> Vec<Case> {
    let mut cases = with_rooms(random, &base.claim_of(&base.asked, &[]));
    cases.extend(with_rooms(random, &base.claim()));
    let checked = Checked::of(checked);
    for place in 0..CLAIMS {
        let claim = checked.pick(random, place);
        cases.extend(with_rooms(random, claim));
    }
    cases
}

/// The claims of a seed that are checked.
pub struct Checked<'c> {
    damaged: Vec<&'c Claim>,
    others: Vec<&'c Claim>,
}

impl<'c> Checked<'c> {
    /// The claims among these cases.
    pub fn of(cases: &'c [Case]) -> Checked<'c> {
        let (mut damaged, mut others) = (Vec::new(), Vec::new());
        for case in cases {
            match &case.call {
                Call::Check(claim) if case.sort == "tables damaged" => damaged.push(claim),
                Call::Check(claim) => others.push(claim),
                _ => {}
            }
        }
        Checked { damaged, others }
    }

    /// One of them; every third time it has damaged tables.
    pub fn pick(&self, random: &mut Random, place: usize) -> &'c Claim {
        random.pick(match place % 3 {
            0 => &self.damaged,
            _ => &self.others,
        })
    }
}

/// A run with exactly enough words, with one too few, with more and with some other number.
fn with_rooms(random: &mut Random, claim: &Claim) -> Vec<Case> {
    let records = words::steps(claim.steps.lent());
    let exact = records.len() * ANSWER_WORDS;
    let more = exact + random.pick(&[1, 2, 19, 20, 21, 40, 100]);
    let other = random.below(more);
    let mut rooms = vec![
        ("exactly enough words", exact),
        ("more words", more),
        ("any number of words", other),
    ];
    if exact > 0 {
        rooms.push(("a word too few", exact - 1));
    }
    let call = |room: usize| Call::Run(claim.clone(), room);
    rooms
        .into_iter()
        .map(|(sort, room)| Case {
            sort,
            call: call(room),
        })
        .collect()
}
