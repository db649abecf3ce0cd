//! The calls of a seed: a run with the right claim, and what is wrong with it in one way after another.

mod base;
mod labels;
mod lists;
mod long;
mod runs;
mod steps;
mod stranded;
mod tables;
mod texts;

use crate::call::{Call, Claim};
use base::Base;
use reference::random::Random;

/// A call and the sort of case that it is.
pub struct Case {
    pub sort: &'static str,
    pub call: Call,
}

impl Case {
    fn check(sort: &'static str, claim: Claim) -> Case {
        let call = Call::Check(claim);
        Case { sort, call }
    }
}

/// All calls of a seed.
pub fn of_seed(seed: u64) -> Vec<Case> {
    let random = &mut Random::new(seed ^ 0x6c69_6e6b_6564);
    let base = Base::make(seed);
    let mut cases = vec![
        Case::check("right claim", base.claim()),
        Case::check(
            "steps as scheduled",
            base.claim_of(&base.asked, &base.labels),
        ),
        Case::check("no steps", base.claim_of(&[], &base.labels)),
        Case::check("nothing", base.claim_of(&[], &[])),
    ];
    cases.extend(labels::cases(random, &base));
    cases.extend(steps::cases(random, &base));
    cases.extend(lists::cases(random, &base));
    cases.extend(tables::cases(random, &base));
    cases.extend(runs::cases(random, &base, &cases));
    cases.extend(texts::cases(random, seed));
    match seed % 10 {
        0 => cases.extend(lists::all_cuts(random, &base)),
        1 => cases.extend(long::cases(random)),
        _ => {}
    }
    cases.extend(stranded::cases(random, seed, &base, &cases));
    cases
}
