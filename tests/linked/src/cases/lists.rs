//! Claims whose lists are cut, have other counts, or are any words at all.

use super::base::{labels_of, Base};
use super::Case;
use crate::call::List;
use reference::random::Random;
use reference::words::step_words;

/// With all cuts a run has at most so many steps.
const FEW_STEPS: usize = 18;
/// The fields of a step before its count.
const STEP_FIELDS: usize = 4;
/// The fields of a label before its count.
const LABEL_FIELDS: usize = 2;

/// The sorts of other counts: small, near the rest of the list, great.
const STEP_COUNTS: [&str; 3] = [
    "count of a step: small",
    "count of a step: near the rest",
    "count of a step: great",
];
const LABEL_COUNTS: [&str; 3] = [
    "count of a label: small",
    "count of a label: near the rest",
    "count of a label: great",
];

pub fn cases(random: &mut Random, base: &Base) -> Vec<Case> {
    let right = base.claim();
    let mut cases = cuts(random, base);
    for (sort, steps) in other_counts(random, &right.steps, STEP_FIELDS) {
        cases.push(Case::check(STEP_COUNTS[sort], right.with_steps(steps)));
    }
    for (sort, labels) in other_counts(random, &right.labels, LABEL_FIELDS) {
        cases.push(Case::check(LABEL_COUNTS[sort], right.with_labels(labels)));
    }
    cases.extend(any_words(random, base));
    cases
}

/// Cuts at random places, fewer steps, and words behind the last record.
fn cuts(random: &mut Random, base: &Base) -> Vec<Case> {
    let right = base.claim();
    let mut cases = Vec::new();
    for _ in 0..3 {
        let steps = any_cut(random, &right.steps);
        let labels = any_cut(random, &right.labels);
        let both = right.with_steps(steps.clone()).with_labels(labels.clone());
        cases.push(Case::check("steps and labels cut", both));
        cases.push(Case::check("steps cut", right.with_steps(steps)));
        cases.push(Case::check("labels cut", right.with_labels(labels)));
    }
    let fewer = random.below(base.steps.len() + 1);
    let claim = base.claim_of(&base.steps[..fewer], &base.labels);
    cases.push(Case::check("fewer steps", claim));
    let steps = any_more(random, &right.steps);
    let claim = right.with_steps(steps);
    cases.push(Case::check("words behind the steps", claim));
    let labels = any_more(random, &right.labels);
    let claim = right.with_labels(labels);
    cases.push(Case::check("words behind the labels", claim));
    cases
}

/// The list cut anywhere.
fn any_cut(random: &mut Random, list: &List) -> List {
    list.cut(random.below(list.lent().len() + 1))
}

/// The list with one to six words more: whole label records without words, or less than a record.
fn any_more(random: &mut Random, list: &List) -> List {
    let more = [0, 1, 0, 0, 1, 0];
    let count = random.between(1, more.len());
    List::whole([list.lent(), &more[..count]].concat())
}

/// The steps and the labels of a short run, cut at every place.
pub fn all_cuts(random: &mut Random, base: &Base) -> Vec<Case> {
    let length = base.steps.len().min(FEW_STEPS + random.below(8));
    let steps = &base.steps[..length];
    let labels = labels_of(&base.script, &step_words(steps)).expect("legal steps");
    let right = base.claim_of(steps, &labels);
    let mut cases = Vec::new();
    for at in 0..=right.steps.lent().len() {
        let claim = right.with_steps(right.steps.cut(at));
        cases.push(Case::check("steps cut at every place", claim));
    }
    for at in 0..=right.labels.lent().len() {
        let claim = right.with_labels(right.labels.cut(at));
        cases.push(Case::check("labels cut at every place", claim));
    }
    cases
}

/// The places of the counts in a list of records.
fn count_places(words: &[u32], fields: usize) -> Vec<usize> {
    let mut places = Vec::new();
    let mut at = fields;
    while at < words.len() {
        places.push(at);
        at += words[at] as usize + 1 + fields;
    }
    places
}

/// The list with other counts in one of its records: small (0), near the rest of the list (1), great (2).
fn other_counts(random: &mut Random, list: &List, fields: usize) -> Vec<(usize, List)> {
    let words = list.lent();
    let places = count_places(words, fields);
    let Some(&last) = places.last() else {
        return Vec::new();
    };
    let place = if random.percent(15) {
        last
    } else {
        random.pick(&places)
    };
    let (old, rest) = (words[place], (words.len() - place - 1) as u32);
    let small = [0, 1, 16, 17, old.wrapping_sub(1), old + 1];
    let near = [rest.wrapping_sub(1), rest, rest + 1, rest + 5];
    let head = fields as u32 + 1;
    let start = (place - fields) as u32;
    let great = [
        u32::MAX,
        u32::MAX - 1,
        head.wrapping_neg(),
        (head - 1).wrapping_neg(),
    ];
    let wrapped = [
        (place as u32 + 1).wrapping_neg(),
        (start + head).wrapping_neg().wrapping_add(start),
        1 << 31,
    ];
    let sorts = [(0, &small[..]), (1, &near), (2, &great), (2, &wrapped)];
    let with = |count: u32| {
        let mut words = words.to_vec();
        words[place] = count;
        List::whole(words)
    };
    sorts
        .iter()
        .flat_map(|(sort, counts)| counts.iter().map(|&count| (*sort, with(count))))
        .collect()
}

/// Words that records often have.
const LIKELY: [u32; 12] = [0, 0, 0, 1, 1, 1, 2, 5, 7, 20, 4_000_002, u32::MAX];

/// Lists of any words.
fn any_words(random: &mut Random, base: &Base) -> Vec<Case> {
    let right = base.claim();
    let mut cases = Vec::new();
    for likely in [true, false] {
        let mut word = || match likely {
            true => random.pick(&LIKELY),
            false => random.bits() as u32,
        };
        let few: Vec<u32> = (0..9).map(|_| word()).collect();
        let some: Vec<u32> = (0..33).map(|_| word()).collect();
        let steps = right.with_steps(List::whole(some.clone()));
        cases.push(Case::check("steps are any words", steps));
        let labels = right.with_labels(List::whole(few.clone()));
        cases.push(Case::check("labels are any words", labels));
        let both = base.claim_of_words(few, some);
        cases.push(Case::check("all are any words", both));
    }
    cases
}
