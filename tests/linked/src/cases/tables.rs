//! Claims about other tables: wrong lengths, other wrappers, damage.

use super::base::{claim_about, Base};
use super::Case;
use crate::call::{Claim, List};
use reference::generator::damage::damage_tables;
use reference::random::Random;
use reference::words::{label_words, step_words};

pub fn cases(random: &mut Random, base: &Base) -> Vec<Case> {
    let right = base.claim();
    let mut cases = Vec::new();
    for _ in 0..8 {
        let lengths = wrong_lengths(random, &right);
        cases.push(Case::check("a length wrong", right.with_lengths(lengths)));
    }
    for count in 0..4 {
        let lengths = right.lengths.cut(count);
        cases.push(Case::check("lengths missing", right.with_lengths(lengths)));
    }
    cases.extend(more_or_less(random, &right));
    for wrapper in [0, 1, 2, 3, 4, 5, u32::MAX] {
        let right = right.clone();
        cases.push(Case::check("wrapper", Claim { wrapper, ..right }));
    }
    cases.extend(damaged(random, base));
    cases.extend((0..5).map(|_| word_changed(random, &right)));
    cases
}

/// One length too long, too short, 0 or so great that a sum of lengths passes 32 bits.
fn wrong_lengths(random: &mut Random, right: &Claim) -> List {
    let mut lengths = right.lengths.lent().to_vec();
    let place = random.below(lengths.len());
    let before: u32 = lengths[..place].iter().sum();
    let old = lengths[place];
    lengths[place] = match random.below(8) {
        0 => old.wrapping_add(1),
        1 => old.wrapping_sub(1),
        2 => old + 5,
        3 => old.wrapping_sub(5),
        4 => 0,
        5 => u32::MAX,
        6 => before.wrapping_neg(),
        _ => random.below(2_000) as u32,
    };
    List::whole(lengths)
}

/// Words and lengths past side 2's, tables that are cut, and no tables.
fn more_or_less(random: &mut Random, right: &Claim) -> Vec<Case> {
    let (tables, lengths) = (&right.tables, &right.lengths);
    let word = random.pick(&[0, 1, 5, 4_000_002, u32::MAX]);
    let more = |list: &List, words: &[u32]| List::whole([list.lent(), words].concat());
    let longer = right.with_lengths(more(lengths, &[word, 5]));
    let wider = right.with_tables(more(tables, &[word; 5]));
    let both = right.with_tables(more(tables, &[0; 5]));
    let both = both.with_lengths(more(lengths, &[5, 0]));
    let mut cases = vec![
        Case::check("lengths over", longer),
        Case::check("words over", wider),
        Case::check("words and lengths over", both),
        Case::check("no words", right.with_tables(tables.cut(0))),
    ];
    let count = tables.lent().len();
    for at in [
        random.below(count),
        random.below(count),
        random.below(count),
    ] {
        let claim = right.with_tables(tables.cut(at));
        cases.push(Case::check("tables cut", claim));
    }
    let claim = right.with_tables(tables.cut(count - 1));
    cases.push(Case::check("tables cut by a word", claim));
    cases
}

/// Damaged tables, with the right claim or with steps and labels that break off.
fn damaged(random: &mut Random, base: &Base) -> Vec<Case> {
    let words = (step_words(&base.steps), label_words(&base.labels));
    let mut cases = Vec::new();
    for place in 0..9 {
        let mut script = base.script.clone();
        damage_tables(random, &mut script);
        let mut claim = claim_about(&script, words.0.clone(), words.1.clone());
        if place % 3 == 2 {
            claim.steps = claim.steps.cut(random.below(words.0.len().max(1)));
            claim.labels = claim.labels.cut(random.below(words.1.len().max(1)));
        }
        cases.push(Case::check("tables damaged", claim));
    }
    cases
}

/// One word of the tables changed.
fn word_changed(random: &mut Random, right: &Claim) -> Case {
    let mut tables = right.tables.lent().to_vec();
    let place = random.below(tables.len());
    tables[place] = random.pick(&[0, 1, 2, 3, 5, 6, 7, 63, 64, 66, 4_000_002, u32::MAX]);
    let claim = right.with_tables(List::whole(tables));
    Case::check("a table word changed", claim)
}
