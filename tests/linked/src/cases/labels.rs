//! Claims whose steps are legal and whose labels are changed.

// All changes have one type, those too that keep the number of labels.
#![allow(clippy::ptr_arg)]

use super::base::Base;
use super::Case;
use reference::random::Random;
use reference::words::Record;

/// A change of a list of labels.
type Change = fn(&mut Random, &mut Vec<Record>);

const CHANGES: [(&str, Change); 21] = [
    ("label channel changed", channel),
    ("out and log exchanged", out_or_log),
    ("label side changed", side),
    ("label word changed", any_word),
    ("last word of a label changed", last_word),
    ("last label's last word changed", last_of_all),
    ("first word of a label changed", first_word),
    ("two words of a label exchanged", exchange_words),
    ("label a word longer", longer),
    ("label a word shorter", shorter),
    ("label without words", without_words),
    ("label dropped", drop_any),
    ("first label dropped", drop_first),
    ("last label dropped", drop_last),
    ("all labels dropped", drop_all),
    ("label doubled", double),
    ("label added", add_any),
    ("label added last", add_last),
    ("empty label added last", add_empty),
    ("two labels exchanged", exchange),
    ("two neighbours exchanged", exchange_neighbours),
];

pub fn cases(random: &mut Random, base: &Base) -> Vec<Case> {
    let mut cases = Vec::new();
    for (sort, change) in CHANGES {
        let mut labels = base.labels.clone();
        change(random, &mut labels);
        cases.push(Case::check(sort, base.claim_of(&base.steps, &labels)));
    }
    cases
}

/// One of the labels, if there is one.
fn any<'r>(random: &mut Random, labels: &'r mut [Record]) -> Option<&'r mut Record> {
    let place = random.below(labels.len().max(1));
    labels.get_mut(place)
}

/// One of the words that is not this one.
pub fn another(random: &mut Random, old: u32, words: &[u32]) -> u32 {
    let others: Vec<u32> = words.iter().copied().filter(|&word| word != old).collect();
    random.pick(&others)
}

fn channel(random: &mut Random, labels: &mut Vec<Record>) {
    if let Some(label) = any(random, labels) {
        label.channel = another(random, label.channel, &[0, 1, 2, 3, 4, u32::MAX]);
    }
}

fn out_or_log(random: &mut Random, labels: &mut Vec<Record>) {
    let visible = labels.iter_mut().filter(|label| label.channel != 0);
    let mut leaving: Vec<&mut Record> = visible.collect();
    let place = random.below(leaving.len().max(1));
    if let Some(label) = leaving.get_mut(place) {
        label.channel = if label.channel == 1 { 3 } else { 1 };
    }
}

fn side(random: &mut Random, labels: &mut Vec<Record>) {
    if let Some(label) = any(random, labels) {
        label.side = another(random, label.side, &[0, 1, 1, 2, 2, 3, u32::MAX]);
    }
}

/// Changes the word at a place of a label.
fn change_word(random: &mut Random, label: &mut Record, place: usize) {
    let old = label.value[place];
    let words = [
        old ^ 1,
        old.wrapping_add(1),
        20,
        65_536,
        4_000_002,
        u32::MAX,
    ];
    label.value[place] = another(random, old, &words);
}

fn any_word(random: &mut Random, labels: &mut Vec<Record>) {
    if let Some(label) = any(random, labels) {
        let place = random.below(label.value.len());
        change_word(random, label, place);
    }
}

fn last_word(random: &mut Random, labels: &mut Vec<Record>) {
    if let Some(label) = any(random, labels) {
        change_word(random, label, label.value.len() - 1);
    }
}

fn last_of_all(random: &mut Random, labels: &mut Vec<Record>) {
    if let Some(label) = labels.last_mut() {
        change_word(random, label, label.value.len() - 1);
    }
}

fn first_word(random: &mut Random, labels: &mut Vec<Record>) {
    if let Some(label) = any(random, labels) {
        change_word(random, label, 0);
    }
}

fn exchange_words(random: &mut Random, labels: &mut Vec<Record>) {
    let parted = labels.iter_mut().filter(|label| {
        let value = &label.value;
        value.windows(2).any(|pair| pair[0] != pair[1])
    });
    let mut parted: Vec<&mut Record> = parted.collect();
    let chosen = random.below(parted.len().max(1));
    if let Some(label) = parted.get_mut(chosen) {
        let value = &mut label.value;
        let places = (1..value.len()).filter(|&place| value[place - 1] != value[place]);
        let place = random.pick(&places.collect::<Vec<_>>());
        value.swap(place - 1, place);
    }
}

fn longer(random: &mut Random, labels: &mut Vec<Record>) {
    if let Some(label) = any(random, labels) {
        let word = random.pick(&[0, 20, 4_000_000]);
        label.value.push(word);
    }
}

fn shorter(random: &mut Random, labels: &mut Vec<Record>) {
    if let Some(label) = any(random, labels) {
        label.value.pop();
    }
}

fn without_words(random: &mut Random, labels: &mut Vec<Record>) {
    if let Some(label) = any(random, labels) {
        label.value.clear();
    }
}

fn drop_any(random: &mut Random, labels: &mut Vec<Record>) {
    if !labels.is_empty() {
        labels.remove(random.below(labels.len()));
    }
}

fn drop_first(_: &mut Random, labels: &mut Vec<Record>) {
    labels.drain(..labels.len().min(1));
}

fn drop_last(_: &mut Random, labels: &mut Vec<Record>) {
    labels.pop();
}

fn drop_all(_: &mut Random, labels: &mut Vec<Record>) {
    labels.clear();
}

fn double(random: &mut Random, labels: &mut Vec<Record>) {
    if !labels.is_empty() {
        let place = random.below(labels.len());
        labels.insert(place, labels[place].clone());
    }
}

/// A label of some run.
fn invented(random: &mut Random) -> Record {
    Record {
        channel: random.pick(&[0, 1, 3]),
        side: random.pick(&[1, 2]),
        value: vec![random.pick(&[20, 63, 4_000_000])],
    }
}

fn add_any(random: &mut Random, labels: &mut Vec<Record>) {
    let place = random.below(labels.len() + 1);
    labels.insert(place, invented(random));
}

fn add_last(random: &mut Random, labels: &mut Vec<Record>) {
    labels.push(invented(random));
}

fn add_empty(random: &mut Random, labels: &mut Vec<Record>) {
    let value = Vec::new();
    labels.push(Record {
        value,
        ..invented(random)
    });
}

fn exchange(random: &mut Random, labels: &mut Vec<Record>) {
    if !labels.is_empty() {
        let count = labels.len();
        labels.swap(random.below(count), random.below(count));
    }
}

fn exchange_neighbours(random: &mut Random, labels: &mut Vec<Record>) {
    if labels.len() > 1 {
        let place = random.below(labels.len() - 1);
        labels.swap(place, place + 1);
    }
}
