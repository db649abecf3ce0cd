//! A maker's claim: steps and visible labels as word lists, and the run by words.

mod common;
use common::{copier, script};
use reference::claims::{check, Verdict};
use reference::generator::generate;
use reference::generator::sketch::{output, repeat, Sketch, PARENT};
use reference::lines::{read_script, Script};
use reference::load_script;
use reference::steps::Step;
use reference::tables::LoadRefusal;
use reference::words::{label_words, lent_tables, run_words, step_words, steps, NoRun};

const ON_IN: u32 = 0;
const ON_OUT: u32 = 1;
const ON_MID: u32 = 2;

/// What comes in goes on by `mid`, or comes out from `mid`.
fn link(from: u32, to: u32) -> Sketch {
    repeat(from, PARENT, &[10], output(to, PARENT, &[10]))
}

fn judged(script: &Script, steps: &[u32], labels: &[u32]) -> Verdict {
    check(script.wrapper, script.tables(), steps, labels)
}

/// A copy of the value of an enter goes through the copier: enter, down, meet,
/// up, pass, leave.
const COPIED: [u32; 31] = [
    1, 1, 0, 0, 1, 20, 2, 1, 0, 0, 0, 5, 1, 1, 0, 0, 3, 1, 1, 0, 0, 6, 1, 0, 0, 0, 7, 1, 0, 0, 0,
];
/// The labels of those steps.
const COPIES: [u32; 10] = [0, 1, 1, 20, 1, 1, 3, 4_000_002, 20, 20];

fn copies(steps: &[u32], labels: &[u32]) -> Verdict {
    judged(&script(1, &[copier()]), steps, labels)
}

/// The copies' labels with one word changed.
fn with_word(place: usize, word: u32) -> Vec<u32> {
    let mut labels = COPIES.to_vec();
    labels[place] = word;
    labels
}

#[test]
fn a_right_claim_is_accepted() {
    assert_eq!(copies(&COPIED, &COPIES), Verdict::Accepted);
    assert_eq!(copies(&[], &[]), Verdict::Accepted);
    assert_eq!(copies(&COPIED[..6], &COPIES[..4]), Verdict::Accepted);
    assert_eq!(copies(&COPIED[..26], &COPIES[..4]), Verdict::Accepted);
}

#[test]
fn too_few_or_too_many_labels() {
    assert_eq!(copies(&COPIED, &[]), Verdict::Label(0));
    assert_eq!(copies(&COPIED, &COPIES[..4]), Verdict::Label(1));
    assert_eq!(copies(&[], &COPIES), Verdict::Label(0));
    let twice = [&COPIES[..], &COPIES[4..]].concat();
    assert_eq!(copies(&COPIED, &twice), Verdict::Label(2));
    let silent = [&COPIES[..], &[0, 1, 0]].concat();
    assert_eq!(copies(&COPIED, &silent), Verdict::Label(2));
    assert_eq!(copies(&COPIED[..26], &COPIES), Verdict::Label(1));
}

#[test]
fn another_label() {
    let swapped = [&COPIES[4..], &COPIES[..4]].concat();
    assert_eq!(copies(&COPIED, &swapped), Verdict::Label(0));
    for (place, word, index) in [
        (0, 1, 0),
        (0, 3, 0),
        (1, 2, 0),
        (1, 0, 0),
        (3, 21, 0),
        (4, 0, 1),
        (4, 2, 1),
        (4, 3, 1),
        (5, 2, 1),
        (5, u32::MAX, 1),
        (7, 4_000_003, 1),
        (8, 21, 1),
        (9, 21, 1),
    ] {
        let verdict = copies(&COPIED, &with_word(place, word));
        assert_eq!(verdict, Verdict::Label(index), "word {place} is {word}");
    }
    assert_eq!(copies(&COPIED, &[0, 1, 0]), Verdict::Label(0));
    assert_eq!(copies(&COPIED, &[0, 1, 2, 20, 20]), Verdict::Label(0));
}

#[test]
fn the_last_of_sixteen_words() {
    let mut steps = [vec![1, 1, 0, 0, 16, 4_000_015], vec![20; 15]].concat();
    let mut labels = [vec![0, 1, 16, 4_000_015], vec![20; 15]].concat();
    assert_eq!(copies(&steps, &labels), Verdict::Accepted);
    labels[18] = 21;
    assert_eq!(copies(&steps, &labels), Verdict::Label(0));
    labels.truncate(18);
    assert_eq!(copies(&steps, &labels), Verdict::Label(0));
    steps[5] = 4_000_014;
    assert_eq!(copies(&steps, &labels), Verdict::Step(0));
}

#[test]
fn a_label_that_breaks_off() {
    for end in [1, 2, 3] {
        assert_eq!(copies(&COPIED, &COPIES[..end]), Verdict::Label(0));
    }
    for end in 5..10 {
        assert_eq!(copies(&COPIED, &COPIES[..end]), Verdict::Label(1));
    }
    for end in [1, 2, 3] {
        let over = [&COPIES[..], &[0, 1, 1, 20][..end]].concat();
        assert_eq!(copies(&COPIED, &over), Verdict::Label(2));
    }
    for count in [4, 5, u32::MAX - 2, u32::MAX - 1, u32::MAX] {
        assert_eq!(copies(&COPIED, &with_word(6, count)), Verdict::Label(1));
    }
    let another = [&[1], &COPIES[1..8]].concat();
    assert_eq!(copies(&COPIED, &another), Verdict::Label(0));
}

#[test]
fn a_step_that_breaks_off() {
    let ends = [6, 11, 16, 21, 26, 31];
    for end in (1..31).filter(|end| !ends.contains(end)) {
        let whole = ends.iter().filter(|&&at| at < end).count();
        for labels in [&COPIES[..], &COPIES[..4], &[]] {
            let verdict = copies(&COPIED[..end], labels);
            assert_eq!(verdict, Verdict::Step(whole), "cut at {end}");
        }
    }
    for count in [27, u32::MAX - 5, u32::MAX - 4, u32::MAX - 3, u32::MAX] {
        let steps = [&[1, 1, 0, 0, count], &COPIED[5..]].concat();
        assert_eq!(copies(&steps, &COPIES), Verdict::Step(0), "{count}");
    }
    let over = [&COPIED[..], &[0]].concat();
    assert_eq!(copies(&over, &COPIES), Verdict::Step(6));
}

#[test]
fn a_refused_step_comes_before_a_broken_one_and_before_the_labels() {
    let refused = [&COPIED[..6], &[2, 1, 1, 0, 0], &COPIED[6..]].concat();
    assert_eq!(copies(&refused, &COPIES), Verdict::Step(1));
    assert_eq!(copies(&refused[..15], &COPIES), Verdict::Step(1));
    assert_eq!(copies(&refused[..9], &COPIES), Verdict::Step(1));
    let broken_label = [&[9], &COPIES[..1]].concat();
    assert_eq!(copies(&refused, &broken_label), Verdict::Step(1));
    assert_eq!(copies(&COPIED[..9], &broken_label), Verdict::Step(1));
    assert_eq!(copies(&COPIED[..11], &broken_label), Verdict::Label(0));
}

#[test]
fn every_refusal_of_a_step_is_20() {
    let refused = |step: &[u32]| copies(step, &[]) == Verdict::Step(0);
    assert!(refused(&[0, 1, 0, 0, 0]));
    assert!(refused(&[9, 1, 0, 0, 0]));
    assert!(refused(&[1, 2, 0, 0, 1, 20]));
    assert!(refused(&[1, 1, 1, 0, 1, 20]));
    assert!(refused(&[1, 1, 0, 0, 0]));
    assert!(refused(&[1, 1, 0, 0, 1, 65_536]));
    assert!(refused(&[3, 1, 0, 0, 0]));
    assert!(!refused(&[1, 1, 0, 0, 1, 20]));
    let long = [vec![1, 1, 0, 0, 17], vec![20; 17]].concat();
    assert!(refused(&long));
}

#[test]
fn kinds_2_to_8_have_no_value_words() {
    let down = |count: u32, value: &[u32]| {
        let steps = [&COPIED[..6], &[2, 1, 0, 0, count], value].concat();
        copies(&steps, &COPIES[..4])
    };
    assert_eq!(down(0, &[]), Verdict::Accepted);
    assert_eq!(down(1, &[20]), Verdict::Step(1));
    assert_eq!(down(5, &[3, 1, 1, 0, 0]), Verdict::Step(1));
    assert_eq!(down(17, &[20; 17]), Verdict::Step(1));
}

#[test]
fn a_count_past_the_end_does_not_wrap() {
    for count in (u32::MAX - 20..=u32::MAX).chain([6, 1 << 31]) {
        let steps = [&COPIED[..6], &[2, 1, 0, 0, count], &COPIED[11..16]].concat();
        assert_eq!(copies(&steps, &COPIES[..4]), Verdict::Step(1), "{count}");
        assert_eq!(
            copies(&steps[..11], &COPIES[..4]),
            Verdict::Step(1),
            "{count}"
        );
        let (told, _) = ran(&script(1, &[copier()]), &steps, 60);
        assert_eq!(told, Err(NoRun::BrokenOff), "{count}");
    }
}

#[test]
fn a_failed_load_keeps_its_answer() {
    let refusal = |number, side, node| Verdict::Unloaded(LoadRefusal { number, side, node });
    let mut script = script(1, &[copier()]);
    script.wrapper = 4;
    assert_eq!(judged(&script, &[9], &[9]), refusal(1, 0, 0));
    script.wrapper = 2;
    assert_eq!(judged(&script, &COPIED, &COPIES), refusal(1, 2, 0));
    script.wrapper = 1;
    script.nodes[0][5] = 7;
    assert_eq!(judged(&script, &[], &[]), refusal(2, 1, 1));
    assert_eq!(judged(&script, &[9], &[9]).number(), 2);
}

#[test]
fn log_is_a_visible_label_of_wrapper_3() {
    let script = script(3, &[copier()]);
    let enter_and_leave = [1, 1, 0, 0, 1, 20, 7, 1, 0, 0, 0];
    let claim = |labels: &[u32]| judged(&script, &enter_and_leave, labels);
    assert_eq!(claim(&[0, 1, 1, 20, 3, 1, 1, 20]), Verdict::Accepted);
    assert_eq!(claim(&[0, 1, 1, 20, 1, 1, 1, 20]), Verdict::Label(1));
    assert_eq!(claim(&[0, 1, 1, 20, 4, 1, 1, 20]), Verdict::Label(1));
    assert_eq!(claim(&[0, 1, 1, 20]), Verdict::Label(1));
    assert_eq!(claim(&[3, 1, 1, 20, 0, 1, 1, 20]), Verdict::Label(0));
}

#[test]
fn labels_of_both_sides() {
    let script = script(2, &[link(ON_IN, ON_MID), link(ON_MID, ON_OUT)]);
    let fields = [
        (2, 1, 0),
        (5, 1, 1),
        (3, 1, 1),
        (8, 2, 0),
        (2, 2, 0),
        (5, 2, 1),
        (3, 2, 1),
        (6, 2, 0),
        (7, 2, 0),
    ];
    let mut steps = vec![1, 1, 0, 0, 1, 20];
    steps.extend(
        fields
            .iter()
            .flat_map(|&(kind, side, i)| [kind, side, i, 0, 0]),
    );
    let claim = |labels: &[u32]| judged(&script, &steps, labels);
    assert_eq!(claim(&[0, 1, 1, 20, 1, 2, 1, 20]), Verdict::Accepted);
    assert_eq!(claim(&[0, 1, 1, 20, 1, 1, 1, 20]), Verdict::Label(1));
    assert_eq!(claim(&[0, 2, 1, 20, 1, 2, 1, 20]), Verdict::Label(0));
    assert_eq!(claim(&[1, 2, 1, 20, 0, 1, 1, 20]), Verdict::Label(0));
}

#[test]
fn numbers_of_the_verdicts() {
    let refusal = LoadRefusal {
        number: 7,
        side: 2,
        node: 0,
    };
    let verdicts = [Verdict::Accepted, Verdict::Unloaded(refusal)];
    assert_eq!(verdicts.map(Verdict::number), [0, 7]);
    let verdicts = [Verdict::Step(3), Verdict::Label(3)];
    assert_eq!(verdicts.map(Verdict::number), [20, 21]);
}

#[test]
fn where_lent_tables_are_cut() {
    let parts = |words: &[u32], lengths: &[u32]| {
        lent_tables(words, lengths).map(|table| [table.nodes.to_vec(), table.pool.to_vec()])
    };
    let words = [1, 2, 3, 4, 5, 6];
    let cut = |lengths: &[u32]| parts(&words, lengths).concat();
    assert_eq!(
        cut(&[1, 2, 1, 2]),
        [vec![1], vec![2, 3], vec![4], vec![5, 6]]
    );
    assert_eq!(
        cut(&[1, 2, 1, 2, 9]),
        [vec![1], vec![2, 3], vec![4], vec![5, 6]]
    );
    assert_eq!(cut(&[1, 0, 2, 1]), [vec![1], vec![], vec![2, 3], vec![4]]);
    assert_eq!(cut(&[4, 3]), [vec![1, 2, 3, 4], vec![5, 6], vec![], vec![]]);
    assert_eq!(
        cut(&[2, u32::MAX, u32::MAX, 1])[1..],
        [vec![3, 4, 5, 6], vec![], vec![]]
    );
    assert_eq!(cut(&[]), [vec![], vec![], vec![], vec![]] as [Vec<u32>; 4]);
    assert_eq!(
        parts(&[], &[1, 1, 1, 1]).concat(),
        [vec![], vec![], vec![], vec![]] as [Vec<u32>; 4]
    );
}

/// A run by words with so much room, each word 9 before it.
fn ran(script: &Script, steps: &[u32], room: usize) -> (Result<usize, NoRun>, Vec<u32>) {
    let mut out = vec![9; room];
    let told = run_words(script.wrapper, script.tables(), steps, &mut out);
    (told, out)
}

#[test]
fn answers_as_words() {
    let script = script(3, &[copier()]);
    let steps = [
        1, 1, 0, 0, 1, 20, 2, 1, 1, 0, 0, 7, 1, 0, 0, 0, 8, 5, 0, 0, 0,
    ];
    let (told, out) = ran(&script, &steps, 83);
    assert_eq!(told, Ok(4));
    let words = |front: &[u32]| [front, &vec![0; 20 - front.len()]].concat();
    assert_eq!(out[..20], words(&[1, 0, 1, 1, 20]));
    assert_eq!(out[20..40], words(&[0, 0, 1, 0]));
    assert_eq!(out[40..60], words(&[4, 0, 1, 1, 20]));
    assert_eq!(out[60..80], words(&[3, 10, 5, 0]));
    assert_eq!(out[80..], [9; 3]);
    let (told, out) = ran(&common::script(1, &[copier()]), &COPIED, 120);
    assert_eq!(told, Ok(6));
    assert_eq!(out[100..], words(&[2, 0, 1, 3, 4_000_002, 20, 20]));
}

#[test]
fn what_comes_before_the_answers() {
    let mut script = script(1, &[copier()]);
    let untouched = |(told, out): (Result<usize, NoRun>, Vec<u32>)| {
        assert!(out.iter().all(|&word| word == 9));
        told
    };
    assert_eq!(untouched(ran(&script, &COPIED, 119)), Err(NoRun::TooShort));
    assert_eq!(untouched(ran(&script, &COPIED, 0)), Err(NoRun::TooShort));
    assert_eq!(
        untouched(ran(&script, &COPIED[..30], 0)),
        Err(NoRun::BrokenOff)
    );
    let refused_and_broken = [9, 9, 9, 9, 0, 1];
    let told = ran(&script, &refused_and_broken, 120);
    assert_eq!(untouched(told), Err(NoRun::BrokenOff));
    script.wrapper = 0;
    assert_eq!(
        untouched(ran(&script, &COPIED[..30], 0)),
        Err(NoRun::BrokenOff)
    );
    assert_eq!(untouched(ran(&script, &COPIED, 119)), Err(NoRun::TooShort));
    let refusal = LoadRefusal {
        number: 1,
        side: 0,
        node: 0,
    };
    let unloaded = Err(NoRun::Unloaded(refusal));
    assert_eq!(untouched(ran(&script, &COPIED, 120)), unloaded);
    assert_eq!(untouched(ran(&script, &[], 0)), unloaded);
    script.wrapper = 1;
    assert_eq!(untouched(ran(&script, &[], 0)), Ok(0));
}

/// The steps of a script that are not refused when they run alone.
fn legal_steps(script: &Script) -> Vec<Step> {
    let mut state = load_script(script).expect("tables that load");
    let steps = script.steps.iter();
    let legal = steps.filter(|step| state.step(step).outcome.is_ok());
    legal.cloned().collect()
}

/// The labels in the answers of a run, read from the words.
fn labels_of_answers(out: &[u32]) -> Vec<u32> {
    let mut labels = Vec::new();
    for words in out.chunks(20) {
        let channel = match words[0] {
            1 => 0,
            2 => 1,
            4 => 3,
            _ => continue,
        };
        labels.extend([channel, words[2], words[3]]);
        labels.extend(&words[4..4 + words[3] as usize]);
    }
    labels
}

#[test]
fn generated_runs() {
    let mut tried = [0; 2];
    for seed in 0..300 {
        let Ok(script) = read_script(&generate(seed)) else {
            continue;
        };
        let words = step_words(&script.steps);
        let again: Vec<Step> = steps(&words).into_iter().map(Result::unwrap).collect();
        assert_eq!(again, script.steps);
        let Ok(mut state) = load_script(&script) else {
            assert!(matches!(judged(&script, &words, &[]), Verdict::Unloaded(_)));
            continue;
        };
        let refused = script
            .steps
            .iter()
            .position(|step| state.step(step).outcome.is_err());
        if let Some(index) = refused {
            assert_eq!(judged(&script, &words, &[]), Verdict::Step(index));
            tried[0] += 1;
        }
        let legal = step_words(&legal_steps(&script));
        let (told, out) = ran(&script, &legal, steps(&legal).len() * 20);
        let labels = labels_of_answers(&out);
        assert_eq!(told, Ok(steps(&legal).len()));
        assert_eq!(judged(&script, &legal, &labels), Verdict::Accepted);
        tried[1] += usize::from(!labels.is_empty());
    }
    assert!(tried.iter().all(|&count| count > 100), "{tried:?}");
}

#[test]
fn records_and_their_words() {
    let labels = reference::words::labels(&COPIES);
    let labels: Vec<_> = labels.into_iter().map(Result::unwrap).collect();
    assert_eq!(labels.len(), 2);
    assert_eq!((labels[1].channel, labels[1].side), (1, 1));
    assert_eq!(labels[1].value, [4_000_002, 20, 20]);
    assert_eq!(label_words(&labels), COPIES);
}
