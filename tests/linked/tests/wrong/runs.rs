//! Wrong runs by words.

use super::Run;
use linked::bench::{told_run, Bench, Separate, Tables};
use reference::tables::load;
use reference::words::{self, run_words, NoRun, ANSWER_WORDS};

/// The right run, then something done to what it wrote.
macro_rules! changed {
    ($name:literal, $change:expr) => {
        ($name, |tables, steps, out, numbers| {
            let change: fn(usize, &mut [u32], &mut [usize; 3]) -> usize = $change;
            let result = Separate.run(tables, steps, out, numbers);
            change(result, out, numbers)
        })
    };
}

pub const WRONG: [(&str, Run); 18] = [
    changed!("the rest of out cleared", |result, out, numbers| {
        if result == 0 {
            out[numbers[0] * ANSWER_WORDS..].fill(0);
        }
        result
    }),
    changed!(
        "the word behind the answers cleared",
        |result, out, numbers| {
            if let (0, Some(word)) = (result, out.get_mut(numbers[0] * ANSWER_WORDS)) {
                *word = 0;
            }
            result
        }
    ),
    changed!("the last answer not written", |result, out, numbers| {
        if result == 0 && numbers[0] > 0 {
            out[(numbers[0] - 1) * ANSWER_WORDS..][..ANSWER_WORDS].fill(7);
        }
        result
    }),
    changed!("log told as out", |result, out, numbers| {
        answers(result, out, numbers)
            .filter(|answer| answer[0] == 4)
            .for_each(|answer| answer[0] = 2);
        result
    }),
    changed!("refusals all 10", |result, out, numbers| {
        answers(result, out, numbers)
            .filter(|answer| answer[0] == 3)
            .for_each(|answer| answer[1] = 10);
        result
    }),
    changed!("the side of a refusal 0", |result, out, numbers| {
        answers(result, out, numbers)
            .filter(|answer| answer[0] == 3)
            .for_each(|answer| answer[2] = 0);
        result
    }),
    changed!("the side of a silent step 0", |result, out, numbers| {
        answers(result, out, numbers)
            .filter(|answer| answer[0] == 0)
            .for_each(|answer| answer[2] = 0);
        result
    }),
    changed!("the 16th word of a value lost", |result, out, numbers| {
        answers(result, out, numbers).for_each(|answer| answer[ANSWER_WORDS - 1] = 0);
        result
    }),
    changed!("side and node exchanged", |result, _, numbers| {
        if result == 1 {
            numbers.swap(1, 2);
        }
        result
    }),
    changed!(
        "number of words in place of answers",
        |result, _, numbers| {
            numbers[0] *= if result == 0 { ANSWER_WORDS } else { 1 };
            result
        }
    ),
    (
        "numbers not written if there is no run",
        |tables, steps, out, numbers| {
            let mut told = [0; 3];
            let result = Separate.run(tables, steps, out, &mut told);
            if result < 2 {
                *numbers = told;
            }
            result
        },
    ),
    (
        "words past the value not written",
        |tables, steps, out, numbers| {
            let before = out.to_vec();
            let result = Separate.run(tables, steps, out, numbers);
            for (answer, before) in answers(result, out, numbers).zip(before.chunks(ANSWER_WORDS)) {
                let length = 4 + answer[3] as usize;
                answer[length..].copy_from_slice(&before[length..]);
            }
            result
        },
    ),
    ("a word too few is enough", |tables, steps, out, numbers| {
        let mut longer = [&out[..], &[0]].concat();
        let result = Separate.run(tables, steps, &mut longer, numbers);
        out.copy_from_slice(&longer[..out.len()]);
        result
    }),
    (
        "what fits is written where the list is too short",
        |tables, steps, out, numbers| {
            let mut longer = [&out[..], &vec![0; steps.len() * ANSWER_WORDS]].concat();
            let _ = run_words(tables.wrapper, tables.parts(), steps, &mut longer);
            let result = Separate.run(tables, steps, out, numbers);
            out.copy_from_slice(&longer[..out.len()]);
            result
        },
    ),
    (
        "too short before broken off",
        |tables, steps, out, numbers| {
            if out.len() / ANSWER_WORDS < words::steps(steps).len() {
                return told_run(Err(NoRun::TooShort), numbers);
            }
            Separate.run(tables, steps, out, numbers)
        },
    ),
    (
        "load before the other faults",
        |tables, steps, out, numbers| match load(tables.wrapper, tables.parts()) {
            Err(refusal) => told_run(Err(NoRun::Unloaded(refusal)), numbers),
            Ok(_) => Separate.run(tables, steps, out, numbers),
        },
    ),
    (
        "steps before one that breaks off run",
        |tables, steps, out, numbers| Separate.run(tables, &whole(steps), out, numbers),
    ),
    ("a run ends at a refusal", ends_at_refusal),
];

/// The answers of a run that was done.
fn answers<'w>(
    result: usize,
    out: &'w mut [u32],
    numbers: &[usize; 3],
) -> std::slice::ChunksMut<'w, u32> {
    let count = if result == 0 { numbers[0] } else { 0 };
    out[..count * ANSWER_WORDS].chunks_mut(ANSWER_WORDS)
}

/// The words of the step records that are whole.
pub fn whole(steps: &[u32]) -> Vec<u32> {
    let steps: Vec<_> = words::steps(steps).into_iter().flatten().collect();
    words::step_words(&steps)
}

fn ends_at_refusal(
    tables: Tables,
    steps: &[u32],
    out: &mut [u32],
    numbers: &mut [usize; 3],
) -> usize {
    let before = out.to_vec();
    let result = Separate.run(tables, steps, out, numbers);
    let refused = answers(result, out, numbers).position(|answer| answer[0] == 3);
    if let Some(place) = refused {
        numbers[0] = place + 1;
        let end = numbers[0] * ANSWER_WORDS;
        out[end..].copy_from_slice(&before[end..]);
    }
    result
}
