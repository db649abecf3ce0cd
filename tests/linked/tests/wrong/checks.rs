//! Wrong checks of a maker's trace.

use super::Check;
use linked::bench::{told_verdict, Tables};
use reference::claims::{check, Verdict};
use reference::steps::{Label, Step};
use reference::tables::{load, LoadRefusal, Table};
use reference::words::{self, BrokenOff, Record};

type Steps = Vec<Result<Step, BrokenOff>>;
type Labels = Vec<Result<Record, BrokenOff>>;

/// The check as it is put together here, without an error.
pub const RIGHT: Check = |tables, steps, labels, place| {
    let verdict = judge(tables, words::steps(steps), words::labels(labels));
    told_verdict(verdict, place)
};

/// The right verdict.
fn right(tables: Tables, steps: &[u32], labels: &[u32]) -> Verdict {
    check(tables.wrapper, tables.parts(), steps, labels)
}

/// The visible labels up to the first step at fault, and its index.
fn seen(tables: Tables, steps: &Steps) -> Result<(Vec<Record>, Option<usize>), LoadRefusal> {
    let mut state = load(tables.wrapper, tables.parts())?;
    let mut labels = Vec::new();
    for (index, step) in steps.iter().enumerate() {
        let answer = step.as_ref().map(|step| state.step(step));
        match answer.map(|answer| (answer.side, answer.outcome)) {
            Ok((side, Ok(label))) => labels.extend(words::label_record(side, &label)),
            _ => return Ok((labels, Some(index))),
        }
    }
    Ok((labels, None))
}

/// The first index where claim and run part.
fn parting(seen: &[Record], claimed: &Labels) -> Option<usize> {
    let claimed: Vec<Option<&Record>> = claimed.iter().map(|label| label.as_ref().ok()).collect();
    let seen: Vec<Option<&Record>> = seen.iter().map(Some).collect();
    let most = seen.len().max(claimed.len());
    (0..most).find(|&index| seen.get(index) != claimed.get(index))
}

/// The verdict on the labels.
fn by_labels(seen: &[Record], claimed: &Labels) -> Verdict {
    parting(seen, claimed).map_or(Verdict::Accepted, Verdict::Label)
}

/// Load, then steps, then labels.
fn judge(tables: Tables, steps: Steps, labels: Labels) -> Verdict {
    judge_labels(tables, steps, labels, |_| {})
}

/// As `judge`, with something done to all labels, seen and claimed, before they are compared.
fn judge_labels(
    tables: Tables,
    steps: Steps,
    mut labels: Labels,
    change: fn(&mut Record),
) -> Verdict {
    match seen(tables, &steps) {
        Err(refusal) => Verdict::Unloaded(refusal),
        Ok((_, Some(index))) => Verdict::Step(index),
        Ok((mut seen, None)) => {
            seen.iter_mut().for_each(change);
            labels.iter_mut().flatten().for_each(change);
            by_labels(&seen, &labels)
        }
    }
}

/// A wrong check from a function of tables, steps and labels.
macro_rules! wrong {
    ($name:literal, $verdict:expr) => {
        ($name, |tables, steps, labels, place| {
            let verdict: fn(Tables, &[u32], &[u32]) -> Verdict = $verdict;
            told_verdict(verdict(tables, steps, labels), place)
        })
    };
}

/// A wrong check in which labels are compared after a change.
macro_rules! alike {
    ($name:literal, $change:expr) => {
        wrong!($name, |t, s, l| judge_labels(
            t,
            words::steps(s),
            words::labels(l),
            $change
        ))
    };
}

pub const WRONG: [(&str, Check); 33] = [
    wrong!("21 before 20", labels_first),
    wrong!("20 one too far", |t, s, l| match right(t, s, l) {
        Verdict::Step(index) => Verdict::Step(index + 1),
        verdict => verdict,
    }),
    wrong!("21 one too far", |t, s, l| match right(t, s, l) {
        Verdict::Label(index) => Verdict::Label(index + 1),
        verdict => verdict,
    }),
    wrong!("21 at the index of the step", label_at_step),
    wrong!("labels over let pass", |t, s, l| {
        let mut labels = words::labels(l);
        labels.truncate(seen(t, &words::steps(s)).map_or(0, |(seen, _)| seen.len()));
        judge(t, words::steps(s), labels)
    }),
    wrong!("labels missing let pass", labels_missing),
    wrong!(
        "only the number of labels compared",
        |t, s, l| match right(t, s, l) {
            Verdict::Label(_) => by_number(t, s, l),
            verdict => verdict,
        }
    ),
    wrong!(
        "only the first label compared",
        |t, s, l| match right(t, s, l) {
            Verdict::Label(index) if index > 0 => Verdict::Accepted,
            verdict => verdict,
        }
    ),
    alike!("only the first word compared", |label| label
        .value
        .truncate(1)),
    alike!("the last word not compared", |label| label
        .value
        .truncate(label.value.len().max(1) - 1)),
    alike!("the 16th word not compared", |label| label
        .value
        .truncate(15)),
    alike!("only the length of the value compared", |label| label
        .value
        .fill(0)),
    alike!("the side not compared", |label| label.side = 1),
    alike!("the channel not compared", |label| label.channel = 0),
    alike!("log and out not told apart", |label| label.channel =
        label.channel.min(1)),
    alike!("the side compared by its last bit", |label| label.side &= 1),
    alike!("the order of words not compared", |label| label
        .value
        .sort_unstable()),
    wrong!(
        "the order of labels not compared",
        |t, s, l| match right(t, s, l) {
            Verdict::Label(_) if same_in_any_order(t, s, l) => Verdict::Accepted,
            verdict => verdict,
        }
    ),
    wrong!(
        "log is no visible label",
        |t, s, l| match seen(t, &words::steps(s)) {
            Ok((mut seen, None)) => {
                seen.retain(|label| label.channel != 3);
                by_labels(&seen, &words::labels(l))
            }
            _ => right(t, s, l),
        }
    ),
    wrong!("a label that breaks off let pass", |t, s, l| {
        let whole = words::labels(l).into_iter().filter(Result::is_ok);
        judge(t, words::steps(s), whole.collect())
    }),
    wrong!("a step that breaks off let pass", |t, s, l| judge(
        t,
        whole_steps(s),
        words::labels(l)
    )),
    wrong!(
        "breaking off before a refused step",
        |t, s, l| match right(t, s, l) {
            Verdict::Step(index) => Verdict::Step(broken_step(s).unwrap_or(index)),
            verdict => verdict,
        }
    ),
    wrong!("refused steps passed over", |t, s, l| judge(
        t,
        without_refused(t, s),
        words::labels(l)
    )),
    wrong!("value words of kinds 2 to 8 overlooked", |t, s, l| {
        let mut steps = words::steps(s);
        let plain = steps.iter_mut().flatten().filter(|step| step.kind != 1);
        plain.for_each(|step| step.value.clear());
        judge(t, steps, words::labels(l))
    }),
    wrong!("counts wrap", |t, s, l| judge(
        t,
        wrapped_steps(s),
        words::labels(l)
    )),
    wrong!("a step that breaks off before load", |t, s, l| {
        broken_step(s).map_or_else(|| right(t, s, l), Verdict::Step)
    }),
    wrong!("load's refusals all 1", |t, s, l| match right(t, s, l) {
        Verdict::Unloaded(refusal) => Verdict::Unloaded(LoadRefusal {
            number: 1,
            ..refusal
        }),
        verdict => verdict,
    }),
    wrong!("load's node not told", |t, s, l| match right(t, s, l) {
        Verdict::Unloaded(refusal) => Verdict::Unloaded(LoadRefusal { node: 0, ..refusal }),
        verdict => verdict,
    }),
    wrong!("a missing length is the rest", |t, s, l| {
        let lengths = [t.lengths, &[u32::MAX; 4]].concat();
        right(
            Tables {
                lengths: &lengths,
                ..t
            },
            s,
            l,
        )
    }),
    wrong!("a part that is cut is empty", |t, s, l| check(
        t.wrapper,
        uncut(t),
        s,
        l
    )),
    wrong!("lengths added up in 32 bits", |t, s, l| check(
        t.wrapper,
        added(t),
        s,
        l
    )),
    wrong!("words over are refused", |t, s, l| {
        let lengths: usize = t.lengths.iter().map(|&length| length as usize).sum();
        let wrapper = if lengths < t.words.len() {
            0
        } else {
            t.wrapper
        };
        right(Tables { wrapper, ..t }, s, l)
    }),
    wrong!("steps after the 1,024th not looked at", |t, s, l| {
        let mut steps = words::steps(s);
        steps.truncate(1_024);
        judge(t, steps, words::labels(l))
    }),
];

fn labels_first(tables: Tables, steps: &[u32], labels: &[u32]) -> Verdict {
    if let Ok((seen, _)) = seen(tables, &words::steps(steps)) {
        if let Some(index) = parting(&seen, &words::labels(labels)) {
            return Verdict::Label(index);
        }
    }
    right(tables, steps, labels)
}

/// 21 with the index of the step whose label is another.
fn label_at_step(tables: Tables, steps: &[u32], labels: &[u32]) -> Verdict {
    let verdict = right(tables, steps, labels);
    let (Verdict::Label(index), Ok(mut state)) = (verdict, load(tables.wrapper, tables.parts()))
    else {
        return verdict;
    };
    let steps = words::steps(steps).into_iter().flatten().enumerate();
    let visible = steps.filter(|(_, step)| !matches!(state.step(step).outcome, Ok(Label::Silent)));
    let place = visible.map(|(place, _)| place).nth(index);
    Verdict::Label(place.unwrap_or(index))
}

fn labels_missing(tables: Tables, steps: &[u32], labels: &[u32]) -> Verdict {
    match right(tables, steps, labels) {
        Verdict::Label(index) if words::labels(labels).len() == index => Verdict::Accepted,
        verdict => verdict,
    }
}

fn by_number(tables: Tables, steps: &[u32], labels: &[u32]) -> Verdict {
    let seen = seen(tables, &words::steps(steps)).map_or(0, |(seen, _)| seen.len());
    let claimed = words::labels(labels).len();
    if seen == claimed {
        Verdict::Accepted
    } else {
        Verdict::Label(seen.min(claimed))
    }
}

fn same_in_any_order(tables: Tables, steps: &[u32], labels: &[u32]) -> bool {
    let key = |label: &Record| (label.channel, label.side, label.value.clone());
    let claimed: Result<Vec<Record>, BrokenOff> = words::labels(labels).into_iter().collect();
    let (Ok((mut seen, None)), Ok(mut claimed)) = (seen(tables, &words::steps(steps)), claimed)
    else {
        return false;
    };
    seen.sort_by_key(key);
    claimed.sort_by_key(key);
    seen == claimed
}

fn whole_steps(steps: &[u32]) -> Steps {
    words::steps(steps)
        .into_iter()
        .filter(Result::is_ok)
        .collect()
}

/// The index of the step record that breaks off.
fn broken_step(steps: &[u32]) -> Option<usize> {
    words::steps(steps).iter().position(Result::is_err)
}

fn without_refused(tables: Tables, steps: &[u32]) -> Steps {
    let mut steps = words::steps(steps);
    if let Ok(mut state) = load(tables.wrapper, tables.parts()) {
        steps.retain(|step| {
            step.as_ref()
                .map_or(true, |step| state.step(step).outcome.is_ok())
        });
    }
    steps
}

/// Step records whose length is a sum in 32 bits.
fn wrapped_steps(words: &[u32]) -> Steps {
    let mut steps = Vec::new();
    let mut rest = words;
    while let [kind, side, i, j, count, ..] = *rest {
        let length = count.wrapping_add(5) as usize;
        if length > rest.len() {
            break;
        }
        let end = length.max(5);
        let value = rest[5..end].to_vec();
        steps.push(Ok(Step {
            kind,
            side,
            i,
            j,
            value,
        }));
        rest = &rest[end..];
    }
    if !rest.is_empty() {
        steps.push(Err(BrokenOff));
    }
    steps
}

/// Tables in which a part that goes past the end is empty.
fn uncut<'w>(tables: Tables<'w>) -> [Table<'w>; 2] {
    let mut start = 0;
    let mut lengths = tables.lengths.iter();
    let mut part = || {
        let length = lengths.next().map_or(0, |&length| length as usize);
        let part = tables.words.get(start..start + length).unwrap_or(&[]);
        start += part.len();
        part
    };
    [(); 2].map(|()| Table {
        nodes: part(),
        pool: part(),
    })
}

/// Tables whose parts start where a sum in 32 bits says.
fn added<'w>(tables: Tables<'w>) -> [Table<'w>; 2] {
    let mut start = 0_u32;
    let mut lengths = tables.lengths.iter();
    let mut part = || {
        let length = lengths.next().map_or(0, |&length| length);
        let behind = tables.words.get(start as usize..).unwrap_or(&[]);
        start = start.wrapping_add(length);
        &behind[..behind.len().min(length as usize)]
    };
    [(); 2].map(|()| Table {
        nodes: part(),
        pool: part(),
    })
}
