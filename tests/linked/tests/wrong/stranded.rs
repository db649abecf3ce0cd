//! Wrong questions for stranded positions.

use super::runs::whole;
use super::Stranded;
use linked::bench::{told_stranded, Bench, Separate, Tables};
use reference::state::{Message, Stage, State, LOBBY_LIMIT};
use reference::steps::Step;
use reference::tables::load;
use reference::terms::{Name, IN, MID, OUT};
use reference::words::{self, NoList};

/// The question as it is put together here, without an error.
pub const RIGHT: Stranded = |tables, steps, side, out, numbers| {
    let found = find(tables, steps, out, make_all, |state| state.stranded(side));
    told_stranded(found, numbers)
};

/// Makes steps from a state on.
type Make = fn(&mut State, Vec<Step>);

fn make_all(state: &mut State, steps: Vec<Step>) {
    for step in steps {
        state.step(&step);
    }
}

/// Load, then the steps, then the positions that are found after they are made.
fn find(
    tables: Tables,
    steps: &[u32],
    out: &mut [u32],
    make: Make,
    positions: impl Fn(&State) -> Vec<usize>,
) -> Result<usize, NoList> {
    let mut state = load(tables.wrapper, tables.parts()).map_err(NoList::Unloaded)?;
    let steps: Result<Vec<Step>, _> = words::steps(steps).into_iter().collect();
    make(&mut state, steps.map_err(|_| NoList::BrokenOff)?);
    let positions = positions(&state);
    if out.len() < positions.len() {
        return Err(NoList::TooShort);
    }
    for (word, position) in out.iter_mut().zip(&positions) {
        *word = *position as u32;
    }
    Ok(positions.len())
}

/// Other positions, found in the state after all steps.
macro_rules! positions {
    ($name:literal, $positions:expr) => {
        ($name, |tables, steps, side, out, numbers| {
            let positions: fn(&State, u32) -> Vec<usize> = $positions;
            let found = find(tables, steps, out, make_all, |state| positions(state, side));
            told_stranded(found, numbers)
        })
    };
}

/// The positions of messages for which something else holds.
macro_rules! counted {
    ($name:literal, $counts:expr) => {
        positions!($name, |state, side| {
            let counts: fn(&Message) -> bool = $counts;
            positions_of(state, side, counts)
        })
    };
}

/// The steps made in another way.
macro_rules! made {
    ($name:literal, $make:expr) => {
        ($name, |tables, steps, side, out, numbers| {
            let found = find(tables, steps, out, $make, |state| state.stranded(side));
            told_stranded(found, numbers)
        })
    };
}

/// The right question, then something done to what it wrote.
macro_rules! changed {
    ($name:literal, $change:expr) => {
        ($name, |tables, steps, side, out, numbers| {
            let change: fn(usize, &mut [u32], &mut [usize; 3]) -> usize = $change;
            let result = Separate.stranded_after(tables, steps, side, out, numbers);
            change(result, out, numbers)
        })
    };
}

pub const WRONG: [(&str, Stranded); 41] = [
    positions!("largest first", |state, side| {
        let positions = state.stranded(side);
        positions.into_iter().rev().collect()
    }),
    positions!("the last left out", |state, side| {
        let mut positions = state.stranded(side);
        positions.pop();
        positions
    }),
    positions!("the first left out", |state, side| {
        state.stranded(side).into_iter().skip(1).collect()
    }),
    positions!("only the first", |state, side| {
        state.stranded(side).into_iter().take(1).collect()
    }),
    positions!("only the last", |state, side| {
        state.stranded(side).pop().into_iter().collect()
    }),
    positions!("none stranded", |_, _| Vec::new()),
    positions!("positions from 1", |state, side| {
        let positions = state.stranded(side);
        positions.iter().map(|position| position + 1).collect()
    }),
    positions!("positions among the arrived", |state, side| {
        let arrived = positions_of(state, side, arrived);
        let stranded = state.stranded(side);
        let place = |position: &usize| arrived.iter().position(|other| other == position);
        stranded.iter().filter_map(place).collect()
    }),
    positions!("position 15 not looked at", |state, side| {
        let mut positions = state.stranded(side);
        positions.retain(|&position| position + 1 < LOBBY_LIMIT);
        positions
    }),
    positions!("the last told twice", |state, side| {
        let mut positions = state.stranded(side);
        positions.extend(positions.last().copied());
        positions
    }),
    counted!("messages on `out` counted", arrived),
    counted!("down ones counted", |message| message.is_stranded()
        || matches!(message.stage, Stage::Down(_))),
    counted!("down ones on `mid` counted", |message| message
        .is_stranded()
        || message.stage == Stage::Down(MID)),
    counted!("leaving ones counted", |message| message.is_stranded()
        || matches!(message.stage, Stage::Leaving(_))),
    counted!("leaving copies counted", |message| message.is_stranded()
        || matches!(message.stage, Stage::Leaving(channel) if channel != OUT)),
    counted!("only those on `mid`", |message| message.stage
        == Stage::Arrived(MID)),
    counted!("those on `mid` not counted", |message| message
        .is_stranded()
        && message.stage != Stage::Arrived(MID)),
    counted!("those on `in` not counted", |message| message.is_stranded()
        && message.stage != Stage::Arrived(IN)),
    counted!("those on minted channels not counted", |message| message
        .is_stranded()
        && !matches!(message.stage, Stage::Arrived(Name::Minted { .. }))),
    positions!("the side ignored", |state, _| state.stranded(1)),
    positions!("side 0 taken for side 1", |state, side| state
        .stranded(side.max(1))),
    positions!("the side by its last bit", |state, side| state
        .stranded(2 - side % 2)),
    positions!("sides over 2 taken for the last", |state, side| state
        .stranded(side.min(state.sides.len() as u32))),
    made!("steps not made", |_, _| {}),
    made!("a refused step ends the run", |state, steps| {
        let _ = steps.iter().all(|step| state.step(step).outcome.is_ok());
    }),
    made!("the last step not made", |state, mut steps| {
        steps.pop();
        make_all(state, steps);
    }),
    made!("steps after the 1,024th not made", |state, mut steps| {
        steps.truncate(1_024);
        make_all(state, steps);
    }),
    (
        "a list that breaks off let pass",
        |tables, steps, side, out, numbers| {
            Separate.stranded_after(tables, &whole(steps), side, out, numbers)
        },
    ),
    (
        "breaking off behind a refused step not seen",
        |tables, steps, side, out, numbers| {
            let steps = if one_is_refused(tables, steps) {
                whole(steps)
            } else {
                steps.to_vec()
            };
            Separate.stranded_after(tables, &steps, side, out, numbers)
        },
    ),
    (
        "breaking off before load",
        |tables, steps, side, out, numbers| match words::steps(steps).last() {
            Some(Err(_)) => told_stranded(Err(NoList::BrokenOff), numbers),
            _ => Separate.stranded_after(tables, steps, side, out, numbers),
        },
    ),
    (
        "too short before breaking off",
        |tables, steps, side, out, numbers| {
            let mut tried = out.to_vec();
            match Separate.stranded_after(tables, &whole(steps), side, &mut tried, numbers) {
                22 => 22,
                _ => Separate.stranded_after(tables, steps, side, out, numbers),
            }
        },
    ),
    (
        "what fits is written where the list is too short",
        |tables, steps, side, out, numbers| {
            let mut longer = [&out[..], &[0; LOBBY_LIMIT]].concat();
            Separate.stranded_after(tables, steps, side, &mut longer, numbers);
            let result = Separate.stranded_after(tables, steps, side, out, numbers);
            out.copy_from_slice(&longer[..out.len()]);
            result
        },
    ),
    ("22 one early", |tables, steps, side, out, numbers| {
        let before = out.to_vec();
        let result = Separate.stranded_after(tables, steps, side, out, numbers);
        if result == 0 && numbers[0] > 0 && numbers[0] == out.len() {
            out.copy_from_slice(&before);
            return told_stranded(Err(NoList::TooShort), numbers);
        }
        result
    }),
    (
        "a word too few is enough",
        |tables, steps, side, out, numbers| {
            let mut longer = [&out[..], &[0]].concat();
            let result = Separate.stranded_after(tables, steps, side, &mut longer, numbers);
            out.copy_from_slice(&longer[..out.len()]);
            result
        },
    ),
    (
        "an empty list is too short",
        |tables, steps, side, out, numbers| {
            let result = Separate.stranded_after(tables, steps, side, out, numbers);
            if result == 0 && out.is_empty() {
                return told_stranded(Err(NoList::TooShort), numbers);
            }
            result
        },
    ),
    (
        "the count told where the list is too short",
        |tables, steps, side, out, numbers| {
            let result = Separate.stranded_after(tables, steps, side, out, numbers);
            if result == 22 {
                let mut longer = [0; LOBBY_LIMIT];
                Separate.stranded_after(tables, steps, side, &mut longer, numbers);
            }
            result
        },
    ),
    (
        "numbers not written if there is no list",
        |tables, steps, side, out, numbers| {
            let mut told = [0; 3];
            let result = Separate.stranded_after(tables, steps, side, out, &mut told);
            if result < 2 {
                *numbers = told;
            }
            result
        },
    ),
    changed!(
        "the word behind the positions cleared",
        |result, out, numbers| {
            if let (0, Some(word)) = (result, out.get_mut(numbers[0])) {
                *word = 0;
            }
            result
        }
    ),
    changed!("the last word of out cleared", |result, out, numbers| {
        if result == 0 && numbers[0] < out.len() {
            out[out.len() - 1] = 0;
        }
        result
    }),
    changed!("load's side and node exchanged", |result, _, numbers| {
        if result == 1 {
            numbers.swap(1, 2);
        }
        result
    }),
    changed!("load's number in place of 1", |result, _, numbers| {
        if result == 1 {
            numbers[0]
        } else {
            result
        }
    }),
];

fn arrived(message: &Message) -> bool {
    matches!(message.stage, Stage::Arrived(_))
}

/// The positions of a side's messages for which something holds.
fn positions_of(state: &State, side: u32, counts: fn(&Message) -> bool) -> Vec<usize> {
    let lobbies = state.sides.iter().filter(|part| part.number == side);
    let messages = lobbies.flat_map(|part| part.lobby.iter().enumerate());
    messages
        .filter(|(_, message)| counts(message))
        .map(|(position, _)| position)
        .collect()
}

/// True if one of the steps that are whole is refused.
fn one_is_refused(tables: Tables, steps: &[u32]) -> bool {
    let Ok(mut state) = load(tables.wrapper, tables.parts()) else {
        return false;
    };
    let mut whole = words::steps(steps).into_iter().flatten();
    whole.any(|step| state.step(&step).outcome.is_err())
}
