//! Inputs as text: generated and damaged ones, with more and less room for the output.

use super::Case;
use crate::call::Call;
use reference::generator::damage::{change_byte, cut, damage_text};
use reference::generator::generate;
use reference::random::Random;

/// Bytes that are enough for any output.
const ENOUGH: usize = 206_848;

pub fn cases(random: &mut Random, seed: u64) -> Vec<Case> {
    let input = generate(seed);
    let mut cases = with_rooms(random, "input", &input);
    for _ in 0..2 {
        let damaged = damage_text(random, input.clone());
        cases.extend(with_rooms(random, "damaged input", &damaged));
    }
    let changed = change_byte(random, input.clone());
    cases.extend(with_rooms(random, "input with a byte changed", &changed));
    let cut = cut(random, input);
    cases.extend(with_rooms(random, "input cut", &cut));
    cases.push(text("input with all the room", &generate(seed + 1), ENOUGH));
    cases
}

fn text(sort: &'static str, input: &[u8], room: usize) -> Case {
    let call = Call::Text(input.to_vec(), room);
    Case { sort, call }
}

/// An input with exactly enough bytes, with one too few, with more and with some other number.
fn with_rooms(random: &mut Random, sort: &'static str, input: &[u8]) -> Vec<Case> {
    let exact = reference::run(input).len();
    let more = exact + random.pick(&[1, 2, 7, 8, 100]);
    let rooms = [exact, exact - 1, more, random.below(more)];
    rooms.iter().map(|&room| text(sort, input, room)).collect()
}
