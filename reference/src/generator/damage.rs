//! Damage: tables that load must refuse (or just may not), lines and bytes
//! that break the rules of the text.

use super::sketch::{boxed, input, new, output, parallel, tuple, Sketch, PARENT};
use super::{handlers, lay_out, sides_of};
use crate::lines::{Script, BYTE_LIMIT};
use crate::random::Random;
use crate::terms::{TUPLE_WORD, WILDCARD_WORD};

/// Damages the tables of a script, a little or at a limit.
pub fn damage_tables(random: &mut Random, script: &mut Script) {
    let place = random.below(sides_of(script));
    match random.below(22) {
        0 => script.wrapper = random.pick(&[0, 5, 4, u32::MAX]),
        1 | 20 | 21 => change_sizes(random, script, place),
        2 => add_other_side(random, script),
        3 | 4 => set_field(random, script, place, |_| 0, &[7, 8, 63, u32::MAX]),
        5 | 6 => set_unused_field(random, script, place),
        7..=9 => set_child(random, script, place),
        10 | 11 => set_name(random, script, place),
        12 | 13 => damage_pool(random, script, place),
        14 => set_field(random, script, place, |_| 3, &[1_023, 1_024, u32::MAX, 3]),
        15 | 16 => deep_scopes(random, script, place),
        17 | 18 => start_limits(random, script, place),
        _ => set_field(
            random,
            script,
            place,
            |r| r.below(5),
            &[0, 1, 2, 3, 4, 5, 6],
        ),
    }
}

/// The places of the nodes whose kind is one of these.
fn nodes_of_kind(script: &Script, place: usize, kinds: &[u32]) -> Vec<usize> {
    let nodes = &script.nodes[place];
    let starts = (0..nodes.len()).step_by(5);
    starts.filter(|&at| kinds.contains(&nodes[at])).collect()
}

/// Sets some node's field to one of the values.
fn set_field(
    random: &mut Random,
    script: &mut Script,
    place: usize,
    field: impl Fn(&mut Random) -> usize,
    values: &[u32],
) {
    let count = script.nodes[place].len() / 5;
    let at = random.below(count) * 5 + field(random);
    script.nodes[place][at] = random.pick(values);
}

/// Puts something into a field that the node's kind does not use.
fn set_unused_field(random: &mut Random, script: &mut Script, place: usize) {
    let nodes = nodes_of_kind(script, place, &[0, 1, 2, 3, 4]);
    if !nodes.is_empty() {
        let at = random.pick(&nodes);
        script.nodes[place][at + 4] = random.pick(&[1, u32::MAX]);
    }
}

/// Puts a name or tag at its limit or past it.
fn set_name(random: &mut Random, script: &mut Script, place: usize) {
    let nodes = nodes_of_kind(script, place, &[2, 3, 4, 5, 6]);
    if nodes.is_empty() {
        return;
    }
    let at = random.pick(&nodes);
    let has_tag = script.nodes[place][at] >= 4;
    if has_tag && random.percent(50) {
        script.nodes[place][at + 2] = random.pick(&[65, 66, 67, u32::MAX]);
    } else {
        script.nodes[place][at + 1] = random.pick(&[63, 64, 64, 65_536, 196_608]);
    }
}

/// Makes a child field name another node, or none.
fn set_child(random: &mut Random, script: &mut Script, place: usize) {
    let nodes = nodes_of_kind(script, place, &[1, 2, 3, 5, 6]);
    let count = script.nodes[place].len() / 5;
    let Some(_) = nodes.first() else {
        return;
    };
    let at = random.pick(&nodes);
    let field = match script.nodes[place][at] {
        1 => random.between(1, 2),
        2 | 3 => 2,
        _ => 4,
    };
    let target = match random.below(5) {
        0 => count,
        1 => at / 5,
        2 => 0,
        3 => u32::MAX as usize,
        _ => random.below(count),
    };
    script.nodes[place][at + field] = target as u32;
}

/// Changes, adds or cuts pool words.
fn damage_pool(random: &mut Random, script: &mut Script, place: usize) {
    let pool = &mut script.pools[place];
    if pool.is_empty() {
        pool.push(7);
        return;
    }
    let at = random.below(pool.len());
    match random.below(6) {
        0 => pool.truncate(at),
        1 => pool[at] = random.pick(&[64, WILDCARD_WORD, 4_000_016, 65_536, 5_000_000]),
        2 => pool[at] = TUPLE_WORD + random.between(0, 15) as u32,
        3 => pool[at] = random.pick(&[10, 11, 0]),
        4 => pool[at] = random.pick(&[196_608, 196_863]),
        _ => pool[at] = TUPLE_WORD + 15,
    }
}

/// Brings the number of nodes or pool words to its limit or past it.
fn change_sizes(random: &mut Random, script: &mut Script, place: usize) {
    match random.below(5) {
        0 => script.nodes[place].clear(),
        1 => {
            let count = random.pick(&[1_023, 1_024, 1_025, 1_026]);
            script.pools[place].resize(count, 7);
        }
        2 => {
            let count = random.pick(&[256, 257, 258]);
            script.nodes[place].resize(count * 5, 0);
        }
        _ => {
            let count = random.pick(&[255, 256, 257]);
            lay_out(random, script, place, &padded(count));
        }
    }
}

/// A handler with so many nodes and little to do.
fn padded(count: usize) -> Sketch {
    let mut handler = output(1, PARENT, &[20]);
    while handler.nodes() + 2 <= count {
        handler = parallel(vec![handler, Sketch::Nil]);
    }
    if handler.nodes() < count {
        handler = boxed(7, handler);
    }
    handler
}

/// Gives a wrapper of one handler something on side 2, or the pipeline nothing
/// there.
fn add_other_side(random: &mut Random, script: &mut Script) {
    if script.wrapper == 2 {
        script.nodes[1].clear();
        script.pools[1].clear();
    } else if random.percent(50) {
        script.pools[1].push(20);
    } else {
        script.nodes[1] = vec![0; 5];
    }
}

/// A handler with eight or nine bound names in force somewhere.
fn deep_scopes(random: &mut Random, script: &mut Script, place: usize) {
    let names = random.pick(&[8, 9, 9]);
    let handler = match random.below(3) {
        0 => handlers::deep(random, 0, 1, names),
        1 => (0..names).fold(Sketch::Nil, |body, name| new(10 + name as u32 % 2, body)),
        _ => {
            let numbers: Vec<u32> = (10..10 + names as u32).collect();
            input(0, PARENT, &tuple(&numbers), output(1, PARENT, &[11]))
        }
    };
    lay_out(random, script, place, &handler);
}

/// A handler that starts with particles or boxes at the limit or past it.
fn start_limits(random: &mut Random, script: &mut Script, place: usize) {
    let (one, count) = match random.below(4) {
        0 => (output(1, PARENT, &[20]), random.pick(&[31, 32, 33])),
        1 => (input(0, PARENT, &[10], Sketch::Nil), random.pick(&[32, 33])),
        2 => (boxed(7, Sketch::Nil), random.pick(&[14, 15, 16])),
        _ => (new(9, output(1, PARENT, &[9])), random.pick(&[32, 33])),
    };
    lay_out(random, script, place, &parallel(vec![one; count]));
}

/// Damages the text: a byte, a field, a line, an order, a length.
pub fn damage_text(random: &mut Random, text: Vec<u8>) -> Vec<u8> {
    match random.below(12) {
        0 => cut(random, text),
        1 | 2 => change_byte(random, text),
        3 => change_field(random, text),
        4 => move_line(random, text),
        5 => add_line(random, text),
        6 => without_last_newline(text),
        7 => fill(text, BYTE_LIMIT),
        8 => fill(text, BYTE_LIMIT + random.between(0, 1)),
        9 => too_many_lines(random, text),
        10 => vec![],
        _ => double_byte(random, text),
    }
}

/// Cuts the text off anywhere.
pub fn cut(random: &mut Random, mut text: Vec<u8>) -> Vec<u8> {
    let length = random.below(text.len() + 1);
    text.truncate(length);
    text
}

/// Changes one byte.
pub fn change_byte(random: &mut Random, mut text: Vec<u8>) -> Vec<u8> {
    if !text.is_empty() {
        let at = random.below(text.len());
        text[at] = random.pick(b"0123456789\t\t\n\n WNVSw-+x\r\0\xff.,");
    }
    text
}

/// Doubles one byte, most often a tab or newline.
fn double_byte(random: &mut Random, mut text: Vec<u8>) -> Vec<u8> {
    if !text.is_empty() {
        let mut at = random.below(text.len());
        if random.percent(70) {
            let later = text[at..].iter().position(|byte| b"\t\n".contains(byte));
            at += later.unwrap_or(0);
        }
        text.insert(at, text[at]);
    }
    text
}

/// Replaces, adds or drops a field of some line.
fn change_field(random: &mut Random, text: Vec<u8>) -> Vec<u8> {
    let mut lines = split_lines(&text);
    if lines.is_empty() {
        return text;
    }
    let at = random.below(lines.len());
    let mut fields: Vec<String> = lines[at].split('\t').map(String::from).collect();
    let field = random.below(fields.len());
    let new = [
        "",
        "4294967295",
        "4294967296",
        "00001",
        "-1",
        "1 ",
        "0x1",
        "n",
        "W",
        "99999999999",
    ];
    match random.below(3) {
        0 => {
            fields.remove(field);
        }
        1 => fields.insert(field, random.pick(&new).to_string()),
        _ => fields[field] = random.pick(&new).to_string(),
    }
    lines[at] = fields.join("\t");
    join_lines(&lines)
}

/// Moves a line to another place.
fn move_line(random: &mut Random, text: Vec<u8>) -> Vec<u8> {
    let mut lines = split_lines(&text);
    if lines.is_empty() {
        return text;
    }
    let line = lines.remove(random.below(lines.len()));
    lines.insert(random.below(lines.len() + 1), line);
    join_lines(&lines)
}

/// Adds a line that may not stand there.
fn add_line(random: &mut Random, text: Vec<u8>) -> Vec<u8> {
    let mut lines = split_lines(&text);
    let values = "\t20".repeat(random.between(15, 19));
    let new = [
        String::new(),
        String::from("W\t1"),
        String::from("V\t1\t20"),
        String::from("N\t3\t0\t0\t0\t0\t0"),
        String::from("V\t0\t20"),
        String::from("S\t1\t1\t0"),
        format!("S\t1\t1\t0\t0{values}"),
    ];
    let at = if random.percent(25) {
        lines.len().min(1)
    } else {
        random.between(lines.len() / 2, lines.len())
    };
    lines.insert(at, new[random.below(new.len())].clone());
    join_lines(&lines)
}

/// The last line without its newline.
fn without_last_newline(mut text: Vec<u8>) -> Vec<u8> {
    text.pop();
    text
}

/// Fills the text up to so many bytes with leading zeros in the W line.
pub fn fill(mut text: Vec<u8>, length: usize) -> Vec<u8> {
    let missing = length.saturating_sub(text.len());
    let at = text.iter().position(|&byte| byte == b'\t');
    let at = at.map_or(text.len(), |tab| tab + 1);
    text.splice(at..at, std::iter::repeat_n(b'0', missing));
    text
}

/// As many lines of a letter as are allowed, or one more.
fn too_many_lines(random: &mut Random, text: Vec<u8>) -> Vec<u8> {
    let mut lines = split_lines(&text);
    let (line, start, most) = [
        ("N\t2\t0\t0\t0\t0\t0", "N\t2\t", 257),
        ("V\t1\t7", "V\t1\t", 1_025),
        ("S\t6\t1\t0\t0", "S\t", 1_024),
    ][random.below(3)];
    let most: usize = most + random.below(2);
    let count = lines.iter().filter(|old| old.starts_with(start)).count();
    let before = |old: &&String| letter_rank(old) <= letter_rank(line);
    let at = lines.iter().take_while(before).count();
    let more = vec![line.to_string(); most.saturating_sub(count)];
    lines.splice(at..at, more);
    join_lines(&lines)
}

/// The place of a line's letter in the order of the letters.
fn letter_rank(line: &str) -> Option<usize> {
    "WNVS".find(line.chars().next()?)
}

/// The lines of a text.
fn split_lines(text: &[u8]) -> Vec<String> {
    String::from_utf8_lossy(text)
        .lines()
        .map(String::from)
        .collect()
}

/// The text of these lines.
fn join_lines(lines: &[String]) -> Vec<u8> {
    lines
        .iter()
        .flat_map(|line| format!("{line}\n").into_bytes())
        .collect()
}
