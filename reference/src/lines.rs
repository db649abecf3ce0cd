//! The text of the program: reading the lines of an input and printing the
//! lines of an output.

use crate::steps::{Answer, Label, Step};
use crate::tables::{LoadRefusal, Table};
use crate::terms::Value;

/// The most bytes of an input.
pub const BYTE_LIMIT: usize = 65_536;
/// The most N lines of a side.
const NODE_LINES: usize = 257;
/// The most V lines of a side.
const POOL_LINES: usize = 1_025;
/// The most S lines.
const STEP_LINES: usize = 1_024;
/// Words of a node.
const NODE_WORDS: usize = 5;
/// The most value words of an S line.
const VALUE_WORDS: usize = 17;

/// An input whose lines are all sound.
#[derive(Clone, Debug, Default, PartialEq, Eq)]
pub struct Script {
    pub wrapper: u32,
    /// The node words of side 1 and of side 2.
    pub nodes: [Vec<u32>; 2],
    /// The pool words of side 1 and of side 2.
    pub pools: [Vec<u32>; 2],
    pub steps: Vec<Step>,
}

impl Script {
    /// The tables of side 1 and of side 2.
    pub fn tables(&self) -> [Table<'_>; 2] {
        [0, 1].map(|place| Table {
            nodes: &self.nodes[place],
            pool: &self.pools[place],
        })
    }
}

/// The number of the first line at fault; 0 for too much input.
#[derive(Clone, Copy, Debug, PartialEq, Eq)]
pub struct LineFault(pub usize);

/// Reads a whole input.
pub fn read_script(input: &[u8]) -> Result<Script, LineFault> {
    if input.len() > BYTE_LIMIT {
        return Err(LineFault(0));
    }
    if input.is_empty() {
        return Err(LineFault(1));
    }
    let mut script = Script::default();
    let mut last = None;
    for (index, line) in input.split_inclusive(|&byte| byte == b'\n').enumerate() {
        let letter = read_line(&mut script, last, line);
        last = Some(letter.ok_or(LineFault(index + 1))?);
    }
    Ok(script)
}

/// The letter a line begins with, in the order the letters come in.
#[derive(Clone, Copy, Debug, PartialEq, Eq, PartialOrd, Ord)]
enum Letter {
    W,
    N,
    V,
    S,
}

/// Reads one line, which must end with a newline, into the script. Gives its
/// letter, or none if the line is at fault.
fn read_line(script: &mut Script, last: Option<Letter>, line: &[u8]) -> Option<Letter> {
    let line = line.strip_suffix(b"\n")?;
    let mut fields = line.split(|&byte| byte == b'\t');
    let letter = read_letter(fields.next()?)?;
    let follows = match last {
        None => letter == Letter::W,
        Some(last) => letter != Letter::W && letter >= last,
    };
    if !follows {
        return None;
    }
    let numbers: Vec<u32> = fields.map(read_number).collect::<Option<_>>()?;
    match letter {
        Letter::W => read_wrapper(script, &numbers)?,
        Letter::N => read_node(script, &numbers)?,
        Letter::V => read_pool_word(script, &numbers)?,
        Letter::S => read_step(script, &numbers)?,
    }
    Some(letter)
}

fn read_letter(field: &[u8]) -> Option<Letter> {
    match field {
        b"W" => Some(Letter::W),
        b"N" => Some(Letter::N),
        b"V" => Some(Letter::V),
        b"S" => Some(Letter::S),
        _ => None,
    }
}

/// A number: one or more digits, leading zeros allowed, up to 4,294,967,295.
fn read_number(field: &[u8]) -> Option<u32> {
    if field.is_empty() {
        return None;
    }
    let mut number = 0_u32;
    for byte in field {
        let digit = byte.is_ascii_digit().then(|| u32::from(byte - b'0'))?;
        number = number.checked_mul(10)?.checked_add(digit)?;
    }
    Some(number)
}

/// The place in the script of side 1 or 2.
fn side_place(side: u32) -> Option<usize> {
    match side {
        1 => Some(0),
        2 => Some(1),
        _ => None,
    }
}

fn read_wrapper(script: &mut Script, numbers: &[u32]) -> Option<()> {
    let [wrapper] = *numbers else {
        return None;
    };
    script.wrapper = wrapper;
    Some(())
}

fn read_node(script: &mut Script, numbers: &[u32]) -> Option<()> {
    let (&side, words) = numbers.split_first()?;
    let nodes = &mut script.nodes[side_place(side)?];
    if words.len() != NODE_WORDS || nodes.len() == NODE_LINES * NODE_WORDS {
        return None;
    }
    nodes.extend_from_slice(words);
    Some(())
}

fn read_pool_word(script: &mut Script, numbers: &[u32]) -> Option<()> {
    let [side, word] = *numbers else {
        return None;
    };
    let pool = &mut script.pools[side_place(side)?];
    if pool.len() == POOL_LINES {
        return None;
    }
    pool.push(word);
    Some(())
}

fn read_step(script: &mut Script, numbers: &[u32]) -> Option<()> {
    let [kind, side, i, j, ref value @ ..] = *numbers else {
        return None;
    };
    if value.len() > VALUE_WORDS || script.steps.len() == STEP_LINES {
        return None;
    }
    script.steps.push(Step {
        kind,
        side,
        i,
        j,
        value: value.to_vec(),
    });
    Some(())
}

/// The output for a line at fault.
pub fn print_line_fault(fault: LineFault) -> String {
    format!("line\t{}\n", fault.0)
}

/// The output for tables that load refuses.
pub fn print_load_refusal(refusal: LoadRefusal) -> String {
    let LoadRefusal { number, side, node } = refusal;
    format!("refused\t{number}\t{side}\t{node}\n")
}

/// The output for a run: `ok`, then a line for each answer.
pub fn print_answers(answers: &[Answer]) -> String {
    let mut text = String::from("ok\n");
    for (index, answer) in answers.iter().enumerate() {
        text.push_str(&format!("{index}\t{}\n", print_answer(answer)));
    }
    text
}

/// One answer, without its index.
fn print_answer(answer: &Answer) -> String {
    match &answer.outcome {
        Ok(Label::In(value)) => print_label("in", answer.side, value),
        Ok(Label::Out(value)) => print_label("out", answer.side, value),
        Ok(Label::Log(value)) => print_label("log", answer.side, value),
        Ok(Label::Silent) => String::from("tau"),
        Err(refusal) => format!("no\t{}", refusal.number()),
    }
}

fn print_label(channel: &str, side: u32, value: &Value) -> String {
    let words: Vec<String> = value.words().iter().map(u32::to_string).collect();
    format!("{channel}{side}\t{}", words.join("\t"))
}

/// The text of a script, as an input.
pub fn print_script(script: &Script) -> String {
    let mut text = format!("W\t{}\n", script.wrapper);
    for (nodes, side) in script.nodes.iter().zip(1..) {
        for words in nodes.chunks(NODE_WORDS) {
            text.push_str(&format!("N\t{side}{}\n", tabbed(words)));
        }
    }
    for (pool, side) in script.pools.iter().zip(1..) {
        for word in pool {
            text.push_str(&format!("V\t{side}\t{word}\n"));
        }
    }
    for step in &script.steps {
        let fields = [step.kind, step.side, step.i, step.j];
        let (fields, value) = (tabbed(&fields), tabbed(&step.value));
        text.push_str(&format!("S{fields}{value}\n"));
    }
    text
}

/// Words with a tab before each.
fn tabbed(words: &[u32]) -> String {
    words.iter().map(|word| format!("\t{word}")).collect()
}
