//! Reads an input from standard input and writes its output.

use reference::lines::BYTE_LIMIT;
use std::io::{self, Read, Write};

fn main() -> io::Result<()> {
    let mut input = Vec::new();
    let one_more = BYTE_LIMIT as u64 + 1;
    io::stdin().lock().take(one_more).read_to_end(&mut input)?;
    io::stdout().write_all(reference::run(&input).as_bytes())
}
