//! The step program: reads a record on standard input.

use std::io::{self, Read, Write};

fn main() -> io::Result<()> {
    // One byte at the limit is enough to refuse the input.
    let limit = reference::INPUT_LIMIT as u64;
    let mut input = Vec::new();
    io::stdin().lock().take(limit).read_to_end(&mut input)?;
    io::stdout().write_all(reference::step_program(&input).as_bytes())
}
