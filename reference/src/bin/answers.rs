//! Reads a rulebook and requests from standard input and prints the answers.

use reference::answers::{answers, INPUT_BYTES};
use std::io::{self, Read, Write};

fn main() -> io::Result<()> {
    let mut input = Vec::new();
    // One byte more than allowed is enough to know that it is too long.
    io::stdin()
        .take(INPUT_BYTES as u64 + 1)
        .read_to_end(&mut input)?;
    io::stdout().write_all(answers(&input).as_bytes())
}
