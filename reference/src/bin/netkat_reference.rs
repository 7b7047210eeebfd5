//! Reads the program's input and writes its output.

use std::io::{self, Read, Write};

use netkat_reference::program;

fn main() -> io::Result<()> {
    let mut input = Vec::new();
    // One byte over the bound is enough to refuse.
    let most = program::MOST_INPUT as u64 + 1;
    io::stdin().lock().take(most).read_to_end(&mut input)?;
    io::stdout().lock().write_all(&program::run(&input))
}
