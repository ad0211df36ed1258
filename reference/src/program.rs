//! What the programs `bench` and `panel` do with standard input.

use crate::dayfile::GREATEST_LENGTH;
use std::io::{self, Read, Write};

/// Prints what is made of the day file on standard input.
pub fn run(text_of: fn(&[u8]) -> Vec<u8>) -> io::Result<()> {
    // One byte past the greatest length is enough to know that a file is too long.
    let mut file = Vec::with_capacity(GREATEST_LENGTH + 1);
    io::stdin()
        .lock()
        .take(GREATEST_LENGTH as u64 + 1)
        .read_to_end(&mut file)?;
    io::stdout().lock().write_all(&text_of(&file))
}
