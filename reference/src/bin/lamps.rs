//! Prints the lamp table, all 256 entries, one decimal number a line.

use reference::lamps;
use std::io::{self, Write};

fn main() -> io::Result<()> {
    let lines: String = lamps::table().map(|entry| format!("{entry}\n")).concat();
    io::stdout().lock().write_all(lines.as_bytes())
}
