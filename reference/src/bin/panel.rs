//! Prints the panel of the day file on standard input.

use reference::listing::panel;
use reference::program;
use std::io;

fn main() -> io::Result<()> {
    program::run(panel)
}
