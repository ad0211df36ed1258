//! Prints the listing of the day file on standard input.

use reference::listing::listing;
use reference::program;
use std::io;

fn main() -> io::Result<()> {
    program::run(listing)
}
