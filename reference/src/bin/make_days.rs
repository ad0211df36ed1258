//! Writes the stored days into the folder given, three files each, and their names, one a
//! line, to standard output.

use reference::stored;
use std::path::PathBuf;
use std::{env, fs, io};

fn main() -> io::Result<()> {
    let folder = env::args_os().nth(1).map(PathBuf::from);
    let folder = folder.ok_or_else(|| io::Error::other("usage: make_days FOLDER"))?;
    for day in stored::days() {
        for (name, bytes) in day.files() {
            fs::write(folder.join(name), bytes)?;
        }
        println!("{}", day.name);
    }
    Ok(())
}
