//! The files of `crates/days` are those that this implementation makes now.

use reference::stored;
use std::collections::BTreeMap;
use std::fs;
use std::path::PathBuf;

fn crate_days() -> PathBuf {
    PathBuf::from(concat!(env!("CARGO_MANIFEST_DIR"), "/../crates/days"))
}

fn stored_files() -> BTreeMap<String, Vec<u8>> {
    fs::read_dir(crate_days().join("data"))
        .unwrap()
        .map(|entry| entry.unwrap())
        .map(|entry| {
            let name = entry.file_name().into_string().unwrap();
            (name, fs::read(entry.path()).unwrap())
        })
        .collect()
}

#[test]
fn data_is_what_make_days_writes() {
    let made: BTreeMap<String, Vec<u8>> =
        stored::days().iter().flat_map(|day| day.files()).collect();
    let stored = stored_files();
    let made_names: Vec<&String> = made.keys().collect();
    let stored_names: Vec<&String> = stored.keys().collect();
    assert_eq!(made_names, stored_names);
    for (name, bytes) in &made {
        assert!(stored[name] == *bytes, "{name} differs");
    }
}

#[test]
fn args_and_stdout_follow() {
    let days = stored::days();
    let names: String = days.iter().map(|day| format!("{}\n", day.name)).collect();
    let count = format!("{} days, 0 differ\n", days.len());
    let kept = |file: &str| fs::read_to_string(crate_days().join(file)).unwrap();
    assert_eq!(kept("args"), names);
    assert_eq!(kept("stdout"), count);
}
