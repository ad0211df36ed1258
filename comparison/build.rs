//! Links the static libraries of the proved implementation, made by `.ci/libraries`: the crates of the C interface.

use std::path::Path;
use std::{env, process};

const LIBRARIES: [&str; 8] = [
    "capi_files",
    "capi_sections",
    "capi_preview",
    "capi_listings",
    "capi_day",
    "capi_singly",
    "capi_run",
    "capi_books",
];

fn main() {
    let package = env::var("CARGO_MANIFEST_DIR").expect("cargo sets CARGO_MANIFEST_DIR");
    let folder = Path::new(&package).join("../target/staticlib");
    println!("cargo:rustc-link-search=native={}", folder.display());
    for library in LIBRARIES {
        let archive = folder.join(format!("lib{library}.a"));
        println!("cargo:rerun-if-changed={}", archive.display());
        if !archive.exists() {
            eprintln!(
                "{} is missing: `.ci/libraries` makes it",
                archive.display()
            );
            process::exit(1);
        }
        println!("cargo:rustc-link-lib=static={library}");
    }
}
