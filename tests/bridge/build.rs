//! Reads `tests/exports`: links its archives where the processor can, and switches on its subjects (cfg `exported`).

use std::path::PathBuf;
use std::{env, fs};

const SUBJECTS: [&str; 12] = [
    "whole",
    "circle",
    "turning",
    "reading",
    "dates",
    "earth",
    "place",
    "utc",
    "weather",
    "list_file",
    "entries",
    "night_list",
];

fn main() {
    let bridge = env::var_os("CARGO_MANIFEST_DIR").expect("cargo runs this");
    let tests = PathBuf::from(bridge).join("..");
    let archives = tests.join("../target/staticlib");
    let exports = tests.join("exports");
    let linked = env::var("CARGO_CFG_TARGET_ARCH").as_deref() == Ok("x86_64");

    println!("cargo:rerun-if-changed={}", exports.display());
    println!("cargo:rustc-check-cfg=cfg(linked)");
    let values = SUBJECTS.map(|subject| format!("{subject:?}")).join(", ");
    println!("cargo:rustc-check-cfg=cfg(exported, values({values}))");
    if linked {
        println!("cargo:rustc-cfg=linked");
        println!("cargo:rustc-link-search=native={}", archives.display());
    }

    let text = fs::read_to_string(&exports).expect("tests/exports");
    for line in text.lines().filter(|line| !line.starts_with('#')) {
        let (archive, subjects) = line.split_once(':').expect("ARCHIVE: SUBJECT ..");
        if linked {
            let file = archives.join(format!("lib{archive}.a"));
            println!("cargo:rerun-if-changed={}", file.display());
            println!("cargo:rustc-link-lib=static={archive}");
        }
        for subject in subjects.split_whitespace() {
            assert!(SUBJECTS.contains(&subject), "tests/exports: {subject}");
            println!("cargo:rustc-cfg=exported={subject:?}");
        }
    }
}
