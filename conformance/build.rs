//! Finds the archive of the library under test, and takes 01's bounds and the words for each refusal from its C header.

use std::env;
use std::fs;
use std::path::{Path, PathBuf};

fn main() {
    let package = PathBuf::from(variable("CARGO_MANIFEST_DIR"));
    link(&package);
    take_header(&package.join("../include/ubfa.h"));
}

fn variable(name: &str) -> String {
    env::var(name).unwrap_or_else(|_| panic!("cargo sets {name}"))
}

/// Links libubfa.a, from the folder that UBFA_LIB_DIR names or from where the library's own build leaves it. A folder that has a shared
/// libubfa.so is linked with that, so that one build of the tests serves for many of them (faults/run).
fn link(package: &Path) {
    println!("cargo::rerun-if-env-changed=UBFA_LIB_DIR");
    let folder = match env::var_os("UBFA_LIB_DIR") {
        Some(folder) => PathBuf::from(folder),
        None => package.join("../crates/ubfa/out"),
    };
    println!("cargo::rustc-link-search=native={}", folder.display());
    if folder.join("libubfa.so").is_file() {
        println!("cargo::rustc-link-lib=dylib=ubfa");
        return;
    }
    let archive = folder.join("libubfa.a");
    println!("cargo::rerun-if-changed={}", archive.display());
    if !archive.is_file() {
        println!(
            "cargo::error={} is missing: run rt lib in crates/ubfa, or name its folder in UBFA_LIB_DIR",
            archive.display()
        );
    }
    println!("cargo::rustc-link-lib=static=ubfa");
}

/// Writes every `#define UBFA_NAME NUMBER` of the header as a constant NAME, and its list of refusals as REFUSALS.
fn take_header(header: &Path) {
    println!("cargo::rerun-if-changed={}", header.display());
    let text =
        fs::read_to_string(header).unwrap_or_else(|error| panic!("{}: {error}", header.display()));
    let constants: String = text.lines().filter_map(constant).collect();
    let refusals: String = text.lines().filter_map(refusal).collect();
    let written = format!("{constants}pub const REFUSALS: &[(u32, &str)] = &[{refusals}];\n");
    let file = Path::new(&variable("OUT_DIR")).join("header.rs");
    fs::write(&file, written).unwrap_or_else(|error| panic!("{}: {error}", file.display()));
}

fn constant(line: &str) -> Option<String> {
    let mut words = line.strip_prefix("#define UBFA_")?.split_whitespace();
    let name = words.next()?;
    let number: usize = words.next()?.parse().ok()?;
    Some(format!("pub const {name}: usize = {number};\n"))
}

/// A refusal stands in the header's comment as its number, two blanks and when it is given.
fn refusal(line: &str) -> Option<String> {
    let (number, meaning) = line.strip_prefix(" *")?.trim_start().split_once("  ")?;
    let number: u32 = number.parse().ok()?;
    Some(format!("({number}, {meaning:?}),"))
}
