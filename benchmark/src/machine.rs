//! Where and of what the figures were taken.

use crate::peers::peers;
use std::fs;
use std::process::Command;

/// Names and what stands behind them, for the head of the report.
pub fn description() -> Vec<(&'static str, String)> {
    vec![
        ("date", said("date", &["-u", "+%F %H:%M UTC"])),
        ("command", command()),
        ("commit", commit()),
        ("processor", processor()),
        ("kernel", said("uname", &["-sr"])),
        ("compilers", compilers()),
        ("peers", peer_packages()),
    ]
}

/// The first line that a command writes, or a question mark.
fn said(program: &str, arguments: &[&str]) -> String {
    let output = Command::new(program).args(arguments).output();
    let text = match output {
        Ok(output) if output.status.success() => output.stdout,
        _ => Vec::new(),
    };
    let text = String::from_utf8_lossy(&text).into_owned();
    text.lines().next().unwrap_or("?").to_string()
}

fn command() -> String {
    let arguments: Vec<String> = std::env::args().skip(1).collect();
    format!("`benchmark/run {}`", arguments.join(" "))
}

/// The commit that the repository stands at, and whether files differ from it.
fn commit() -> String {
    let git = |arguments: &[&str]| {
        let folder = ["-C", env!("CARGO_MANIFEST_DIR")];
        said("git", &[&folder, arguments].concat())
    };
    let changed = match git(&["status", "--porcelain", "--untracked-files=no"]).as_str() {
        "?" => "",
        _ => ", with changes",
    };
    let archive = match std::env::var("UBFA_LIB_DIR") {
        Ok(folder) => format!(", the library from {folder}"),
        Err(_) => String::new(),
    };
    format!(
        "{}{changed}{archive}",
        git(&["rev-parse", "--short=12", "HEAD"])
    )
}

fn processor() -> String {
    let text = fs::read_to_string("/proc/cpuinfo").unwrap_or_default();
    let field = |name: &str| {
        let line = text.lines().find(|line| line.starts_with(name));
        let value = line.and_then(|line| line.split_once(": "));
        value.map_or("?", |(_, value)| value).to_string()
    };
    let cores = text
        .lines()
        .filter(|line| line.starts_with("processor"))
        .count();
    let (family, model) = (field("cpu family"), field("model\t"));
    let cache = field("cache size");
    format!(
        "{} (family {family}, model {model}), {cores} cores, cache {cache}",
        field("model name")
    )
}

fn compilers() -> String {
    let programs = ["gcc", "g++", "rustc"];
    programs
        .map(|program| said(program, &["--version"]))
        .join("; ")
}

/// The packages of the peers with their versions; those left out, and why.
fn peer_packages() -> String {
    let version = |package: &str| said("dpkg-query", &["-W", "-f", "${Version}\n", package]);
    let described = peers().map(|peer| match peer.functions {
        Some(_) => format!("{} {}", peer.package, version(peer.package)),
        None => format!("{} is missing, and its rows are left out", peer.package),
    });
    described.join(", ")
}
