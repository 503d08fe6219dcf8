//! The sources of every crate: entry points have no condition, and no public function is silent on its answer or on a buffer. And the README's drawing of the
//! crates is what crates.txt says.

use conformance::promises::{faults, inside, listed, seen};
use std::fs;
use std::path::{Path, PathBuf};

fn root() -> PathBuf {
    Path::new(env!("CARGO_MANIFEST_DIR")).join("..")
}

fn read(path: &Path) -> String {
    fs::read_to_string(path).unwrap_or_else(|error| panic!("{}: {error}", path.display()))
}

/// The sources of a crate.
fn sources(name: &str) -> Vec<PathBuf> {
    let folder = root().join("crates").join(name).join("src");
    let entries =
        fs::read_dir(&folder).unwrap_or_else(|error| panic!("{}: {error}", folder.display()));
    let mut paths: Vec<PathBuf> = entries.map(|entry| entry.unwrap().path()).collect();
    paths.sort();
    paths
}

#[test]
fn every_public_function_keeps_the_rule_of_its_crate() {
    let list = read(&root().join("crates.txt"));
    let inner = inside(&list);
    let names = listed(&list);
    let mut found = Vec::new();
    let mut functions = 0;
    for name in &names {
        for path in sources(name) {
            let source = read(&path);
            functions += source.matches("\npub fn ").count();
            let said = faults(&source, inner.contains(name));
            found.extend(
                said.iter()
                    .map(|fault| format!("{}: {fault}", path.display())),
            );
        }
    }
    assert!(found.is_empty(), "{}", found.join("\n"));
    assert!(functions > 0, "no public function was found");
    assert!(
        inner.iter().all(|name| names.contains(name)),
        "crates.txt names an inside crate that it does not list"
    );
}

/// The crates that the README's drawing has, each with its line.
fn drawn(readme: &str) -> Vec<(usize, &str)> {
    let start = readme.find("The rooms.").expect("a drawing");
    let lines = readme[start..].lines().enumerate().skip(2);
    let drawing = lines.take_while(|(_, line)| line.starts_with("    "));
    drawing
        .flat_map(|(at, line)| line.split_whitespace().map(move |name| (at, name)))
        .collect()
}

#[test]
fn the_drawing_of_the_crates_is_true() {
    let list = read(&root().join("crates.txt"));
    let readme = read(&root().join("README.md"));
    let drawn = drawn(&readme);
    let line_of = |name: &str| drawn.iter().find(|(_, n)| *n == name).map(|(at, _)| *at);
    let names = listed(&list);
    assert_eq!(drawn.len(), names.len(), "crates drawn, and listed");
    for (name, sees) in seen(&list) {
        let at = line_of(name).unwrap_or_else(|| panic!("{name} is not drawn"));
        let own = sees.iter().filter(|seen| names.contains(seen));
        for other in own {
            assert!(line_of(other).unwrap() < at, "{other} is not above {name}");
        }
        let entry = format!("    crates/{name} ");
        let mut entries = readme.lines().filter(|line| line.starts_with(&entry));
        let line = entries
            .next()
            .unwrap_or_else(|| panic!("{name} has no line"));
        let said = format!("(sees {})", sees.join(" "));
        assert!(sees.is_empty() || line.ends_with(&said), "{name}: {said}");
    }
}
