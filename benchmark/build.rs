//! Compiles the C that the library is timed against. A peer whose header is missing is left out.

use std::env;
use std::path::{Path, PathBuf};
use std::process::{Command, Stdio};

/// The C written for the library's contracts, and the flags that make each of its two variants.
const SOURCES: [&str; 3] = ["decode.c", "write.c", "words.c"];
const VARIANTS: [(&str, &[&str]); 2] = [("careful", &[]), ("tuned", &["-DTUNED"])];

/// A decoder of another format: the cfg that says that it is there, its source, its header, and the library to link.
struct Peer {
    name: &'static str,
    source: &'static str,
    header: &'static str,
    library: Option<&'static str>,
}

const PEERS: [Peer; 4] = [
    peer("jsmn", "peers/jsmn.c", "jsmn.h", None),
    peer(
        "simdjson",
        "peers/simdjson.cpp",
        "simdjson.h",
        Some("simdjson"),
    ),
    peer("cbor", "peers/cbor.c", "cbor.h", Some("cbor")),
    peer("msgpack", "peers/msgpack.c", "msgpack.h", Some("msgpackc")),
];

const fn peer(
    name: &'static str,
    source: &'static str,
    header: &'static str,
    library: Option<&'static str>,
) -> Peer {
    Peer {
        name,
        source,
        header,
        library,
    }
}

fn main() {
    println!("cargo::rerun-if-changed=c");
    println!("cargo::rerun-if-changed=../include/ubfa.h");
    for (name, flags) in VARIANTS {
        archive(name, &SOURCES.map(|source| compiled(name, source, flags)));
    }
    archive("plain", &[compiled("plain", "plain_words.c", &[])]);
    let present: Vec<&Peer> = PEERS.iter().filter(|peer| has_header(peer)).collect();
    let objects = present
        .iter()
        .map(|peer| compiled("peers", peer.source, &[]));
    archive("peers", &objects.collect::<Vec<PathBuf>>());
    PEERS
        .iter()
        .for_each(|peer| println!("cargo::rustc-check-cfg=cfg({})", peer.name));
    present.iter().for_each(|peer| announce(peer));
}

/// Sets the cfg of a peer and links its library; that of C++ comes with simdjson.
fn announce(peer: &Peer) {
    println!("cargo::rustc-cfg={}", peer.name);
    if let Some(library) = peer.library {
        println!("cargo::rustc-link-lib=dylib={library}");
    }
    if peer.source.ends_with(".cpp") {
        println!("cargo::rustc-link-lib=dylib=stdc++");
    }
}

fn variable(name: &str) -> String {
    env::var(name).unwrap_or_else(|_| panic!("cargo sets {name}"))
}

fn output(file: &str) -> PathBuf {
    Path::new(&variable("OUT_DIR")).join(file)
}

/// The compiler for a source, with the flags that it always gets: gcc and g++, or what CC and CXX name.
fn compiler(source: &str) -> Command {
    let (setting, usual, standard) = match source.ends_with(".cpp") {
        true => ("CXX", "g++", "-std=c++17"),
        false => ("CC", "gcc", "-std=c11"),
    };
    println!("cargo::rerun-if-env-changed={setting}");
    let mut command = Command::new(env::var(setting).unwrap_or_else(|_| usual.to_string()));
    command.args(["-O3", standard, "-Wall", "-Wextra", "-fPIC"]);
    command
}

/// Whether a file that only includes the peer's header compiles.
fn has_header(peer: &Peer) -> bool {
    println!("cargo::rerun-if-changed=/usr/include/{}", peer.header);
    let probe = output("probe").with_extension(peer.source.rsplit('.').next().unwrap_or("c"));
    let text = format!("#include <{}>\n", peer.header);
    std::fs::write(&probe, text).expect("OUT_DIR can be written to");
    let mut command = compiler(peer.source);
    command
        .arg("-fsyntax-only")
        .arg(&probe)
        .stderr(Stdio::null());
    command.status().is_ok_and(|status| status.success())
}

/// The object of a source in the folder c for an archive.
fn compiled(archive: &str, source: &str, flags: &[&str]) -> PathBuf {
    let package = PathBuf::from(variable("CARGO_MANIFEST_DIR"));
    let object = output(&format!("{archive}_{}", source.replace('/', "_"))).with_extension("o");
    let mut command = compiler(source);
    command.args(flags);
    command.arg("-c").arg(package.join("c").join(source));
    command.arg("-I").arg(package.join("../include"));
    command.arg("-o").arg(&object);
    run(command);
    object
}

fn archive(name: &str, objects: &[PathBuf]) {
    let file = output(&format!("lib{name}.a"));
    // An archive keeps the members of earlier builds.
    let _ = std::fs::remove_file(&file);
    let mut command = Command::new("ar");
    command.arg("crs").arg(file).args(objects);
    run(command);
    println!("cargo::rustc-link-search=native={}", variable("OUT_DIR"));
    println!("cargo::rustc-link-lib=static={name}");
}

fn run(mut command: Command) {
    let status = command.status();
    if !status.as_ref().is_ok_and(|status| status.success()) {
        println!("cargo::error={command:?}: {status:?}");
    }
}
