//! Messages from files, through the library and the independent implementation, side by side.

mod counts;
mod expected;
mod paths;
mod run;

use run::{Run, Settings};
use std::env;
use std::ffi::OsString;
use std::path::PathBuf;
use std::process::ExitCode;

const HELP: &str = "\
usage: conformance/traffic [--tape] [--expect FILE] PATH..

Decodes messages with the library and with the independent implementation, in tables large enough to refuse only
what the largest would, and compares the answers, every table's end contents, and the plain text that the library
writes.

PATH..         files of one message each, or folders of them, looked through to the bottom in the order of names
--tape         the files hold messages end to end: each begins where the bytes consumed by the one before end
--expect FILE  compare with another decoder's answers too: for each message the plain text, or `refused N at P`, and
               a newline, as the program ./ubfa writes them. The tables lent are then that program's: 1,024 rows,
               256 stack words, 64 noted depths, 256 register words, 16,384 bytes of message and of text; of a tape
               no more than so many bytes are handed over at once
--help         this

Ends with the counts. Exit status: 0 where nothing differs, 1 where something does, 2 where the usage is wrong,
something cannot be read, or there is no message at all.
";

fn main() -> ExitCode {
    match arguments(env::args_os().skip(1)) {
        Ok(Wanted::Help) => {
            print!("{HELP}");
            ExitCode::SUCCESS
        }
        Ok(Wanted::Run(settings)) => finish(Run::over(settings)),
        Err(problem) => {
            eprintln!("traffic: {problem}\n\n{HELP}");
            ExitCode::from(2)
        }
    }
}

/// The exit status of a run, with what could not be read on standard error.
fn finish(differences: Result<u64, String>) -> ExitCode {
    match differences {
        Ok(0) => ExitCode::SUCCESS,
        Ok(_) => ExitCode::from(1),
        Err(problem) => {
            eprintln!("traffic: {problem}");
            ExitCode::from(2)
        }
    }
}

enum Wanted {
    Help,
    Run(Settings),
}

fn arguments(mut given: impl Iterator<Item = OsString>) -> Result<Wanted, String> {
    let mut settings = Settings::default();
    while let Some(argument) = given.next() {
        match argument.to_str() {
            Some("--help") => return Ok(Wanted::Help),
            Some("--tape") => settings.tape = true,
            Some("--expect") => {
                let file = given.next().ok_or("--expect wants a file")?;
                settings.expect = Some(PathBuf::from(file));
            }
            Some(option) if option.starts_with('-') => return Err(format!("{option} is unknown")),
            _ => settings.paths.push(PathBuf::from(argument)),
        }
    }
    if settings.paths.is_empty() {
        return Err("no path given".to_string());
    }
    Ok(Wanted::Run(settings))
}
