//! The benchmark's commands.

use benchmark::decoding::{lent_for, table_of, CAREFUL, LIBRARY, TUNED};
use benchmark::measure::Section;
use benchmark::mixes::{Mix, MIXES, SIZES};
use benchmark::timing::{time, Time};
use benchmark::{comparing, decoding, plot, report, words, writing};
use std::path::Path;
use std::process::ExitCode;

const USAGE: &str = "\
usage: bench            measures all and prints the report in Markdown
       bench --write    puts it into docs/BENCHMARKS.md too, and the plot into docs/benchmarks.svg
       bench quick [decode|write] [SIZE]    the library beside careful and tuned C, in a few seconds
       bench quick words                    the same for the readers of words
       bench once [decode|write] MIX SIZE CONTENDER COUNT    calls one of them so often, for a profiler
MIX and CONTENDER are the beginnings of names, SIZE is in bytes";

const DOCUMENTS: &str = concat!(env!("CARGO_MANIFEST_DIR"), "/../docs");

fn main() -> ExitCode {
    let arguments: Vec<String> = std::env::args().skip(1).collect();
    let words: Vec<&str> = arguments.iter().map(String::as_str).collect();
    let done = match words[..] {
        [] => all(false),
        ["--write"] => all(true),
        ["--help"] => {
            println!("{USAGE}");
            Ok(())
        }
        ["quick"] => quick("decode", SIZES[1]),
        ["quick", function @ ("decode" | "write")] => quick(function, SIZES[1]),
        ["quick", "words"] => {
            quick_words();
            Ok(())
        }
        ["quick", size] => number(size).and_then(|size| quick("decode", size)),
        ["quick", function @ ("decode" | "write"), size] => {
            number(size).and_then(|size| quick(function, size))
        }
        ["once", mix, size, contender, count] => once("decode", mix, size, contender, count),
        ["once", function @ ("decode" | "write"), mix, size, contender, count] => {
            once(function, mix, size, contender, count)
        }
        _ => Err(USAGE.to_string()),
    };
    match done {
        Ok(()) => ExitCode::SUCCESS,
        Err(said) => {
            eprintln!("{said}");
            ExitCode::from(2)
        }
    }
}

fn all(write: bool) -> Result<(), String> {
    let parts: [fn() -> Section; 5] = [
        decoding::section,
        decoding::full_section,
        writing::section,
        comparing::section,
        words::section,
    ];
    let sections = parts.map(|part| part());
    let text = report::markdown(&sections);
    print!("{text}");
    if write {
        let folder = Path::new(DOCUMENTS);
        report::put(&folder.join("BENCHMARKS.md"), &text)?;
        let file = folder.join("benchmarks.svg");
        let written = std::fs::write(&file, plot::svg(&sections));
        written.map_err(|error| format!("{}: {error}", file.display()))?;
    }
    Ok(())
}

fn number(text: &str) -> Result<usize, String> {
    text.parse().map_err(|_| format!("no number: {text}"))
}

/// The one of some names that begins like this.
fn named<T>(choices: Vec<T>, name: fn(&T) -> &str, start: &str) -> Result<T, String> {
    let names: Vec<String> = choices
        .iter()
        .map(|choice| name(choice).to_string())
        .collect();
    let found = choices
        .into_iter()
        .find(|choice| name(choice).starts_with(start));
    found.ok_or_else(|| format!("no {start} among: {}", names.join(", ")))
}

fn once(function: &str, mix: &str, size: &str, contender: &str, count: &str) -> Result<(), String> {
    let mix: Mix = named(MIXES.into(), |mix| mix.name, mix)?;
    let message = mix.message(number(size)?);
    // made only where it is wanted, since a profiler counts every call
    let made = (function == "write").then(|| table_of(&message.bytes));
    let contenders = match &made {
        None => decoding::contenders(&message),
        Some(made) => writing::rivals(made.table(), &message.value.plain()),
    };
    let mut contender = named(contenders, |contender| contender.name, contender)?;
    for _ in 0..number(count)? {
        (contender.call)();
    }
    Ok(())
}

/// The rivals on every mix, a line for each: the bytes that they read or write, the rows, and speeds and ratio of each rival.
fn quick(function: &str, size: usize) -> Result<(), String> {
    println!("for each: MB/s at the best and the median time, million rows/s at the median, ratio");
    println!("{function:19}  bytes   rows | {LIBRARY:31} | {CAREFUL:31} | {TUNED}");
    for mix in MIXES {
        let message = mix.message(size);
        let made = table_of(&message.bytes);
        let mut rivals = match function {
            "decode" => decoding::rivals(&message.bytes, lent_for(&message.bytes)),
            _ => writing::rivals(made.table(), &message.value.plain()),
        };
        let times = time(&mut rivals);
        let (bytes, rows) = (rivals[0].bytes, made.used);
        let cells = times.iter().map(|time| {
            let ratio = time.median / times[0].median;
            format!("{} {ratio:5.2}", speeds(bytes, rows, *time))
        });
        let cells = cells.collect::<Vec<String>>().join(" |");
        println!("{:19} {bytes:6} {rows:6} |{cells}", mix.name);
    }
    Ok(())
}

/// Every reader of words on every block, a line for each block: million words/s at the best and the median time, and ratio.
fn quick_words() {
    println!("for each: million words/s at the best and the median time, ratio");
    for (name, case) in words::section().shown() {
        let cells = case.measures.iter().map(|measure| {
            let [best, median] = [measure.time.best, measure.time.median]
                .map(|seconds| case.units as f64 / seconds / 1e6);
            let ratio = case.ratio(measure);
            format!(" {} {best:.1} {median:.1} {ratio:.2}", measure.name)
        });
        let cells = cells.collect::<Vec<String>>().join(" |");
        println!("{name}:{cells}");
    }
}

/// MB/s at the best and the median time, and millions of rows a second at the median.
fn speeds(bytes: usize, rows: u32, time: Time) -> String {
    let [best, median] = [time.best, time.median].map(|seconds| bytes as f64 / seconds / 1e6);
    let rows = f64::from(rows) / time.median / 1e6;
    format!("{best:8.0} {median:8.0} {rows:8.1}")
}
