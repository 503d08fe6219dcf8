//! The report in Markdown, and its place in docs/BENCHMARKS.md.

use crate::decoding::{CAREFUL, TUNED};
use crate::markdown::{figure, grouped, Table};
use crate::measure::{Case, Measure, Section};
use crate::timing::{Time, ROUND, ROUNDS};
use crate::{c, growth, machine};
use std::fmt::Display;
use std::fs;
use std::path::Path;

const BEGIN: &str = "<!-- measured: begin -->";
const END: &str = "<!-- measured: end -->";

/// The whole report. The ratios to C come first; the first section, which has the most contenders, has a table of all its ratios.
pub fn markdown(sections: &[Section]) -> String {
    let mut text = head() + &unrest(sections);
    text += &format!(
        "\n### Careful C and tuned C: ratios\n\n{}\n\n{}",
        c::NOTES,
        ratios_to_c(sections)
    );
    text += &format!(
        "\n### {}: ratios\n\n{}",
        sections[0].title,
        ratios(&sections[0])
    );
    for section in sections {
        text += &format!(
            "\n### {}\n\n{}\n\n{}",
            section.title,
            section.notes,
            speeds(section)
        );
    }
    let exponents = growth::table(sections);
    text += &format!(
        "\n### Growth\n\nThe exponent is the slope of log time over log size (least squares): 1 is in proportion to the size, 2 is its \
square.\n\n{exponents}"
    );
    text
}

/// Puts the report between the two lines of a file that mark its place.
pub fn put(file: &Path, report: &str) -> Result<(), String> {
    let failed = |error: &dyn Display| format!("{}: {error}", file.display());
    let text = fs::read_to_string(file).map_err(|error| failed(&error))?;
    let placed = placed(&text, report).ok_or_else(|| failed(&"no place for the report"))?;
    fs::write(file, placed).map_err(|error| failed(&error))
}

fn placed(text: &str, report: &str) -> Option<String> {
    let (before, rest) = text.split_once(BEGIN)?;
    let (_, after) = rest.split_once(END)?;
    Some(format!("{before}{BEGIN}\n\n{report}\n{END}{after}"))
}

fn head() -> String {
    let described = machine::description();
    let lines: String = described
        .iter()
        .map(|(name, value)| format!("- {name}: {value}\n"))
        .collect();
    let round = ROUND.as_millis();
    format!(
        "{lines}\nA ratio is the contender's median time over the library's: above 1 the library is faster. Contenders of a case are \
timed in turn, {ROUNDS} rounds of at least {round} ms each, in processor time of one thread, on the same message every time; all of them got the same \
values, and values a second are what can be compared between formats.\n"
    )
}

/// How many of the measures the machine disturbed: one was where the median is well over the best.
fn unrest(sections: &[Section]) -> String {
    let cases = sections
        .iter()
        .flat_map(|section| &section.series)
        .flat_map(|series| &series.cases);
    let times: Vec<Time> = cases
        .flat_map(|case| &case.measures)
        .map(|measure| measure.time)
        .collect();
    let unsteady = times.iter().filter(|time| time.median > 1.25 * time.best);
    let (unsteady, all) = (unsteady.count(), times.len());
    format!("Of {all} medians {unsteady} are more than a quarter over the best time: that is how quiet the machine was.\n")
}

/// The ratios to both variants of C in all cases that have them.
fn ratios_to_c(sections: &[Section]) -> String {
    let mut table = Table::new(&["function", "case", CAREFUL, TUNED], 2);
    for section in sections {
        for (name, case) in section.shown() {
            let named = |wanted| case.others().find(|other| other.name == wanted);
            if let (Some(careful), Some(tuned)) = (named(CAREFUL), named(TUNED)) {
                let ratios = [careful, tuned].map(|other| ratio(case, other));
                table.row(&[section.title, name, &ratios[0], &ratios[1]]);
            }
        }
    }
    table.text
}

/// The ratios of a section: a line for each case, a column for each contender.
fn ratios(section: &Section) -> String {
    let mut titles = vec!["case"];
    let first = section.shown().next();
    titles.extend(
        first
            .iter()
            .flat_map(|(_, case)| case.others().map(|other| other.name)),
    );
    let mut table = Table::new(&titles, 1);
    for (name, case) in section.shown() {
        let cells = case.others().map(|other| ratio(case, other));
        let cells: Vec<String> = [name.to_string()].into_iter().chain(cells).collect();
        table.row(&cells);
    }
    table.text
}

fn ratio(case: &Case, other: &Measure) -> String {
    format!("{:.2}", case.ratio(other))
}

/// The speeds of a section.
fn speeds(section: &Section) -> String {
    let units = format!("million {}/s", section.units);
    let titles = [
        "case",
        "contender",
        "bytes",
        "MB/s best",
        "MB/s median",
        &units,
        "µs a call",
        "ratio",
    ];
    let mut table = Table::new(&titles, 2);
    for (name, case) in section.shown() {
        let name = format!("{name}, {} {}", grouped(case.size), section.size);
        for (at, measure) in case.measures.iter().enumerate() {
            let name = if at == 0 { &name } else { "" };
            table.row(&speed_cells(name, case, measure));
        }
    }
    table.text
}

fn speed_cells(name: &str, case: &Case, measure: &Measure) -> [String; 8] {
    let millions = |count: usize, seconds: f64| figure(count as f64 / seconds / 1e6);
    let time = measure.time;
    [
        name.to_string(),
        measure.name.to_string(),
        grouped(measure.bytes),
        millions(measure.bytes, time.best),
        millions(measure.bytes, time.median),
        millions(case.units, time.median),
        figure(time.median * 1e6),
        ratio(case, measure),
    ]
}

#[cfg(test)]
mod tests {
    use super::*;

    #[test]
    fn place_in_the_file() {
        let text = format!("a\n{BEGIN}\nold\n{END}\nb\n");
        let new = placed(&text, "new\n").unwrap();
        assert_eq!(new, format!("a\n{BEGIN}\n\nnew\n\n{END}\nb\n"));
        assert_eq!(placed(&new, "new\n").unwrap(), new);
        assert_eq!(placed("a\n", "new\n"), None);
    }
}
