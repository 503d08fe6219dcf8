//! How time grows with size.

use crate::markdown::{grouped, Table};
use crate::measure::{Case, Section, Series};

/// The exponents of every series at more than one size: the library's and its opponent's.
pub fn table(sections: &[Section]) -> String {
    let titles = [
        "function",
        "case",
        "sizes",
        "library",
        "opponent",
        "its exponent",
    ];
    let mut table = Table::new(&titles, 3);
    for section in sections {
        let several = section
            .series
            .iter()
            .filter(|series| series.cases.len() > 1);
        several.for_each(|series| table.row(&cells(section, series)));
    }
    table.text
}

fn cells(section: &Section, series: &Series) -> [String; 6] {
    let sizes: Vec<String> = series.cases.iter().map(|case| grouped(case.size)).collect();
    [
        section.title.to_string(),
        series.name.clone(),
        format!("{} {}", sizes.join("; "), section.size),
        format!("{:.2}", exponent(series, 0)),
        series.cases[0].measures[1].name.to_string(),
        format!("{:.2}", exponent(series, 1)),
    ]
}

/// The slope of log time over log size for one of the contenders.
fn exponent(series: &Series, contender: usize) -> f64 {
    let point = |case: &Case| {
        let time = case.measures[contender].time.median;
        ((case.size as f64).ln(), time.ln())
    };
    slope(&series.cases.iter().map(point).collect::<Vec<_>>())
}

/// The slope of the line that comes closest to some points (least squares).
fn slope(points: &[(f64, f64)]) -> f64 {
    let count = points.len() as f64;
    let mean = |of: fn(&(f64, f64)) -> f64| points.iter().map(of).sum::<f64>() / count;
    let (x, y) = (mean(|point| point.0), mean(|point| point.1));
    let both: f64 = points
        .iter()
        .map(|point| (point.0 - x) * (point.1 - y))
        .sum();
    let square: f64 = points.iter().map(|point| (point.0 - x).powi(2)).sum();
    both / square
}

#[cfg(test)]
mod tests {
    use super::*;

    #[test]
    fn slope_of_a_square() {
        let squares = [1.0, 2.0, 3.0].map(|x: f64| (x.ln(), (5.0 * x * x).ln()));
        assert!((slope(&squares) - 2.0).abs() < 1e-9);
    }
}
