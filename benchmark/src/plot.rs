//! The ratios as a plot of bars, in SVG.

use crate::markdown::grouped;
use crate::measure::{Case, Section};
use std::fmt::Write;

/// Places in pixels: where the bars' labels end, and the axis, with room on both sides for the numbers at the bars' ends.
const LABELS: f64 = 200.0;
const AXIS: f64 = 250.0;
const AXIS_WIDTH: f64 = 590.0;
const WIDTH: f64 = 900.0;
const TOP: f64 = 64.0;
const BAR: f64 = 15.0;
const GAP: f64 = 12.0;

const FASTER: &str = "#2b6cb0";
const SLOWER: &str = "#c05621";

/// A line of the plot: a group's title, or a bar.
enum Line {
    Title(String),
    Bar(&'static str, f64),
}

/// The plot of all ratios but those to floors.
pub fn svg(sections: &[Section]) -> String {
    let lines: Vec<Line> = sections.iter().flat_map(section_lines).collect();
    let axis = Axis::around(&lines);
    let mut bars = String::new();
    let mut y = TOP;
    for line in &lines {
        y = draw(&mut bars, &axis, line, y);
    }
    let height = y + GAP;
    let mut text = format!(
        "<svg xmlns=\"http://www.w3.org/2000/svg\" width=\"{WIDTH}\" height=\"{height}\" viewBox=\"0 0 {WIDTH} {height}\" \
font-family=\"sans-serif\" font-size=\"12\">\n<rect width=\"100%\" height=\"100%\" fill=\"white\"/>\n"
    );
    label(
        &mut text,
        [10.0, 20.0],
        "start",
        "font-size=\"15\" font-weight=\"bold\"",
        "Speed of the library over that of others",
    );
    label(
        &mut text,
        [10.0, 38.0],
        "start",
        "fill=\"#555\"",
        "log axis; right of the line at 1 the library is faster",
    );
    axis.draw(&mut text, height);
    text + &bars + "</svg>\n"
}

fn section_lines(section: &Section) -> Vec<Line> {
    let group = |(name, case): (&str, &Case)| {
        let size = grouped(case.size);
        let title = format!("{}: {name}, {size} {}", section.title, section.size);
        let bars = case
            .others()
            .map(|other| Line::Bar(other.name, case.ratio(other)));
        [Line::Title(title)]
            .into_iter()
            .chain(bars)
            .collect::<Vec<Line>>()
    };
    section.shown().flat_map(group).collect()
}

/// Draws a line and answers where the next one begins.
fn draw(text: &mut String, axis: &Axis, line: &Line, y: f64) -> f64 {
    match line {
        Line::Title(title) => {
            let base = y + GAP + BAR - 4.0;
            label(text, [10.0, base], "start", "font-weight=\"bold\"", title);
            y + GAP + BAR
        }
        Line::Bar(name, ratio) => {
            bar(text, axis, name, *ratio, y);
            y + BAR
        }
    }
}

/// A bar from the line at 1, its contender's name before it and the ratio at its end.
fn bar(text: &mut String, axis: &Axis, name: &str, ratio: f64, y: f64) {
    let (one, end) = (axis.place(1.0), axis.place(ratio));
    let (left, width) = (one.min(end), (end - one).abs().max(1.0));
    let colour = if ratio >= 1.0 { FASTER } else { SLOWER };
    let height = BAR - 4.0;
    put(text, format_args!("<rect x=\"{left:.1}\" y=\"{y:.1}\" width=\"{width:.1}\" height=\"{height}\" fill=\"{colour}\"/>"));
    let base = y + BAR - 5.0;
    label(text, [LABELS, base], "end", "", name);
    let (at, anchor) = if ratio >= 1.0 {
        (end + 4.0, "start")
    } else {
        (end - 4.0, "end")
    };
    label(
        text,
        [at, base],
        anchor,
        "font-size=\"11\" fill=\"#333\"",
        &format!("{ratio:.2}"),
    );
}

fn put(text: &mut String, line: std::fmt::Arguments) {
    writeln!(text, "{line}").expect("a string takes all that is written to it");
}

fn label(text: &mut String, [x, y]: [f64; 2], anchor: &str, style: &str, words: &str) {
    put(
        text,
        format_args!(
            "<text x=\"{x:.1}\" y=\"{y:.1}\" text-anchor=\"{anchor}\" {style}>{words}</text>"
        ),
    );
}

/// A log axis; its ends are logarithms to the base 10.
struct Axis {
    least: f64,
    most: f64,
}

impl Axis {
    fn around(lines: &[Line]) -> Axis {
        let ratios = lines.iter().filter_map(|line| match line {
            Line::Bar(_, ratio) => Some(ratio.log10()),
            Line::Title(_) => None,
        });
        let ends = (-1.0, 1.0);
        let (least, most) = ratios.fold(ends, |(least, most): (f64, f64), at| {
            (least.min(at), most.max(at))
        });
        Axis { least, most }
    }

    fn place(&self, ratio: f64) -> f64 {
        let part = (ratio.log10() - self.least) / (self.most - self.least);
        AXIS + part * AXIS_WIDTH
    }

    /// Lines and numbers at the powers of ten.
    fn draw(&self, text: &mut String, height: f64) {
        for power in self.least.ceil() as i32..=self.most.floor() as i32 {
            let ratio = 10_f64.powi(power);
            let x = self.place(ratio);
            let colour = if power == 0 { "#222" } else { "#ddd" };
            let (top, bottom) = (TOP, height - GAP);
            put(text, format_args!("<line x1=\"{x:.1}\" y1=\"{top}\" x2=\"{x:.1}\" y2=\"{bottom:.1}\" stroke=\"{colour}\"/>"));
            label(text, [x, TOP - 6.0], "middle", "", &format!("{ratio}"));
        }
    }
}
