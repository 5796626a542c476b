//! The picture of growth, as SVG: a small panel for each series, cost against size, both axes from 0.
//!
//! It has no background, and its colours are of middle brightness, so that it is read on white and on black.

use crate::growth::Series;
use crate::grouped;
use std::fmt::Write;

const COLUMNS: usize = 3;
/// A panel with its words, and the plot in it: from its left edge and top, so wide and so high.
const PANEL: (f64, f64) = (256.0, 176.0);
const LEFT: f64 = 14.0;
const TOP: f64 = 46.0;
const WIDE: f64 = 216.0;
const HIGH: f64 = 92.0;

const STYLE: &str = "\
text{font:11px DejaVu Sans,Verdana,sans-serif;fill:#808080}
.t{font-size:12px;font-weight:bold}
.e{text-anchor:end}
path{fill:none;stroke:#808080}
.p{fill:#2c84d8;stroke:none}
.q{fill:#dc7414;stroke:none}
path.p{fill:none;stroke:#2c84d8;stroke-width:2}
path.q{fill:none;stroke:#dc7414;stroke-width:2;stroke-dasharray:6 3}
";

/// The file. The first place has what the lines are, the others a series each.
pub fn picture(all: &[Series], machine: &str) -> String {
    let rows = (all.len() + 1).div_ceil(COLUMNS);
    let (width, height) = (PANEL.0 * COLUMNS as f64, PANEL.1 * rows as f64);
    let mut out = format!(
        "<svg xmlns=\"http://www.w3.org/2000/svg\" viewBox=\"0 0 {width} {height}\" width=\"{width}\" height=\"{height}\" role=\"img\">\n\
         <title>Cost against size, proved and plain, on {}</title>\n<style>{STYLE}</style>\n",
        escaped(machine)
    );
    out += &at(0, &legend(machine));
    for (before, series) in all.iter().enumerate() {
        out += &at(before + 1, &panel(series));
    }
    out + "</svg>\n"
}

/// A panel at its place, row by row.
fn at(place: usize, panel: &str) -> String {
    let (x, y) = ((place % COLUMNS) as f64 * PANEL.0, (place / COLUMNS) as f64 * PANEL.1);
    format!("<g transform=\"translate({x} {y})\">\n{panel}</g>\n")
}

fn panel(series: &Series) -> String {
    let most = series.points.iter().map(|(_, cost)| cost.proved.max(cost.plain)).fold(0.0, f64::max);
    let (top, last) = (round_up(most), series.points.iter().map(|point| point.0).max().unwrap_or(1));
    let place = |size: usize, cost: f64| (LEFT + WIDE * size as f64 / last as f64, TOP + HIGH * (1.0 - cost / top));
    let proved: Vec<_> = series.points.iter().map(|(size, cost)| place(*size, cost.proved)).collect();
    let plain: Vec<_> = series.points.iter().map(|(size, cost)| place(*size, cost.plain)).collect();
    let mut out = axes(&proved);
    out += &text(LEFT, 18.0, "t", series.title);
    out += &text(LEFT, TOP - 8.0, "", &format!("{} ns", grouped(top as usize)));
    out += &text(LEFT, TOP + HIGH + 17.0, "", "0");
    out += &text(LEFT + WIDE, TOP + HIGH + 17.0, "e", &end(last, series.unit));
    out + &line("q", &plain) + &line("p", &proved)
}

/// The label at the right end of the axis of sizes.
fn end(last: usize, unit: &str) -> String {
    match unit {
        "t" => format!("t = {last}"),
        _ => format!("{} {unit}", grouped(last)),
    }
}

/// Both axes, with a tick at each size that was measured.
fn axes(points: &[(f64, f64)]) -> String {
    let (bottom, right) = (TOP + HIGH, LEFT + WIDE);
    let mut path = format!("M{LEFT} {TOP}V{bottom}H{right}");
    for (x, _) in points {
        write!(path, "M{x:.1} {bottom}v4").expect("a string takes all");
    }
    format!("<path d=\"{path}\"/>\n")
}

/// A line with a mark at each point: round for the proved code, square for the plain one.
fn line(class: &str, points: &[(f64, f64)]) -> String {
    let joined: Vec<String> = points.iter().map(|(x, y)| format!("{x:.1} {y:.1}")).collect();
    let mut out = format!("<path class=\"{class}\" d=\"M{}\"/>\n", joined.join("L"));
    for (x, y) in points {
        out += &mark(class, *x, *y);
    }
    out + "\n"
}

fn mark(class: &str, x: f64, y: f64) -> String {
    match class {
        "p" => format!("<circle class=\"p\" cx=\"{x:.1}\" cy=\"{y:.1}\" r=\"3\"/>"),
        _ => format!("<rect class=\"q\" x=\"{:.1}\" y=\"{:.1}\" width=\"6\" height=\"6\"/>", x - 3.0, y - 3.0),
    }
}

fn legend(machine: &str) -> String {
    let mut out = text(LEFT, 18.0, "t", "Cost against size");
    for (class, y, words) in [("p", TOP, "proved"), ("q", TOP + 22.0, "plain")] {
        out += &line(class, &[(LEFT, y), (LEFT + 36.0, y)]);
        out += &text(LEFT + 48.0, y + 4.0, "", words);
    }
    for (y, words) in [(98.0, "nanoseconds for one operation,"), (113.0, "least of several; axes from 0"), (138.0, machine)] {
        out += &text(LEFT, y, "", words);
    }
    out
}

fn text(x: f64, y: f64, class: &str, words: &str) -> String {
    let class = if class.is_empty() { String::new() } else { format!(" class=\"{class}\"") };
    format!("<text x=\"{x}\" y=\"{y}\"{class}>{}</text>\n", escaped(words))
}

fn escaped(words: &str) -> String {
    words.replace('&', "&amp;").replace('<', "&lt;")
}

/// The end of an axis: the next number with one digit, or with 5 after it.
fn round_up(most: f64) -> f64 {
    let step = 10f64.powf(most.max(1.0).log10().floor()) / 2.0;
    (most / step).ceil() * step
}
