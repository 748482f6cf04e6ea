//! A figure of panels side by side, as SVG: both axes logarithmic, the one of the instructions the same for all of them.

use crate::report::{heading, heads};
use std::fmt::Write;

/// What is drawn as one line.
pub struct Series {
    pub name: &'static str,
    pub points: Vec<(f64, f64)>,
}

/// A part of the figure: what its axis counts, what its inputs are, and which numbers stand at the axis.
pub struct Panel {
    pub axis: &'static str,
    pub of: &'static str,
    pub ticks: Vec<u32>,
    pub series: [Series; 2],
}

/// Where the first plot stands, how large each is, and from one to the next.
const LEFT: f64 = 84.0;
const TOP: f64 = 104.0;
const WIDTH: f64 = 270.0;
const HEIGHT: f64 = 230.0;
const STEP: f64 = 345.0;

/// The size of the whole.
const SIZE: [f64; 2] = [1070.0, 400.0];

/// The colours of a light and of a dark ground.
pub const STYLE: &str = "text { font-family: system-ui, sans-serif; font-size: 13px; fill: #1f2328 }
.title { font-weight: 600; font-size: 14px } .quiet { fill: #59636e } .ground { fill: #ffffff } .grid { stroke: #d8dee4 } .frame { stroke: #818b98; fill: none }
.line { fill: none; stroke-width: 2 } .s0 { stroke: #0969da } .s1 { stroke: #bc4c00; stroke-dasharray: 6 4 } .d0 { fill: #0969da } .d1 { fill: #bc4c00 }
@media (prefers-color-scheme: dark) {
text { fill: #e6edf3 } .quiet { fill: #9198a1 } .ground { fill: #0d1117 } .grid { stroke: #2a313c } .frame { stroke: #656c76 }
.s0 { stroke: #58a6ff } .s1 { stroke: #f0883e } .d0 { fill: #58a6ff } .d1 { fill: #f0883e } }";

/// The slope of the right half of a line, both axes logarithmic: by which power it grows there.
fn slope(points: &[(f64, f64)]) -> f64 {
    let half: Vec<(f64, f64)> = points[points.len() / 2..].iter().map(|(x, y)| (x.ln(), y.ln())).collect();
    assert!(half.len() > 1, "two points make a slope");
    let mean = |f: fn(&(f64, f64)) -> f64| half.iter().map(f).sum::<f64>() / half.len() as f64;
    let (x, y) = (mean(|p| p.0), mean(|p| p.1));
    half.iter().map(|p| (p.0 - x) * (p.1 - y)).sum::<f64>() / half.iter().map(|p| (p.0 - x).powi(2)).sum::<f64>()
}

/// A number at an axis: thousands, millions and thousand millions by a letter.
fn short(x: f64) -> String {
    let (unit, letter) = [(1e9, " G"), (1e6, " M"), (1e3, " k")].into_iter().find(|(unit, _)| x >= *unit).unwrap_or((1.0, ""));
    format!("{}{letter}", x / unit)
}

/// An axis: the logarithms of its ends, where it starts, and how far it goes.
struct Axis {
    ends: [f64; 2],
    start: f64,
    length: f64,
}

impl Axis {
    /// Where a number stands.
    fn at(&self, x: f64) -> f64 {
        assert!(x > 0.0 && x.is_finite(), "a number for the axis: {x}");
        self.start + (x.log10() - self.ends[0]) / (self.ends[1] - self.ends[0]) * self.length
    }
}

/// A line of text, by its class, anchor and place.
pub fn text(out: &mut String, class: &str, anchor: &str, [x, y]: [f64; 2], words: &str) {
    writeln!(out, r#"<text class="{class}" text-anchor="{anchor}" x="{x:.1}" y="{y:.1}">{words}</text>"#).expect("text is written");
}

/// A straight line between two places.
pub fn straight(out: &mut String, class: &str, from: [f64; 2], to: [f64; 2]) {
    writeln!(out, r#"<line class="{class}" x1="{:.1}" y1="{:.1}" x2="{:.1}" y2="{:.1}"/>"#, from[0], from[1], to[0], to[1]).expect("text is written");
}

/// The line of a series with its points.
fn curve(out: &mut String, i: usize, series: &Series, x: &Axis, y: &Axis) {
    let places: Vec<[f64; 2]> = series.points.iter().map(|p| [x.at(p.0), y.at(p.1)]).collect();
    let path: Vec<String> = places.iter().map(|[x, y]| format!("{x:.1},{y:.1}")).collect();
    writeln!(out, r#"<polyline class="line s{i}" points="{}"/>"#, path.join(" ")).expect("text is written");
    for [x, y] in places {
        writeln!(out, r#"<circle class="d{i}" cx="{x:.1}" cy="{y:.1}" r="3"/>"#).expect("text is written");
    }
}

/// The lines across a plot and the numbers at both of its axes.
fn grid(out: &mut String, panel: &Panel, x: &Axis, y: &Axis) {
    for decade in y.ends[0] as i32..=y.ends[1] as i32 {
        let number = 10f64.powi(decade);
        straight(out, "grid", [x.start, y.at(number)], [x.start + x.length, y.at(number)]);
        text(out, "quiet", "end", [x.start - 8.0, y.at(number) + 4.0], &short(number));
    }
    for tick in panel.ticks.iter().map(|&tick| f64::from(tick)) {
        straight(out, "grid", [x.at(tick), TOP], [x.at(tick), TOP + HEIGHT]);
        text(out, "quiet", "middle", [x.at(tick), TOP + HEIGHT + 18.0], &short(tick));
    }
    writeln!(out, r#"<rect class="frame" x="{:.1}" y="{TOP:.1}" width="{WIDTH:.1}" height="{HEIGHT:.1}"/>"#, x.start).expect("text is written");
}

/// A panel in its place.
fn panel(out: &mut String, i: usize, panel: &Panel, y: &Axis) {
    let start = LEFT + STEP * i as f64;
    let all = || panel.series.iter().flat_map(|series| series.points.iter().map(|p| p.0)).chain(panel.ticks.iter().map(|&tick| f64::from(tick)));
    let (least, most) = (all().fold(f64::MAX, f64::min).log10(), all().fold(0.0, f64::max).log10());
    let room = (most - least) / 25.0;
    let x = Axis { ends: [least - room, most + room], start, length: WIDTH };
    text(out, "title", "start", [start, TOP - 44.0], &format!("by {}", panel.axis));
    text(out, "quiet", "start", [start, TOP - 27.0], panel.of);
    text(out, "quiet", "start", [start, TOP - 10.0], &format!("right half: grows as {}^{:.1}", panel.axis, slope(&panel.series[0].points)));
    grid(out, panel, &x, y);
    text(out, "", "middle", [start + WIDTH / 2.0, TOP + HEIGHT + 40.0], panel.axis);
    panel.series.iter().enumerate().for_each(|(i, series)| curve(out, i, series, &x, y));
}

/// What the lines are, above the panels.
fn legend(out: &mut String, panel: &Panel) {
    text(out, "title", "start", [LEFT, 28.0], "Instructions of one reduction");
    for (i, series) in panel.series.iter().enumerate() {
        let x = LEFT + STEP + 130.0 * i as f64;
        straight(out, &format!("line s{i}"), [x, 24.0], [x + 34.0, 24.0]);
        text(out, "", "start", [x + 42.0, 28.0], series.name);
    }
}

/// The whole figure.
pub fn svg(panels: &[Panel]) -> String {
    let all = || panels.iter().flat_map(|panel| &panel.series).flat_map(|series| series.points.iter().map(|p| p.1));
    let (least, most) = (all().fold(f64::MAX, f64::min), all().fold(0.0, f64::max));
    let y = Axis { ends: [least.log10().floor(), most.log10().ceil()], start: TOP + HEIGHT, length: -HEIGHT };
    let [width, height] = SIZE;
    let mut out = format!("<svg xmlns=\"http://www.w3.org/2000/svg\" viewBox=\"0 0 {width} {height}\" width=\"{width}\" height=\"{height}\">\n<style>{STYLE}</style>\n");
    writeln!(out, r#"<rect class="ground" width="{width}" height="{height}"/>"#).expect("text is written");
    legend(&mut out, &panels[0]);
    panels.iter().enumerate().for_each(|(i, part)| panel(&mut out, i, part, &y));
    out.push_str("</svg>\n");
    out
}

/// What the figure shows, as a table.
pub fn print(panels: &[Panel]) {
    heading("growth");
    heads("axis; at; library Ir; plain Ir; ratio");
    for panel in panels {
        let [ours, theirs] = &panel.series;
        for (a, b) in ours.points.iter().zip(&theirs.points) {
            println!("| {} | {:.0} | {:.0} | {:.0} | {:.2} |", panel.axis, a.0, a.1, b.1, a.1 / b.1);
        }
    }
    println!();
}
