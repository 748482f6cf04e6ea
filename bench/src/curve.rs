//! A figure of a few lines over one axis, as SVG: both axes linear.

use crate::figure::{STYLE, straight, text};
use std::fmt::Write;

/// A line: its name, and its height at each place.
pub struct Line {
    pub name: &'static str,
    pub points: Vec<(f64, f64)>,
}

/// Where the plot stands, how large it is, and the size of the whole.
const LEFT: f64 = 70.0;
const TOP: f64 = 70.0;
const WIDTH: f64 = 620.0;
const HEIGHT: f64 = 300.0;
const SIZE: [f64; 2] = [730.0, 430.0];

/// The colours of the third line.
const THIRD: &str = ".s2 { stroke: #1a7f37; stroke-dasharray: 2 4 } @media (prefers-color-scheme: dark) { .s2 { stroke: #3fb950 } }";

/// The figure: its title, what the axes count, how far they go and in which steps.
pub struct Figure<'a> {
    pub title: &'a str,
    pub axes: [&'a str; 2],
    pub most: [f64; 2],
    pub steps: [usize; 2],
}

impl Figure<'_> {
    /// Where a point stands.
    fn at(&self, (x, y): (f64, f64)) -> [f64; 2] {
        [LEFT + x / self.most[0] * WIDTH, TOP + HEIGHT - y / self.most[1] * HEIGHT]
    }

    /// The lines across the plot and the numbers at its axes.
    fn grid(&self, out: &mut String) {
        for x in (0..=self.most[0] as usize).step_by(self.steps[0]) {
            let [at, _] = self.at((x as f64, 0.0));
            straight(out, "grid", [at, TOP], [at, TOP + HEIGHT]);
            text(out, "quiet", "middle", [at, TOP + HEIGHT + 18.0], &x.to_string());
        }
        for y in (0..=self.most[1] as usize).step_by(self.steps[1]) {
            let [_, at] = self.at((0.0, y as f64));
            straight(out, "grid", [LEFT, at], [LEFT + WIDTH, at]);
            text(out, "quiet", "end", [LEFT - 8.0, at + 4.0], &y.to_string());
        }
    }

    /// The whole figure.
    pub fn svg(&self, lines: &[Line]) -> String {
        let [width, height] = SIZE;
        let mut out = format!("<svg xmlns=\"http://www.w3.org/2000/svg\" viewBox=\"0 0 {width} {height}\" width=\"{width}\" height=\"{height}\">\n<style>{STYLE}\n{THIRD}</style>\n");
        writeln!(out, r#"<rect class="ground" width="{width}" height="{height}"/>"#).expect("text is written");
        text(&mut out, "title", "start", [LEFT, 24.0], self.title);
        self.grid(&mut out);
        text(&mut out, "", "middle", [LEFT + WIDTH / 2.0, TOP + HEIGHT + 42.0], self.axes[0]);
        text(&mut out, "quiet", "start", [LEFT, TOP - 8.0], self.axes[1]);
        for (i, line) in lines.iter().enumerate() {
            let path: Vec<String> = line.points.iter().map(|point| self.at(*point)).map(|[x, y]| format!("{x:.1},{y:.1}")).collect();
            writeln!(out, r#"<polyline class="line s{i}" points="{}"/>"#, path.join(" ")).expect("text is written");
            let x = LEFT + 200.0 * i as f64;
            straight(&mut out, &format!("line s{i}"), [x, 40.0], [x + 30.0, 40.0]);
            text(&mut out, "", "start", [x + 36.0, 44.0], line.name);
        }
        out + "</svg>\n"
    }
}
