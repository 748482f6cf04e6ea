//! What is printed: a line for each stage and input, and tables. A table that the README shows stands under a line that names it, for `bench/tables`.

use crate::inputs::{LABELS, SYMBOLS};

/// A stage on an input by the library and in plain Rust.
pub struct Row {
    pub stage: &'static str,
    pub label: String,
    pub library: f64,
    pub plain: f64,
}

impl Row {
    /// The library's over plain Rust's.
    pub fn ratio(&self) -> f64 {
        self.library / self.plain
    }
}

/// The line that names the table after it.
pub fn heading(name: &str) {
    println!("<!-- table {name} -->\n");
}

/// A line of a table.
pub fn cells<'a>(words: impl Iterator<Item = &'a str>) {
    println!("| {} |", words.collect::<Vec<_>>().join(" | "));
}

/// The first two lines of a table, whose heads are parted by semicolons.
pub fn heads(all: &str) {
    cells(all.split("; "));
    cells(all.split("; ").map(|_| "---"));
}

/// Every row.
fn lines(rows: &[Row], unit: &str) {
    println!("{:8} {LABELS} {:>12} {:>12} ratio", "stage", format!("library {unit}"), format!("plain {unit}"));
    for row in rows {
        println!("{:8} {} {:12.0} {:12.0} {:5.2}", row.stage, row.label, row.library, row.plain, row.ratio());
    }
    println!();
}

/// The rows of reduce.
fn reductions(rows: &[Row], unit: &str) {
    heading(&format!("reduce {unit}"));
    heads(&format!("{}; library {unit}; plain {unit}; ratio", LABELS.replace(' ', "; ")));
    for row in rows.iter().filter(|row| row.stage == "reduce") {
        let numbers = [format!("{:.0}", row.library), format!("{:.0}", row.plain), format!("{:.2}", row.ratio())];
        cells(row.label.split_whitespace().chain(numbers.iter().map(String::as_str)));
    }
    println!();
}

/// The rows of the scripts, by symbols; of their labels the states and the bytes.
fn scripts(rows: &[Row], unit: &str) {
    heading(&format!("scripts {unit}"));
    heads(&format!("states; bytes; library {unit}; plain {unit}; ratio"));
    for row in rows.iter().filter(|row| row.stage == "script") {
        let words: Vec<&str> = row.label.split_whitespace().collect();
        let [library, plain] = [row.library, row.plain].map(|x| x / SYMBOLS as f64);
        println!("| {} | {} | {library:.0} | {plain:.0} | {:.2} |", words[0], words[3], row.ratio());
    }
    println!();
}

/// Each of them once, in their order.
fn once<'a>(all: impl Iterator<Item = &'a str>) -> Vec<&'a str> {
    let mut seen = Vec::new();
    all.for_each(|x| if !seen.contains(&x) { seen.push(x) });
    seen
}

/// The ratios, a line for each input and a column for each stage but the scripts, which have inputs of their own, then the greatest of each stage.
fn ratios(rows: &[Row], unit: &str) {
    let rows: Vec<&Row> = rows.iter().filter(|row| row.stage != "script").collect();
    let stages = once(rows.iter().map(|row| row.stage));
    heading(&format!("ratios {unit}"));
    heads(&format!("{}; {}", LABELS.replace(' ', "; "), stages.join("; ")));
    for label in once(rows.iter().map(|row| row.label.as_str())) {
        let row = |stage: &&str| rows.iter().find(|row| row.stage == *stage && row.label == label);
        let found: Vec<String> = stages.iter().map(|stage| row(stage).map_or(String::new(), |row| format!("{:.2}", row.ratio()))).collect();
        cells(label.split_whitespace().chain(found.iter().map(String::as_str)));
    }
    let greatest = |stage: &&str| rows.iter().filter(|row| row.stage == *stage).map(|row| row.ratio()).fold(0.0, f64::max);
    let last: Vec<String> = stages.iter().map(|stage| format!("{:.2}", greatest(stage))).collect();
    cells(LABELS.split(' ').enumerate().map(|(i, _)| if i == 0 { "greatest" } else { "" }).chain(last.iter().map(String::as_str)));
    println!();
}

/// All of it.
pub fn print(rows: &[Row], unit: &str) {
    lines(rows, unit);
    reductions(rows, unit);
    ratios(rows, unit);
    scripts(rows, unit);
}
