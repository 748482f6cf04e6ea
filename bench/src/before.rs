//! What has been gained: instructions against those recorded of version 0.1 on the same inputs.

use crate::inputs::LABELS;
use crate::report::{Row, cells, heading};

/// The record; its first lines say what it holds.
const RECORDED: &str = include_str!("../before.txt");

/// The stages that are recorded by their ratio to plain Rust, in the record's order.
const BY_RATIO: [&str; 4] = ["clauses", "search", "check", "quotient"];

/// How many columns there are: those, reduce by counts, and reduce by its ratio.
const COLUMNS: usize = 6;

/// A line of the record: its group, the input's label, and the numbers that it has.
struct Line {
    group: &'static str,
    label: Vec<&'static str>,
    numbers: Vec<Option<f64>>,
}

impl Line {
    /// The line of a text.
    fn new(text: &'static str) -> Line {
        let words: Vec<&str> = text.split_whitespace().collect();
        assert_eq!(words.len(), 13, "{text}");
        let number = |word: &&str| if *word == "-" { None } else { Some(word.parse().expect("a number")) };
        Line { group: words[0], label: words[1..7].to_vec(), numbers: words[7..].iter().map(number).collect() }
    }

    /// What was counted now of a stage on the line's input.
    fn now<'a>(&self, stage: &str, rows: &'a [Row]) -> &'a Row {
        let found = rows.iter().find(|row| row.stage == stage && row.label.split_whitespace().eq(self.label.iter().copied()));
        found.unwrap_or_else(|| panic!("{stage}: {:?} is recorded, and no input", self.label))
    }

    /// Now over before, by columns.
    fn gains(&self, rows: &[Row]) -> [Option<f64>; COLUMNS] {
        let mut gains = [None; COLUMNS];
        for (i, stage) in BY_RATIO.iter().enumerate() {
            gains[i] = self.numbers[2 + i].map(|ratio| self.now(stage, rows).ratio() / ratio);
        }
        if let [Some(library), Some(plain), ..] = self.numbers[..] {
            let reduce = self.now("reduce", rows);
            gains[4] = Some(reduce.library / library);
            gains[5] = Some(reduce.ratio() / (library / plain));
        }
        gains
    }
}

/// A line of the table.
fn line(label: &[&str], gains: &[Option<f64>]) {
    let shown: Vec<String> = gains.iter().map(|gain| gain.map_or(String::new(), |x| format!("{x:.2}"))).collect();
    cells(label.iter().copied().chain(shown.iter().map(String::as_str)));
}

/// The gains of every input, then their mean and the greatest of each stage over the tables of more than 4 states, the hard ones apart.
pub fn print(rows: &[Row]) {
    let recorded: Vec<Line> = RECORDED.lines().filter(|l| !l.starts_with('#')).map(Line::new).collect();
    assert_eq!(recorded.iter().filter(|l| l.group != "list").count(), rows.iter().filter(|row| row.stage == "reduce").count(), "every input is recorded");
    heading("before");
    let heads = LABELS.split(' ').chain(BY_RATIO).chain(["reduce", "reduce by ratio"]);
    cells(heads.clone());
    cells(heads.map(|_| "---"));
    let gains: Vec<_> = recorded.iter().map(|l| l.gains(rows)).collect();
    recorded.iter().zip(&gains).for_each(|(l, gains)| line(&l.label, gains));
    let usual = |i: usize| recorded.iter().zip(&gains).filter(|(l, _)| l.group == "table").filter_map(move |(_, gains)| gains[i]);
    let mean = |i: usize| usual(i).sum::<f64>() / usual(i).count() as f64;
    let greatest = |i: usize| usual(i).fold(0.0, f64::max);
    line(&["mean", "", "", "", "", ""], &std::array::from_fn::<_, COLUMNS, _>(|i| Some(mean(i))));
    line(&["greatest", "", "", "", "", ""], &std::array::from_fn::<_, COLUMNS, _>(|i| Some(greatest(i))));
    println!();
}
