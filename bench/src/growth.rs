//! How the cost of a reduction grows with the states, the records and the guesses: instructions by callgrind, in a figure.

use crate::figure::{self, Panel, Series};
use crate::inputs::{BUDGET, Input, to_reduce};
use crate::instructions::{of_calls, once, stage};
use crate::stages::Buffers;
use basilvault_tests::reference::{LARGEST, Load, parse};
use std::hint::black_box;
use std::path::Path;

/// Room for the longest list.
const ROOM: usize = 1 << 24;

/// How many tables a point is the mean of, where they are random.
const SEEDS: u32 = 5;

/// A point of a panel: the tables whose mean it is, their guesses at most, and its place on the axis.
struct Point {
    x: f64,
    tables: Vec<Vec<u8>>,
    budget: u64,
}

/// Random tables of so many states, with two symbols of each kind and every possible record so often of 65,536 times. Every state is initial, so that all are reached.
fn random(states: usize, density: u32) -> Vec<Vec<u8>> {
    let table = |seed: u32| {
        let mut out = vec![0; 22_644];
        let load = Load { seed, states, internals: 2, calls: 2, returns: 2, density };
        let length = basilvault::generate_within(LARGEST, load, &mut out).expect("the table has room");
        out.truncate(length);
        out[6..6 + states].iter_mut().for_each(|state| *state |= 1);
        out
    };
    (1..=SEEDS).map(table).collect()
}

/// How many records a table has.
fn records(table: &[u8]) -> usize {
    let (t, _) = parse(LARGEST, table).expect("a table");
    t.internals.len() + t.calls.len() + t.returns.len()
}

/// Tables of 4 to 40 states: a move has a target every other time.
fn by_states() -> Vec<Point> {
    let point = |n: usize| Point { x: n as f64, tables: random(n, 32_768 / n as u32), budget: BUDGET };
    (1..=10).map(|i| point(4 * i)).collect()
}

/// Tables of 12 states, ever denser.
fn by_records() -> Vec<Point> {
    let point = |i: u32| {
        let tables = random(12, 1024 << i);
        let mean = tables.iter().map(|t| records(t)).sum::<usize>() as f64 / tables.len() as f64;
        Point { x: mean, tables, budget: BUDGET }
    };
    (0..6).map(point).collect()
}

/// A table that spends all guesses, with ever more of them.
fn by_guesses() -> Vec<Point> {
    let table = include_bytes!("../../tables/spent-24.bin");
    let budgets = [1, 3, 10, 30, 100, 300, 1000, 3000, 10_000, 30_000, 100_000];
    budgets.iter().map(|&budget| Point { x: budget as f64, tables: vec![table.to_vec()], budget }).collect()
}

/// The points of the three panels.
fn points() -> [Vec<Point>; 3] {
    [by_states(), by_records(), by_guesses()]
}

/// Every table of every point reduced once, by the library or in plain Rust; the answers.
fn answers(side: &str) -> Vec<(u8, [u64; 41])> {
    let mut buffers = Buffers { list: vec![7; ROOM], ..Buffers::new() };
    let points = points();
    let inputs = points.iter().flatten().flat_map(|point| point.tables.iter().map(|table| to_reduce(table.clone(), point.budget)));
    once(stage("reduce"), side, &inputs.collect::<Vec<Input>>(), &mut buffers)
}

/// The same for callgrind.
pub fn one(side: &str) {
    black_box(answers(side));
}

/// The means of the points of the panels, out of a number for each table.
fn means(points: &[Vec<Point>; 3], numbers: Vec<f64>) -> [Vec<(f64, f64)>; 3] {
    let mut rest = numbers.into_iter();
    let mut mean = |point: &Point| (point.x, rest.by_ref().take(point.tables.len()).sum::<f64>() / point.tables.len() as f64);
    let means = [0, 1, 2].map(|i| points[i].iter().map(&mut mean).collect());
    assert_eq!(rest.next(), None, "every number has its point");
    means
}

/// Counts, draws the figure into a file, and prints what it shows; callgrind's files go to a folder.
pub fn print(folder: &str, file: &str) {
    std::fs::create_dir_all(folder).expect("a folder for callgrind's files");
    let ours = answers("library");
    assert!(ours == answers("plain"), "both sides give the same answers");
    assert!(ours.iter().all(|answer| answer.0 == 0), "every table is reduced");
    assert_eq!(ours.last().map(|(_, values)| [values[1], values[6]]), Some([BUDGET, 1]), "the guesses are spent");
    let points = points();
    let [library, plain] = ["library", "plain"].map(|side| {
        let out = Path::new(folder).join(format!("growth.{side}"));
        means(&points, of_calls("*::counted", &["growth-one", side], ours.len(), &out))
    });
    let titles = [
        ("states", "6 symbols, half of the moves have a target", vec![4, 8, 16, 24, 40]),
        ("records", "12 states, 6 symbols, ever denser", vec![60, 120, 250, 500, 1000, 2000]),
        ("guesses", "24 states, 51 records, all guesses spent", vec![1, 10, 100, 1000, 10_000, 100_000]),
    ];
    let panels = titles.into_iter().zip(library).zip(plain).map(|(((axis, of, ticks), library), plain)| Panel {
        axis,
        of,
        ticks,
        series: [Series { name: "library", points: library }, Series { name: "plain Rust", points: plain }],
    });
    let panels: Vec<Panel> = panels.collect();
    figure::print(&panels);
    std::fs::write(file, figure::svg(&panels)).expect("the figure is written");
}
