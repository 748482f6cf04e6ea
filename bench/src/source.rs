//! The source's own experiments on random automata, at the 40 states that a table may have: Appendix A's, pairs joined by the search and at most; and Figure
//! 4's, states left by density. Nothing is timed.

use crate::automata::{Model, trimmed};
use crate::curve::{Figure, Line};
use crate::inputs::BUDGET;
use crate::report::{heading, heads};
use basilvault::Reduced;
use basilvault_cli::model::Table;
use basilvault_cli::solver::clauses;
use basilvault_tests::random::Random;
use basilvault_tests::reference::LARGEST;
use std::fmt::Write as _;
use std::io::Write as _;
use std::process::{Command, Stdio};

/// The states of every table.
const STATES: usize = 40;

/// Tables of each row of the comparison, and of each point of the curve.
const TABLES: u64 = 100;
const POINT: u64 = 40;

/// Seconds that z3 may take for a table.
const PATIENCE: usize = 10;

/// The clause list of a table, transitivity included or not, is written into this.
struct Room(Vec<u16>);

impl Room {
    /// What the library makes of a table.
    fn reduced(&mut self, table: &Table) -> Reduced {
        let bytes = table.to_bytes();
        let (mut map, mut out) = (vec![0; table.states.len()], vec![0; bytes.len()]);
        basilvault::reduce_within(LARGEST, &bytes, BUDGET, &mut self.0, &mut map, &mut out).expect("a table with room enough")
    }

    /// The most pairs that can be joined, as z3 finds it in the time that it may take.
    fn optimum(&mut self, table: &Table) -> Option<usize> {
        let listed = basilvault::clauses_within(LARGEST, &table.to_bytes(), &mut self.0).expect("a table with room enough");
        let pairs = table.states.len() * (table.states.len() - 1) / 2;
        let answer = z3(&problem(&self.0[..listed.words], pairs))?;
        let cost: usize = answer.split("(objectives").nth(1)?.split(['(', ')', ' ', '\n']).find_map(|word| word.parse().ok())?;
        answer.starts_with("sat").then_some(pairs - cost)
    }
}

/// The clauses, and a wish that each pair be joined.
fn problem(list: &[u16], pairs: usize) -> String {
    let mut text = String::new();
    (0..pairs).for_each(|v| writeln!(text, "(declare-const v{v} Bool)(assert-soft v{v} :weight 1)").expect("text is written"));
    for clause in clauses(list) {
        let literals: Vec<String> = clause.iter().map(|l| if l % 2 == 1 { format!("(not v{})", l / 2) } else { format!("v{}", l / 2) }).collect();
        writeln!(text, "(assert (or {}))", literals.join(" ")).expect("text is written");
    }
    text + "(check-sat)(get-objectives)\n"
}

/// What z3 says, where it is installed and comes to its end.
fn z3(problem: &str) -> Option<String> {
    let mut child = Command::new("z3").args([&format!("-T:{PATIENCE}"), "-in"]).stdin(Stdio::piped()).stdout(Stdio::piped()).spawn().ok()?;
    child.stdin.take()?.write_all(problem.as_bytes()).ok()?;
    String::from_utf8(child.wait_with_output().ok()?.stdout).ok()
}

/// A row of Appendix A's comparison. Where the search has joined as many pairs as no map can exceed, that is the optimum; else z3 is asked.
fn row(room: &mut Room, density: usize) {
    let model = Model { states: STATES, symbols: 2, accepting: 50, transitions: density, stacks: 100 };
    let (mut joined, mut ceiling, mut at_ceiling, mut spent, mut asked, mut told, mut most, mut equal) = (0, 0, 0, 0, 0, 0, 0, 0);
    for seed in 0..TABLES {
        let table = model.table(&mut Random::new(1_000 * density as u64 + seed));
        let reduced = room.reduced(&table);
        joined += reduced.joined;
        ceiling += reduced.ceiling;
        spent += usize::from(reduced.spent);
        let optimum = if reduced.joined == reduced.ceiling {
            at_ceiling += 1;
            Some(reduced.joined)
        } else {
            asked += 1;
            let optimum = room.optimum(&table);
            told += usize::from(optimum.is_some());
            optimum
        };
        most += optimum.unwrap_or(reduced.joined);
        equal += usize::from(optimum == Some(reduced.joined));
    }
    println!("| {density} | {TABLES} | {joined} | {most} | {ceiling} | {at_ceiling} | {told} of {asked} | {equal} | {spent} |");
}

/// Appendix A's comparison, and the same at lower densities, where there is more to join.
fn comparison(room: &mut Room) {
    heading("source pairs");
    heads("density in 100; tables; pairs joined; most that are known; ceiling; tables at the ceiling; optimum by z3; tables at the optimum; guesses spent");
    [10, 20, 30, 40, 60, 80, 100].into_iter().for_each(|density| row(room, density));
    println!();
}

/// The means of a point of Figure 4: states without dead ends, these reduced, and all states reduced.
fn point(room: &mut Room, density: usize) -> [f64; 3] {
    let model = Model { states: STATES, symbols: 1, accepting: 50, transitions: density, stacks: 50 };
    let mut sums = [0; 3];
    for seed in 0..POINT {
        let table = model.table(&mut Random::new(7_000_000 + 1_000 * density as u64 + seed));
        let live = trimmed(&table);
        let left = live.as_ref().map_or([0, 0], |live| [live.states.len(), room.reduced(live).classes]);
        let all = room.reduced(&table).classes;
        [left[0], left[1], all].iter().zip(&mut sums).for_each(|(states, sum)| *sum += states);
    }
    sums.map(|sum| sum as f64 / POINT as f64)
}

/// Prints both, and draws the curve into a file.
pub fn print(file: &str) {
    let mut room = Room(vec![0; basilvault::MOST_WORDS]);
    comparison(&mut room);
    heading("source states");
    heads("density in 100; without dead ends; and reduced; reduced alone");
    let mut lines = ["without dead ends", "and reduced", "reduced alone"].map(|name| Line { name, points: Vec::new() });
    for density in (10..=200).step_by(10) {
        let means = point(&mut room, density);
        println!("| {density} | {:.1} | {:.1} | {:.1} |", means[0], means[1], means[2]);
        lines.iter_mut().zip(means).for_each(|(line, mean)| line.points.push((density as f64, mean)));
    }
    println!();
    let title = "States left of 40, by the transition density of random automata";
    let figure = Figure { title, axes: ["transitions of a symbol, in 100 of the states", "states"], most: [200.0, 40.0], steps: [20, 10] };
    std::fs::write(file, figure.svg(&lines)).expect("the figure is written");
}
