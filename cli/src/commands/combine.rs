//! `combine`: one table out of two.

use crate::arguments::{BUDGET, Call, Command, NAMES, OUT, Opt, STATES, SYMBOLS};
use crate::compared::Compared;
use crate::exit::{Failure, Outcome, Status, note, say};
use crate::files::{Spared, one_streams};
use crate::model::Table;
use crate::names::Names;
use crate::progress::Progress;
use crate::{maps, text};
use basilvault::{How, Limits, Refusal};
use std::collections::HashSet;

const EITHER: Opt = Opt { name: "--either", value: "", says: "the scripts that one of the two accepts, not those that both do" };
const REDUCE: Opt = Opt { name: "--reduce", value: "", says: "reduce both, combine them, and reduce the result" };
const TEXT: Opt = Opt { name: "--text", value: "FILE", says: "write it as text too, a pair of states named by both" };

pub const COMMAND: Command = Command {
    name: "combine",
    summary: "combine two tables into one: the scripts that both accept, or that one of them accepts",
    usage: "FIRST SECOND [-o OUT] [--either] [--reduce] [--text FILE]",
    help: "\
Writes one table out of two with equal symbols, matched as by `fit`. It accepts the scripts that both accept: its states are pairs, a state of the first with one
of the second, named a.b, and marks are the first's. With --either it accepts the scripts that one of the two accepts: its states are the first's, then the
second's. Prints how many states each has, and bytes, on standard error where standard output takes the table. State counts multiply, or add up, so they may
pass the limit (35): --reduce reduces both tables before they are combined, and the result after it.

Example:

    basilvault combine tables/t.txt tables/t.txt -o both.bin --reduce
    basilvault combine tables/t.txt tables/t.txt --either --text -
",
    least: 2,
    most: 2,
    options: &[OUT, TEXT, EITHER, REDUCE, NAMES, BUDGET, STATES, SYMBOLS],
    run,
};

/// A table with the names of its states.
struct Named {
    table: basilvault::Table,
    names: Names,
}

impl Named {
    /// How many states it has.
    fn states(&self) -> usize {
        self.table.counts().states
    }

    /// The same reduced, each class named by its states.
    fn reduced(self, limits: Limits, budget: u64) -> Result<Named, Refusal> {
        let reduction = self.table.reduce(budget)?;
        let small = Table::from_bytes(limits, reduction.table.bytes())?;
        Ok(Named { names: maps::class_names(&reduction.map, &self.names, &small), table: reduction.table })
    }
}

/// Combines the tables.
fn run(call: &Call) -> Outcome {
    let outs = [call.path(OUT.name), call.path(TEXT.name)];
    let streams = one_streams(outs)?;
    let (limits, budget) = (call.limits()?, call.budget()?);
    let how = if call.has(EITHER.name) { How::Union } else { How::Intersection };
    let compared = Compared::within(limits, call)?;
    let progress = Progress::start("combine", 1);
    let (made, line) = combined(&compared, limits, how, call.has(REDUCE.name).then_some(budget))?;
    drop(progress);
    let sections = Table::from_bytes(limits, made.table.bytes()).map_err(|refusal| compared.first.refused(refusal))?;
    let shown = text::show(&sections, &made.names, None);
    let spared = Spared::of([call.file(0), call.file(1)].into_iter().chain(call.path(NAMES.name)));
    for (path, bytes) in outs.into_iter().zip([made.table.bytes(), shown.as_bytes()]) {
        path.map_or(Ok(()), |path| spared.write(path, bytes))?;
    }
    if streams {
        note(&line);
        return Ok(Status::Done);
    }
    say(format!("{line}\n").as_bytes()).map(|()| Status::Done)
}

/// The table of two combined, reduced before and after where a budget is given, and what is said of it.
fn combined(compared: &Compared, limits: Limits, how: How, budget: Option<u64>) -> Result<(Named, String), Failure> {
    let [first, second] = pair(compared, limits)?;
    let mut line = format!("{}, {}: states {} {}", compared.first.file.display(), compared.second.file.display(), first.states(), second.states());
    let [first, second] = match budget {
        None => [first, second],
        Some(budget) => [
            first.reduced(limits, budget).map_err(|refusal| compared.first.refused(refusal))?,
            second.reduced(limits, budget).map_err(|refusal| compared.second.refused(refusal))?,
        ],
    };
    if budget.is_some() {
        line += &format!(" reduced to {} {}", first.states(), second.states());
    }
    let table = first.table.combine(&second.table, how).map_err(|refusal| refused(compared, limits, [&first, &second], refusal, budget.is_some()))?;
    let mut made = Named { names: names(&first.names, &second.names, how), table };
    line += &format!(" combined {}", made.states());
    if let Some(budget) = budget {
        made = made.reduced(limits, budget).map_err(|refusal| compared.first.refused(refusal))?;
        line += &format!(" reduced to {}", made.states());
    }
    line += &format!(" bytes {}", made.table.bytes().len());
    Ok((made, line))
}

/// The two tables with the names of their states.
fn pair(compared: &Compared, limits: Limits) -> Result<[Named; 2], Failure> {
    let [one, other] = &compared.tables;
    let first = basilvault::Table::read_within(limits, one.to_bytes()).map_err(|refusal| compared.first.refused(refusal))?;
    let second = basilvault::Table::read_within(limits, other.to_bytes()).map_err(|refusal| compared.second.refused(refusal))?;
    let [names, others] = compared.names.clone();
    Ok([Named { table: first, names }, Named { table: second, names: others }])
}

/// The failure of a combination that is refused, with the counts that it is about, and what may help.
fn refused(compared: &Compared, limits: Limits, [first, second]: [&Named; 2], refusal: Refusal, reduced: bool) -> Failure {
    let counts = format!("{} and {} states", first.states(), second.states());
    let help = if reduced { "" } else { "; --reduce may help" };
    match refusal {
        Refusal::Load => compared.second.refused_as(refusal, &format!("{counts}, at most {} combined{help}", limits.states)),
        Refusal::LoadRecords => compared.second.refused_as(refusal, &format!("{counts}{help}")),
        other => compared.second.refused(other),
    }
}

/// The names of the combination: symbols are the first's, marks the first's where it names them; no two states have one name.
fn names(first: &Names, second: &Names, how: How) -> Names {
    let pairs = || first.states.iter().flat_map(|one| second.states.iter().map(move |other| format!("{one}.{other}")));
    let all: Vec<String> = match how {
        How::Intersection => pairs().collect(),
        How::Union => first.states.iter().chain(&second.states).cloned().collect(),
    };
    let mut taken = HashSet::new();
    let free = |name: String| {
        let others = (2..).map(|number| format!("{name}.{number}"));
        let free = std::iter::once(name.clone()).chain(others).find(|name| !taken.contains(name)).unwrap_or_default();
        taken.insert(free.clone());
        free
    };
    let marks = std::array::from_fn(|mark| first.marks[mark].clone().or_else(|| second.marks[mark].clone()));
    Names { symbols: first.symbols.clone(), states: all.into_iter().map(free).collect(), marks }
}
