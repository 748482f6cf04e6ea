//! `clauses`: which pairs of states exclude or force which.

use crate::answer::{self, JSON};
use crate::arguments::{Call, Command, NAMES, Opt, ROOM, STATES, SYMBOLS};
use crate::exit::{Failure, Outcome, Status};
use crate::input;
use crate::json::{self, Fields};
use crate::names::Names;
use crate::progress::Progress;
use crate::solver;

const DIMACS: Opt = Opt { name: "--dimacs", value: "", says: "print them as DIMACS, for a solver" };
pub const TURNED: Opt = Opt { name: "--turned", value: "", says: "with every sign turned: most solvers then prefer joined pairs" };

pub const COMMAND: Command = Command {
    name: "clauses",
    summary: "print which pairs of states exclude or force which",
    usage: "TABLE [--dimacs [--turned]]",
    help: "\
Prints the clauses, one a line, and how many there are: a pair in braces says that its two states are joined, and one of the parts of each line must be
true. Transitivity is among them. As DIMACS, the variable of a pair is named in a comment.

Example:

    basilvault clauses tables/t.txt
",
    least: 1,
    most: 1,
    options: &[DIMACS, TURNED, JSON, NAMES, ROOM, STATES, SYMBOLS],
    run,
};

/// Prints the clauses.
fn run(call: &Call) -> Outcome {
    if call.has(DIMACS.name) && call.has(JSON.name) {
        return Err(Failure::Wrong("--dimacs and --json cannot both be given".into(), None));
    }
    let (limits, input) = input::first(call)?;
    let (_, names) = input.named(limits, call)?;
    let progress = Progress::start("clauses", 1);
    let mut list = vec![0; call.room()?];
    let listed = basilvault::clauses_within(limits, &input.bytes, &mut list).map_err(|refusal| input.refused(refusal))?;
    let list = &list[..listed.words];
    let pairs: Vec<_> = (0..names.states.len()).flat_map(|q| (0..q).map(move |p| (p, q))).collect();
    let text = || match call.has(DIMACS.name) {
        true => dimacs(list, &pairs, &names, call.has(TURNED.name)),
        false => format!("{}clauses {} words {}", readable(list, &pairs, &names), listed.clauses, listed.words),
    };
    let shown = answer::shown(call, call.file(0), Status::Done, text, || {
        let mut fields: Fields = vec![("clauses", listed.clauses.into()), ("words", listed.words.into())];
        fields.push(("variables", json::list(pairs.iter().map(|&(p, q)| json::list([&names.states[p], &names.states[q]])))));
        fields.push(("list", json::list(solver::clauses(list).map(|clause| json::list(clause.iter().copied())))));
        fields
    });
    drop(progress);
    answer::put(false, shown.trim_end()).map(|()| Status::Done)
}

/// A pair by its names.
fn pair((p, q): (usize, usize), names: &Names) -> String {
    format!("{{{}, {}}}", names.states[p], names.states[q])
}

/// The clauses in words.
fn readable(list: &[u16], pairs: &[(usize, usize)], names: &Names) -> String {
    let literal = |literal: &u16| {
        let not = if literal % 2 == 1 { "not " } else { "" };
        format!("{not}{}", pair(pairs[usize::from(literal / 2)], names))
    };
    solver::clauses(list).map(|clause| clause.iter().map(literal).collect::<Vec<_>>().join(" or ") + "\n").collect()
}

/// The clauses as DIMACS, with the pair of each variable.
fn dimacs(list: &[u16], pairs: &[(usize, usize)], names: &Names, turned: bool) -> String {
    let not = if turned { "not " } else { "" };
    let comments: String = pairs.iter().enumerate().map(|(variable, &states)| format!("c {} is {not}{}\n", variable + 1, pair(states, names))).collect();
    comments + &solver::dimacs(list, pairs.len(), turned)
}
