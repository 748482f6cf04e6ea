//! `why`: why two states are joined, or stay apart.

use crate::answer::{self, JSON};
use crate::arguments::{BUDGET, Call, Opt, Command, NAMES, STATES, SYMBOLS};
use crate::exit::{Failure, Outcome, Status};
use crate::json::list;
use crate::progress::Progress;
use crate::maps::Map;
use crate::why::{self, Of};
use crate::lexer::{meant, nearest, quoted};
use crate::{input, names};

const MAP: Opt = Opt { name: "--map", value: "MAP", says: "the map to speak of, in place of the one that reduce delivers" };

pub const COMMAND: Command = Command {
    name: "why",
    summary: "tell why two states are joined, or stay apart",
    usage: "TABLE STATE STATE [--map MAP]",
    help: "\
Tells of two states, by their names or numbers, that the map which reduce delivers joins them, with the moves that match (status 0); or why it does not (status
1): a chain from the pair to what tells the two apart, such as accepting, a mark or a move that has no match, or to the pairs that are joined in their place. With
--map it speaks of that map, which the check must accept, and with --budget of a reduction with as many guesses.

Example:

    basilvault why tables/t.txt inside lost
",
    least: 3,
    most: 3,
    options: &[MAP, JSON, BUDGET, NAMES, STATES, SYMBOLS],
    run,
};

/// Tells it.
fn run(call: &Call) -> Outcome {
    let (limits, input) = input::first(call)?;
    let (table, names) = input.named(limits, call)?;
    let map = call.path(MAP.name).map(|file| Map::read(file, &names)).transpose()?;
    if let Some(map) = &map {
        basilvault::check_within(limits, &input.bytes, &map.classes).map_err(|refusal| map.refused(&input, &table, &names, refusal))?;
    }
    let state = |place: usize| {
        let word = call.plain[place].to_string_lossy();
        let found = names::find(&names.states, &word).filter(|&state| usize::from(state) < names.states.len());
        let meant = || meant(nearest(&word, names.states.iter().map(String::as_str)));
        let expected = || format!("basilvault: expected a state ({}), found {}{}", names.states.join(", "), quoted(&word), meant());
        found.ok_or_else(|| Failure::Mistaken(vec![expected()]))
    };
    let (p, q) = (state(1)?, state(2)?);
    let progress = Progress::start("why", 1);
    let file = call.path(MAP.name).map(|file| file.display().to_string()).unwrap_or_default();
    let of = map.as_ref().map_or(Of::Reduce, |map| Of::Map(&file, &map.classes));
    let answer = why::why(limits, &input.bytes, &names, (p, q), call.budget()?, of);
    drop(progress);
    let answer = answer.map_err(|refusal| input.refused(refusal))?;
    let text = answer.text.trim_end();
    answer::tell(call, Status::from(answer.joined), || text.into(), || vec![("joined", answer.joined.into()), ("reasons", list(text.lines()))])
}
