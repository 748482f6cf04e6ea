//! `propose`: a solver's model as a map.

use super::clauses::TURNED;
use crate::answer::{self, JSON};
use crate::arguments::{Call, Command, NAMES, OUT, STATES, SYMBOLS};
use crate::exit::{Failure, Outcome, Status};
use crate::files::{self, Spared};
use crate::json::list;
use crate::maps::{self, Map};
use crate::{input, solver};

pub const COMMAND: Command = Command {
    name: "propose",
    summary: "make a map of a solver's model, which the check then judges",
    usage: "TABLE MODEL [--turned] [-o MAP]",
    help: "\
Makes the map of an assignment of the clauses that `clauses --dimacs` prints, as minisat, cadical and other solvers print it. The solver is not trusted: the
map is written only where the check accepts it. A model of the clauses as they are is always accepted. With --turned the model is one of the clauses with
every sign turned, which `clauses --dimacs --turned` prints.

Example:

    basilvault clauses tables/t.txt --dimacs --turned > t.cnf
    cadical -q --lucky=0 --phase=0 t.cnf > t.model
    basilvault propose tables/t.txt t.model --turned -o t.map
",
    least: 2,
    most: 2,
    options: &[TURNED, OUT, JSON, NAMES, STATES, SYMBOLS],
    run,
};

/// Makes the map, has it checked and writes it.
fn run(call: &Call) -> Outcome {
    let (limits, input) = input::first(call)?;
    let (table, names) = input.named(limits, call)?;
    let (file, states) = (call.file(1), table.states.len());
    let text = String::from_utf8_lossy(&files::read(file)?).into_owned();
    let values = solver::model(&text, states * states.saturating_sub(1) / 2);
    let values = values.map_err(|why| Failure::Mistaken(vec![format!("basilvault: {}: not a model of the table: {why}", file.display())]))?;
    let turned = call.has(TURNED.name);
    let map = Map::of(file, solver::map_of(&values.iter().map(|value| value != &turned).collect::<Vec<_>>(), states));
    let checked = basilvault::check_within(limits, &input.bytes, &map.classes);
    let classes = checked.map_err(|refusal| map.refused(&input, &table, &names, refusal))?;
    let joined = maps::joined(&map.classes);
    let own = input.own_names().or(call.has(NAMES.name).then_some(&names));
    if let Some(out) = call.path(OUT.name) {
        Spared::of([call.file(0), file]).write(out, maps::shown(&map.classes, own).as_bytes())?;
    }
    let text = || format!("{}: states {states} classes {classes} joined {joined}", file.display());
    let fields = || vec![("states", states.into()), ("classes", classes.into()), ("joined", joined.into()), ("map", list(map.classes.iter().copied()))];
    answer::tell(call, Status::Done, text, fields)
}
