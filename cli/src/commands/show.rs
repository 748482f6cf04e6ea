//! `show`: a table as text.

use crate::arguments::{Call, Opt, Command, NAMES, OUT, STATES, SYMBOLS};
use crate::exit::{Failure, Outcome, Status};
use crate::facts::Facts;
use crate::files::Spared;
use crate::input::{self, Input};
use crate::model::Table;
use crate::names::Names;
use crate::{ats, text};
use std::path::Path;

const FACTS: Opt = Opt { name: "--facts", value: "", says: "end with comments on states that serve no script" };

const ATS: Opt = Opt { name: "--ats", value: "", says: "print AutomataScript, for Ultimate's Automata Library" };

pub const COMMAND: Command = Command {
    name: "show",
    summary: "print a table as text",
    usage: "TABLE [--names TEXT] [--facts] [--ats] [-o OUT]",
    help: "\
Prints the text of a table, from which `make` makes it again to the byte. Where no text gives names, a symbol is i, c or r by its kind and a state q,
each with its number. A return that no run can take has the comment `dead`. `basilvault make --help` describes the text.

With --ats it prints AutomataScript, from which `make` makes the table again to the byte too. It has no place for marks: a table with some is refused. What
else it has no place for, the order of symbols of different kinds and the version 2, stands in comments.

Example:

    basilvault show tables/t.bin --names tables/t.txt
",
    least: 1,
    most: 1,
    options: &[FACTS, ATS, NAMES, OUT, STATES, SYMBOLS],
    run,
};

/// Shows the table.
fn run(call: &Call) -> Outcome {
    let (limits, input) = input::first(call)?;
    let (table, names) = input.named(limits, call)?;
    let tops = basilvault::tops_within(limits, &input.bytes).map_err(|refusal| input.refused(refusal))?;
    let spared = Spared::of([call.file(0)].into_iter().chain(call.path(NAMES.name)));
    let out = call.path(OUT.name).unwrap_or(Path::new("-"));
    let facts = if call.has(FACTS.name) { Facts::of(&table, &tops).told(&names) } else { Vec::new() };
    let (text, sign) = if call.has(ATS.name) { (script(&input, &table, &names)?, "//") } else { (text::show(&table, &names, Some(&tops)), "#") };
    let facts: String = facts.iter().map(|fact| format!("{sign} {fact}\n")).collect();
    spared.write(out, (text + &facts).as_bytes()).map(|()| Status::Done)
}

/// The table as AutomataScript, where no state has a mark.
fn script(input: &Input, table: &Table, names: &Names) -> Result<String, Failure> {
    ats::show(table, names).map_err(|q| {
        let (file, name, mark) = (input.file.display(), names.state(q), names.mark(table.states[usize::from(q)].mark));
        Failure::Mistaken(vec![format!("basilvault: {file}: the state {name} has the mark {mark}, and AutomataScript has no place for marks")])
    })
}
