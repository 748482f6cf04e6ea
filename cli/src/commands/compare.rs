//! `compare`: two tables, both ways.

use crate::answer::{self, JSON};
use crate::arguments::{Call, Command, NAMES};
use crate::compared::{Compared, Fit};
use crate::exit::Outcome;
use crate::json::{Fields, list};
use crate::progress::Progress;

pub const COMMAND: Command = Command {
    name: "compare",
    summary: "compare two tables both ways: which scripts one of them alone accepts",
    usage: "FIRST SECOND",
    help: "\
Asks both ways whether every script of one table is accepted by the other. The first line is `equal`, with status 0, or `the first fits`, `the second fits` or `neither`, with
status 1; then a line for each table that alone accepts a script, with a shortest one. A table with a choice (38) cannot be fitted into: then a line says which way is not told,
and the status is 2. Symbols are matched as by `fit`.

Example:

    basilvault compare tables/t.txt tables/atlas.txt
",
    least: 2,
    most: 2,
    options: &[JSON, NAMES],
    run,
};

/// Compares the tables.
fn run(call: &Call) -> Outcome {
    let compared = Compared::of(call)?;
    let progress = Progress::start("compare", 1);
    let both = compared.both();
    drop(progress);
    let both = both?;
    let verdict = compared.verdict(&both);
    let text = || std::iter::once(verdict.head).chain(verdict.lines.iter().map(String::as_str)).collect::<Vec<_>>().join("\n");
    answer::tell(call, verdict.status, text, || fields(&both, &compared))
}

/// The answer for programs. What is not told has no field.
fn fields(both: &[Fit; 2], compared: &Compared) -> Fields {
    let mut fields: Fields = vec![("second", compared.second.file.display().to_string().into())];
    for (fit, [fits, alone]) in both.iter().zip([["first_fits", "first_alone"], ["second_fits", "second_alone"]]) {
        match fit {
            Fit::Yes => fields.push((fits, true.into())),
            Fit::No(script) => {
                fields.push((fits, false.into()));
                fields.extend(script.as_ref().map(|script| (alone, list(compared.words(script)))));
            }
            Fit::Refused(_) => {}
        }
    }
    fields
}
