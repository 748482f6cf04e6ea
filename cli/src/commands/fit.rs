//! `fit`: whether one table can stand in for another.

use crate::answer::{self, JSON};
use crate::arguments::{Call, Command, NAMES};
use crate::compared::{Compared, Fit};
use crate::exit::{Outcome, Status};
use crate::json::{Fields, list};
use crate::progress::Progress;

pub const COMMAND: Command = Command {
    name: "fit",
    summary: "compare two tables: whether the second accepts every script of the first",
    usage: "FIRST SECOND",
    help: "\
Prints yes or no, with status 0 or 1, and with no a script that the first table accepts and the second does not. Where both are texts, or --names names the first,
symbols are the same where their names are; else where their places are, and a line on standard error says so. Both tables have at most 24 states and 32 symbols, and the
second must have no choice: one initial state, and one target a move (38). `basilvault compare` asks both ways.

Example:

    basilvault fit tables/t.bin small.bin
",
    least: 2,
    most: 2,
    options: &[JSON, NAMES],
    run,
};

/// Compares the tables.
fn run(call: &Call) -> Outcome {
    let compared = Compared::of(call)?;
    let progress = Progress::start("fit", 1);
    let fit = compared.fit(false);
    drop(progress);
    let second = || ("second", compared.second.file.display().to_string().into());
    match fit {
        Fit::Yes => answer::tell(call, Status::Done, || "yes".into(), || vec![second(), ("fits", true.into())]),
        Fit::No(script) => {
            let text = || format!("no: {}", compared.alone("the first", &script));
            answer::tell(call, Status::No, text, || {
                let fields: Fields = vec![second(), ("fits", false.into())];
                fields.into_iter().chain(script.as_ref().map(|script| ("script", list(compared.words(script))))).collect()
            })
        }
        // what is left to refuse, 37 and 38, is of the second table
        Fit::Refused(refusal) => Err(compared.second.refused(refusal)),
    }
}
