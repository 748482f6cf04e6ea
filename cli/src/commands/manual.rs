//! `manual`: the help as pages for `man`.

use crate::arguments::{Call, Command, INTO};
use crate::exit::{Failure, Outcome, Status, say};
use crate::files::{Spared, folder};
use crate::manual;

pub const COMMAND: Command = Command {
    name: "manual",
    summary: "write the help as pages for man",
    usage: "[COMMAND | --into FOLDER]",
    help: "\
Prints the page of the whole, or of a command, as `man` reads it. With --into all pages are written to man1 and man3 in the folder: one for the whole, one for each command,
and one for the functions of the library for C. `library --prefix` puts them into share/man.

Example:

    basilvault manual reduce | man -l -
    basilvault manual --into ~/.local/share/man
",
    least: 0,
    most: 1,
    options: &[INTO],
    run,
};

/// Prints a page, or writes them all.
fn run(call: &Call) -> Outcome {
    let commands = super::COMMANDS;
    match (call.plain.first(), call.path(INTO.name)) {
        (Some(_), Some(_)) => Err(Failure::Wrong("a COMMAND and --into cannot both be given".into(), None)),
        (Some(name), None) => say(manual::of(super::named(name)?).as_bytes()).map(|()| Status::Done),
        (None, None) => say(manual::general(commands).as_bytes()).map(|()| Status::Done),
        (None, Some(into)) => {
            let pages = commands.iter().map(|command| (format!("man1/basilvault-{}.1", command.name), manual::of(command)));
            let whole = [("man1/basilvault.1".to_string(), manual::general(commands)), ("man3/basilvault.3".to_string(), manual::functions())];
            folder(&into.join("man1")).and_then(|()| folder(&into.join("man3")))?;
            for (name, page) in whole.into_iter().chain(pages) {
                Spared::default().write(&into.join(name), page.as_bytes())?;
            }
            Ok(Status::Done)
        }
    }
}
