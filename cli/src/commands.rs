//! The commands, each in a module of its own.

mod check;
mod choose;
mod clauses;
mod combine;
mod compare;
mod completions;
mod draw;
mod fit;
mod generate;
mod make;
mod manual;
mod propose;
mod quotient;
mod records;
mod reduce;
mod report;
mod script;
mod season;
mod show;
mod tops;
mod uses;
mod why;

use crate::answer::{failed, streams};
use crate::arguments::{Call, Command};
use crate::exit::{Failure, Outcome, Status, say};
use crate::help;
use crate::lexer::{meant, nearest};
use std::ffi::{OsStr, OsString};

/// All commands, in the order of the help.
const COMMANDS: &[&Command] = &[
    &reduce::COMMAND,
    &check::COMMAND,
    &quotient::COMMAND,
    &tops::COMMAND,
    &clauses::COMMAND,
    &script::COMMAND,
    &records::COMMAND,
    &uses::COMMAND,
    &season::COMMAND,
    &generate::COMMAND,
    &fit::COMMAND,
    &compare::COMMAND,
    &combine::COMMAND,
    &choose::COMMAND,
    &propose::COMMAND,
    &make::COMMAND,
    &show::COMMAND,
    &draw::COMMAND,
    &report::COMMAND,
    &why::COMMAND,
    &completions::COMMAND,
    &manual::COMMAND,
];

/// Runs what the arguments ask for, and says on standard error why it ended early.
pub fn run(arguments: &[OsString]) -> Status {
    outcome(arguments).unwrap_or_else(|failure| failure.tell())
}

/// The command with a name.
fn named(name: &OsStr) -> Result<&'static Command, Failure> {
    let found = COMMANDS.iter().find(|command| command.name == name);
    found.copied().ok_or_else(|| {
        let nearest = nearest(&name.to_string_lossy(), COMMANDS.iter().map(|command| command.name));
        Failure::Wrong(format!("there is no command {}{}", name.display(), meant(nearest)), None)
    })
}

/// What the arguments come to.
fn outcome(arguments: &[OsString]) -> Outcome {
    let (first, rest) = arguments.split_first().ok_or_else(|| Failure::Wrong("a command is missing".into(), None))?;
    let said = match first.to_str() {
        Some("--version" | "-V") => format!("basilvault {}\n", env!("CARGO_PKG_VERSION")),
        Some("--help" | "-h" | "help") => match rest.first() {
            Some(name) => help::of(named(name)?),
            None => help::general(COMMANDS),
        },
        _ => {
            let command = named(first)?;
            let asked = rest.iter().take_while(|argument| *argument != "--").any(|argument| argument == "--help" || argument == "-h");
            if !asked {
                let done = Call::of(command, rest).and_then(|call| (command.run)(&call).or_else(|failure| failed(&call, None, streams(&call), failure)));
                // where a call is wrong, its own command's help says more
                return done.map_err(|failure| match failure {
                    Failure::Wrong(text, _) => Failure::Wrong(text, Some(command.name)),
                    other => other,
                });
            }
            help::of(command)
        }
    };
    say(said.as_bytes()).map(|()| Status::Done)
}
