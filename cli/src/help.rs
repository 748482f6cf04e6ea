//! What the command says of itself.

use crate::arguments::{Opt, Command};
use std::fmt::Write;

/// What stands before the list of commands.
pub const BEFORE: &str = "\
basilvault COMMAND ARGUMENT..

Reduces, checks, compares and shows tables of map scripts. A table is a file of bytes, or a text as `basilvault make --help` describes it: every command
takes both. A name of - is standard input or output. `basilvault COMMAND --help` says more of a command, with an example.
";

/// What stands after it.
pub const AFTER: &str = "\
A map is a text: the class number of each state in turn, separated by spaces. What can be named, a state or a symbol, can be given by its number as well.

Status: 0 done, or yes; 1 no; 2 refused, with the number and its meaning on standard error, or a text with a mistake; 3 a file cannot be read or
written; 4 called wrongly. An output is written whole or not at all, and never over a file that is read. With --json a command that answers
prints an object for programs, a refusal too.
";

/// The columns that a paragraph takes.
const WIDE: usize = 80;

/// The help of the whole.
pub fn general(commands: &[&Command]) -> String {
    let list: String = commands.iter().map(|command| format!("    {:13}{}\n", command.name, command.summary)).collect();
    format!("{}\n{list}\n{}", flowing(BEFORE), flowing(AFTER))
}

/// The help of a command.
pub fn of(command: &Command) -> String {
    let text = flowing(command.help);
    let options: String =
        command.options.iter().map(|Opt { name, value, says }| format!("    {:18}{says}\n", format!("{name} {value}"))).collect();
    let (before, example) = text.split_once("Example:").unwrap_or((&text, ""));
    let options = if options.is_empty() { String::new() } else { format!("Options:\n\n{options}\n") };
    format!("basilvault {} {}\n\n{before}{options}Example:{example}", command.name, command.usage)
}

/// A text whose paragraphs are broken anew; lines that start with a blank stay.
fn flowing(text: &str) -> String {
    let (mut flown, mut column) = (String::new(), 0);
    for line in text.lines() {
        if line.is_empty() || line.starts_with(' ') {
            let _ = writeln!(flown, "{}{line}", if column > 0 { "\n" } else { "" });
            column = 0;
            continue;
        }
        for word in line.split(' ') {
            let length = word.chars().count();
            let (gap, start) = match column {
                0 => ("", 0),
                _ if column + 1 + length > WIDE => ("\n", 0),
                _ => (" ", column + 1),
            };
            let _ = write!(flown, "{gap}{word}");
            column = start + length;
        }
    }
    flown + if column > 0 { "\n" } else { "" }
}
