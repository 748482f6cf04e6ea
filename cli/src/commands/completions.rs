//! `completions`: what a shell completes.

use crate::arguments::{Call, Command};
use crate::exit::{Failure, Outcome, Status, say};
use crate::lexer::{meant, nearest};
use crate::shells::SHELLS;

pub const COMMAND: Command = Command {
    name: "completions",
    summary: "print what a shell needs to complete commands and options",
    usage: "{bash | zsh | fish}",
    help: "\
Prints a script for the shell, which then completes commands, options, and the names of files and folders. For bash it is read in by ~/.bashrc, for zsh by
~/.zshrc after compinit, or put as _basilvault into a folder of fpath; for fish it is put into ~/.config/fish/completions/basilvault.fish.

Example:

    source <(basilvault completions bash)
",
    least: 1,
    most: 1,
    options: &[],
    run,
};

/// Prints the script.
fn run(call: &Call) -> Outcome {
    let name = call.plain[0].to_string_lossy();
    let found = SHELLS.iter().find(|(shell, _)| *shell == name);
    let (_, script) = found.ok_or_else(|| {
        let all: Vec<_> = SHELLS.iter().map(|(shell, _)| *shell).collect();
        let meant = meant(nearest(&name, all.iter().copied()));
        Failure::Wrong(format!("there are completions for {}, and not for {name}{meant}", all.join(", ")), None)
    })?;
    say(script(super::COMMANDS).as_bytes()).map(|()| Status::Done)
}
