//! `tops`: what each state can have on top of the stack.

use crate::answer::{self, JSON};
use crate::arguments::{Call, Command, NAMES, STATES, SYMBOLS};
use crate::exit::{Outcome, Status};
use crate::input;
use crate::json::{Fields, Json, list};
use crate::names::Names;
use basilvault::BOTTOM;

pub const COMMAND: Command = Command {
    name: "tops",
    summary: "print what each state can have on top of the stack",
    usage: "TABLE",
    help: "\
Prints for each state the states that can be on top of the stack when a run is there, and `the empty stack` where nothing is open; then how many there are
in all. A state without any is never reached, and a return over a state that is not a top of its own is dead.

Example:

    basilvault tops tables/t.txt
",
    least: 1,
    most: 1,
    options: &[JSON, NAMES, STATES, SYMBOLS],
    run,
};

/// Prints the tops.
fn run(call: &Call) -> Outcome {
    let (limits, input) = input::first(call)?;
    let (_, names) = input.named(limits, call)?;
    let tops = basilvault::tops_within(limits, &input.bytes).map_err(|refusal| input.refused(refusal))?;
    let all = || names.states.iter().zip(tops.words);
    let text = || all().map(|(name, word)| line(name, word, &names)).collect::<String>() + &format!("tops {}", tops.found);
    let fields = || vec![("found", tops.found.into()), ("tops", list(all().map(|(name, word)| of_state(name, word, &names))))];
    answer::tell(call, Status::Done, text, fields)
}

/// The states that a word of tops has.
fn states(word: u64, names: &Names) -> impl Iterator<Item = &str> {
    (0..BOTTOM).filter(move |top| word >> top & 1 != 0).map(|top| names.state(top as u8))
}

/// The line of a state.
fn line(name: &str, word: u64, names: &Names) -> String {
    let all: Vec<_> = states(word, names).chain((word >> BOTTOM & 1 != 0).then_some("the empty stack")).collect();
    format!("{name}: {}\n", if all.is_empty() { "never reached".into() } else { all.join(", ") })
}

/// The object of a state.
fn of_state(name: &str, word: u64, names: &Names) -> Json {
    let fields: Fields = vec![("state", name.into()), ("tops", list(states(word, names))), ("bottom", (word >> BOTTOM & 1 != 0).into())];
    fields.into()
}
