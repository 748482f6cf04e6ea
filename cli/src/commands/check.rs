//! `check`: whether a map may be used.

use crate::answer::{self, JSON};
use crate::arguments::{Call, Command, NAMES, STATES, SYMBOLS};
use crate::exit::{Outcome, Status};
use crate::input;

pub const COMMAND: Command = Command {
    name: "check",
    summary: "check a map: whether the states that it joins may be joined",
    usage: "TABLE MAP",
    help: "\
Prints how many classes the map has where the check accepts it. A map that is not accepted is refused, by 15 to 20: the number says which condition is the
first that it breaks, and the message which states and moves break it. A map is the class number of each state in turn; or a line for each class, with the names of its states.

Example:

    basilvault reduce tables/t.bin --map small.map
    basilvault check tables/t.bin small.map
",
    least: 2,
    most: 2,
    options: &[JSON, NAMES, STATES, SYMBOLS],
    run,
};

/// Checks the map.
fn run(call: &Call) -> Outcome {
    let (limits, input, table, names, map) = input::with_map(call)?;
    let checked = basilvault::check_within(limits, &input.bytes, &map.classes);
    let classes = checked.map_err(|refusal| map.refused(&input, &table, &names, refusal))?;
    answer::tell(call, Status::Done, || format!("classes {classes}"), || vec![("classes", classes.into())])
}
