//! `make`: a table from text.

use crate::arguments::{Call, Command, OUT, STATES, SYMBOLS};
use crate::exit::{Failure, Outcome, Status};
use crate::files::{self, Spared};
use crate::{ats, input, values};

pub const COMMAND: Command = Command {
    name: "make",
    summary: "make a table from its text",
    usage: "TEXT -o TABLE",
    help: "\
Writes the table that a text describes, which the library then reads. The text is lines of words, separated by spaces; # starts a comment:

    table 1                             the version, 1 or 2: the first line
    internal NAME                       symbols, numbered from 0 in this order
    call NAME
    return NAME
    mark NAME NUMBER                    in version 2, a name for a mark, 0 to 15
    state NAME                          states, numbered from 0 in this order;
    state NAME initial accepting        scripts start there, scripts end there;
    state NAME mark MARK                in version 2 a mark, by name or number
    STATE SYMBOL -> TARGET              moves of internals and calls
    STATE SYMBOL over STACK -> TARGET   moves of returns: the call left STACK

What is named stands in a line before; moves come in any order. A name has no blank and no #, is no number and none of the words table, internal, call, return, mark, state,
over and ->; no two symbols, states or marks have one name. A number is always the number of a symbol, state or mark, and can stand in a move for its
name. Mistakes are told as FILE:LINE:COLUMN, the first ten of them.

A file that ends in .ats, or starts with NestedWordAutomaton, is read as AutomataScript, the language of Ultimate's Automata Library: one automaton, whose
alphabets have no symbol in common. A script of a table is accepted with nothing left open; what Ultimate says of words with pending calls or returns has no place in it.

Example:

    basilvault make tables/t.txt -o t.bin
",
    least: 1,
    most: 1,
    options: &[OUT, STATES, SYMBOLS],
    run,
};

/// Makes the table.
fn run(call: &Call) -> Outcome {
    let (limits, file, out) = (call.limits()?, call.file(0), call.out()?);
    let given = files::read(file)?;
    // a table has no names, so those of a script may be such that a text cannot have
    let table = if ats::is_meant(file, &given) { input::from_script(file, &given)?.table } else { input::from_text(file, &given)?.0 };
    let bytes = table.to_bytes();
    basilvault::read_within(limits, &bytes).map_err(|refusal| Failure::Refused(file.display().to_string(), refusal, values::of_table(refusal, limits, &bytes)))?;
    Spared::of([file]).write(out, &bytes).map(|()| Status::Done)
}
