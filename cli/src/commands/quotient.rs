//! `quotient`: the smaller table of a map.

use crate::answer::{self, JSON};
use crate::arguments::{Call, Command, NAMES, OUT, STATES, SYMBOLS, TEXT};
use crate::exit::{Outcome, Status};
use crate::files::{Spared, one_streams};
use crate::{input, maps, model, text};
use basilvault::LONGEST_FILE;

pub const COMMAND: Command = Command {
    name: "quotient",
    summary: "write the smaller table that a map gives",
    usage: "TABLE MAP [-o OUT] [--text FILE]",
    help: "\
Checks the map and writes the table with one state a class. It accepts the same scripts. Prints how many states, classes and bytes there are, on
standard error where standard output takes the table.

Example:

    basilvault quotient tables/t.bin small.map -o small.bin
    basilvault quotient tables/t.txt small.map --text -
",
    least: 2,
    most: 2,
    options: &[OUT, TEXT, JSON, NAMES, STATES, SYMBOLS],
    run,
};

/// Writes the quotient.
fn run(call: &Call) -> Outcome {
    let outs = [call.path(OUT.name), call.path(TEXT.name)];
    one_streams(outs)?;
    let (limits, input, table, names, map) = input::with_map(call)?;
    let mut small = [0; LONGEST_FILE];
    let written = basilvault::quotient_within(limits, &input.bytes, &map.classes, &mut small);
    let written = written.map_err(|refusal| map.refused(&input, &table, &names, refusal))?;
    let small = &small[..written];
    let quotient = model::Table::from_bytes(limits, small).map_err(|refusal| input.refused(refusal))?;
    let shown = text::show(&quotient, &maps::class_names(&map.classes, &names, &quotient), None);
    let spared = Spared::of([call.file(0), call.file(1)].into_iter().chain(call.path(NAMES.name)));
    for (path, bytes) in outs.into_iter().zip([small, shown.as_bytes()]) {
        path.map_or(Ok(()), |path| spared.write(path, bytes))?;
    }
    let (states, classes) = (table.states.len(), quotient.states.len());
    let text = || format!("{}: states {states} classes {classes} bytes {written}", input.file.display());
    answer::tell(call, Status::Done, text, || vec![("states", states.into()), ("classes", classes.into()), ("length", written.into())])
}
