//! `draw`: a table as a graph.

use crate::arguments::{Call, Opt, Command, NAMES, OUT, STATES, SYMBOLS};
use crate::exit::{Outcome, Status};
use crate::files::Spared;
use crate::maps::Map;
use crate::draw::{self, Picture};
use crate::input;
use std::path::Path;

const MAP: Opt = Opt { name: "--map", value: "MAP", says: "the map whose classes are drawn" };

pub const COMMAND: Command = Command {
    name: "draw",
    summary: "draw a table as a graph for Graphviz",
    usage: "TABLE [--map MAP] [--names TEXT] [-o OUT]",
    help: "\
Prints the graph of a table in the language of Graphviz, whose program `dot` makes a picture of it. With a map that the check accepts, the states of a class
are drawn together. Each mark has a colour, whose name is told; a state that no run reaches is pale, and one from which nothing is accepted has a cross.

Example:

    basilvault draw tables/t.txt -o t.dot
    dot -Tsvg t.dot -o t.svg
",
    least: 1,
    most: 1,
    options: &[MAP, NAMES, OUT, STATES, SYMBOLS],
    run,
};

/// Draws the table.
fn run(call: &Call) -> Outcome {
    let (limits, input) = input::first(call)?;
    let (table, names) = input.named(limits, call)?;
    let map = call.path(MAP.name).map(|file| Map::read(file, &names)).transpose()?;
    let tops = basilvault::tops_within(limits, &input.bytes).map_err(|refusal| input.refused(refusal))?;
    if let Some(map) = &map {
        basilvault::check_within(limits, &input.bytes, &map.classes).map_err(|refusal| map.refused(&input, &table, &names, refusal))?;
    }
    let spared = Spared::of([Some(call.file(0)), call.path(MAP.name), call.path(NAMES.name)].into_iter().flatten());
    let out = call.path(OUT.name).unwrap_or(Path::new("-"));
    let map = map.as_ref().map(|map| &map.classes[..]);
    let text = draw::dot(&Picture { table: &table, tops: &tops, names: &names, map, broken: &[], explained: true });
    spared.write(out, text.as_bytes()).map(|()| Status::Done)
}
