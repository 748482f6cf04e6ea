//! `choose`: the better of two maps.

use crate::answer::{self, JSON};
use crate::arguments::{Call, Command, NAMES, OUT, STATES, SYMBOLS};
use crate::exit::{Outcome, Status};
use crate::files::Spared;
use crate::json::list;
use crate::maps::{self, Map};
use crate::input;
use basilvault::Refusal;

pub const COMMAND: Command = Command {
    name: "choose",
    summary: "choose the better of two maps",
    usage: "TABLE MAP MAP [-o OUT]",
    help: "\
Prints which of the two maps the check accepts: the one with fewer classes where it accepts both, the first when they have as many. Where it accepts neither
they are refused by 40. The map itself goes to -o OUT; the line goes to standard error where that is standard output.

Example:

    basilvault choose tables/t.bin drawn.map found.map
",
    least: 3,
    most: 3,
    options: &[OUT, JSON, NAMES, STATES, SYMBOLS],
    run,
};

/// Chooses.
fn run(call: &Call) -> Outcome {
    let (limits, input, table, names, first) = input::with_map(call)?;
    let second = Map::read(call.file(2), &names)?;
    let chosen = basilvault::choose_within(limits, &input.bytes, &first.classes, &second.classes);
    let chosen = chosen.map_err(|refusal| {
        // of neither map the check says why
        let neither = [&first, &second].into_iter().filter(|_| refusal == Refusal::Neither);
        let why = neither.filter_map(|map| Some(map.refused(&input, &table, &names, basilvault::check_within(limits, &input.bytes, &map.classes).err()?)));
        if call.has(JSON.name) {
            let why: Vec<String> = why.flat_map(|failure| failure.lines()).collect();
            return input.refused_as(refusal, &why.join("; "));
        }
        why.for_each(|failure| {
            failure.tell();
        });
        input.refused(refusal)
    })?;
    let classes = basilvault::check_within(limits, &input.bytes, chosen).map_err(|refusal| input.refused(refusal))?;
    let place: usize = if std::ptr::eq(chosen, &first.classes[..]) { 1 } else { 2 };
    let file = call.file(place).display();
    if let Some(out) = call.path(OUT.name) {
        Spared::of([call.file(0), call.file(1), call.file(2)]).write(out, maps::shown(chosen, input.own_names()).as_bytes())?;
    }
    let text = || format!("{file}: map {place} of 2, classes {classes}");
    let fields = || vec![("chosen", place.into()), ("classes", classes.into()), ("map", list(chosen.iter().copied()))];
    answer::tell(call, Status::Done, text, fields)
}
