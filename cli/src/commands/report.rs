//! `report`: a page about a table, a map of it, or two tables.

use super::reduce::{WITH, proposed};
use crate::arguments::{BUDGET, Call, Command, NAMES, OUT, Opt, ROOM, STATES, SYMBOLS};
use crate::compared::Compared;
use crate::exit::{Failure, Outcome, Status};
use crate::files::Spared;
use crate::input::{self, Input};
use crate::maps::Map;
use crate::names::Names;
use crate::progress::Progress;
use crate::report::{self, Proposer, Reduction, Refused};
use crate::room::{self, Room};
use basilvault::{LONGEST_FILE, Limits};
use std::path::Path;

const MAP: Opt = Opt { name: "--map", value: "MAP", says: "the map that the page is about, such as one drawn by hand" };

pub const COMMAND: Command = Command {
    name: "report",
    summary: "write a page about a table and its reduction, or about two tables",
    usage: "TABLE [TABLE] [--map MAP | --with SOLVER] -o FILE.html",
    help: "\
Reduces the table and writes a page for a browser: the table before and after, what was joined, and what was not. It is one file, asks nothing of any other
place, and can be printed. Pictures are drawn where Graphviz is installed, else the moves are listed.

With --map the page is about that map, such as one drawn by hand. Where the check does not accept it, the page shows the states that break it, and the
status is 2. With --with a solver is asked too, as by `reduce`, and the page says whose map it is. Of two tables the page says what `compare` says, with the
scripts that tell them apart.

Example:

    basilvault report tables/atlas.txt -o atlas.html
    basilvault report tables/t.txt tables/atlas.txt -o both.html
",
    least: 1,
    most: 2,
    options: &[OUT, MAP, WITH, NAMES, BUDGET, ROOM, STATES, SYMBOLS],
    run,
};

/// Writes the page.
fn run(call: &Call) -> Outcome {
    let out = call.out()?;
    if call.plain.len() == 2 {
        return two(call, out);
    }
    if call.has(MAP.name) && call.has(WITH.name) {
        return Err(Failure::Wrong("--map and --with cannot both be given: the page is about one map".into(), None));
    }
    let (limits, input) = input::first(call)?;
    let (_, names) = input.named(limits, call)?;
    let progress = Progress::start("report", 1);
    let most = call.room()?;
    let searched = Reduction::new(limits, &input.bytes, &names, call.budget()?, room::most_of(limits, &input.bytes).min(most));
    drop(progress);
    let searched = searched.map_err(|refusal| Room::new(most).refused(limits, &input, refusal))?;
    let title = named(&input.file);
    let (page, outcome) = match (call.path(MAP.name), call.path(WITH.name)) {
        (Some(file), _) => of_map(limits, &input, &names, searched, file)?,
        (None, Some(command)) => (report::page(&with_solver(limits, &input, searched, command)?, &title), Ok(Status::Done)),
        (None, None) => (report::page(&searched, &title), Ok(Status::Done)),
    };
    let spared = Spared::of([Some(call.file(0)), call.path(MAP.name), call.path(NAMES.name)].into_iter().flatten());
    spared.write(out, page.as_bytes()).and(outcome)
}

/// What a file is called on a page.
fn named(file: &Path) -> String {
    file.file_name().unwrap_or_default().to_string_lossy().into_owned()
}

/// The page about a map that a file has, and what the command ends with.
fn of_map(limits: Limits, input: &Input, names: &Names, searched: Reduction, file: &Path) -> Result<(String, Outcome), Failure> {
    let (map, title) = (Map::read(file, names)?, named(&input.file));
    let Err(refusal) = basilvault::check_within(limits, &input.bytes, &map.classes) else {
        let under = searched.under(limits, &input.bytes, &map.classes, Proposer::File(named(file))).map_err(|refusal| input.refused(refusal))?;
        return Ok((report::page(&under, &title), Ok(Status::Done)));
    };
    let broken = map.broken(input, &searched.before, names, refusal);
    let page = report::refused(&searched, &Refused { file: &named(file), map: &map.classes, refusal, broken }, &title);
    Ok((page, Err(map.refused(input, &searched.before, names, refusal))))
}

/// The better of the search's map and a solver's.
fn with_solver<'a>(limits: Limits, input: &Input, searched: Reduction<'a>, command: &Path) -> Result<Reduction<'a>, Failure> {
    let (mut map, mut small) = (searched.map.clone(), vec![0; LONGEST_FILE]);
    let (_, solver) = proposed(limits, input, map.len(), command, (searched.search, &mut map, &mut small))?;
    let name = command.to_string_lossy().into_owned();
    let proposer = if solver == Some(true) { Proposer::Solver(name) } else { Proposer::SearchAgainst(name) };
    searched.under(limits, &input.bytes, &map, proposer).map_err(|refusal| input.refused(refusal))
}

/// Writes the page about two tables.
fn two(call: &Call, out: &Path) -> Outcome {
    if let Some(option) = [MAP, WITH, BUDGET, ROOM, STATES, SYMBOLS].iter().find(|option| call.has(option.name)) {
        return Err(Failure::Wrong(format!("{} is of no use with two tables", option.name), None));
    }
    let compared = Compared::of(call)?;
    let progress = Progress::start("report", 1);
    let both = compared.both();
    drop(progress);
    let both = both?;
    let tops = |place: usize, input: &Input| basilvault::tops(&compared.tables[place].to_bytes()).map_err(|refusal| input.refused(refusal));
    let tops = [tops(0, &compared.first)?, tops(1, &compared.second)?];
    let titles = match [&compared.first, &compared.second].map(|input| named(&input.file)) {
        [first, second] if first == second => [&compared.first, &compared.second].map(|input| input.file.display().to_string()),
        titles => titles,
    };
    let page = report::beside(&compared, &both, &tops, &titles);
    let spared = Spared::of([Some(call.file(0)), Some(call.file(1)), call.path(NAMES.name)].into_iter().flatten());
    spared.write(out, page.as_bytes()).map(|()| Status::Done)
}
