//! `season`: several tables on one budget.

use super::reduce::once_from_input;
use crate::answer::{self, JSON};
use crate::arguments::{BUDGET, Call, Command, INTO, ROOM, STATES, SYMBOLS};
use crate::exit::{Failure, Outcome, Status, note};
use crate::files::{Spared, folder, places, tables_in};
use crate::input::Input;
use crate::progress::Progress;
use crate::room::Room;
use crate::summary::Summary;
use crate::values;
use basilvault::{LONGEST_FILE, MOST_STATES, MOST_TABLES, Reduced, Refusal};
use std::path::{Path, PathBuf};

pub const COMMAND: Command = Command {
    name: "season",
    summary: "reduce up to eight tables on one budget of guesses",
    usage: "TABLE.. [--into FOLDER]",
    help: "\
Reduces the tables in turn. Each may use its share of the guesses and what earlier ones left. Prints the line of `reduce` for each table, and writes the
smaller ones to the folder under their own names, a text's with .bin. Where the library refuses a table the others go on; where a file cannot be read, or is
a text with a mistake, nothing is reduced.

Example:

    basilvault season tables/t.bin tables/atlas.bin --into small --budget 50,000
",
    least: 1,
    most: usize::MAX,
    options: &[INTO, JSON, BUDGET, ROOM, STATES, SYMBOLS],
    run,
};

/// Reduces the tables.
fn run(call: &Call) -> Outcome {
    let (limits, budget) = (call.limits()?, call.budget()?);
    let files: Vec<PathBuf> = tables_in(call.plain.iter().map(Path::new))?;
    let files: Vec<&Path> = files.iter().map(PathBuf::as_path).collect();
    once_from_input(&files)?;
    let outs = call.path(INTO.name).map_or(Ok(Vec::new()), |into| places(into, &files))?;
    let input = files.iter().map(|file| Input::of(limits, file)).collect::<Result<Vec<_>, _>>()?;
    let tables: Vec<u8> = input.iter().flat_map(|input| input.bytes.iter().copied()).collect();
    let lengths: Vec<u64> = input.iter().map(|input| input.bytes.len() as u64).collect();
    let mut room = Room::new(call.room()?);
    let (mut maps, mut out) = (vec![0; MOST_TABLES * MOST_STATES], vec![0; MOST_TABLES * LONGEST_FILE]);
    let list = room.for_tables(limits, input.iter().map(|input| &input.bytes[..]))?;
    let progress = Progress::start("season", 1);
    let season = basilvault::season_within(limits, &tables, &lengths, budget, list, &mut maps, &mut out);
    drop(progress);
    let season = season.map_err(|refusal| Failure::Refused(format!("a season of {} tables", files.len()), refusal, values::of_limits(refusal, limits)))?;
    call.path(INTO.name).map_or(Ok(()), folder)?;
    deliver(call, &input, &season, &room, (&maps, &out), &outs, &Spared::of(files))
}

/// Prints the line of each table and writes the smaller ones: maps and tables stand back to back.
fn deliver(
    call: &Call,
    input: &[Input],
    season: &[Result<Reduced, Refusal>],
    room: &Room,
    (mut maps, mut tables): (&[u8], &[u8]),
    outs: &[PathBuf],
    spared: &Spared,
) -> Outcome {
    let (limits, mut worst) = (call.limits()?, Status::Done);
    for (place, (input, answer)) in input.iter().zip(season).enumerate() {
        let done = answer.and_then(|reduced| Summary::of(limits, input, reduced, maps)).map_err(|refusal| room.refused(limits, input, refusal));
        let written = done.and_then(|summary| {
            summary.spent(input).iter().for_each(|line| note(line));
            let small = &tables[..summary.reduced.length];
            (maps, tables) = (&maps[summary.states..], &tables[small.len()..]);
            outs.get(place).map_or(Ok(()), |out| spared.write(out, small)).map(|()| summary)
        });
        worst = worst.max(match written {
            Ok(summary) => {
                answer::put(false, &answer::shown(call, &input.file, Status::Done, || summary.line(input), || summary.fields()))?;
                Status::Done
            }
            Err(failure) => answer::failed(call, Some(&input.file), false, failure)?,
        });
    }
    Ok(worst)
}
