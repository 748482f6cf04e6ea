//! `records`: where each record goes.

use crate::answer::{self, JSON};
use crate::arguments::{Call, Command, NAMES, STATES, SYMBOLS};
use crate::exit::{Outcome, Status};
use crate::json::{Fields, Json, list};
use crate::{input, text};
use basilvault::{MOST_RECORDS, Recorded};
use std::collections::HashMap;

pub const COMMAND: Command = Command {
    name: "records",
    summary: "tell of each record whether a map keeps it, folds it or finds it dead",
    usage: "TABLE MAP",
    help: "\
Prints each record of the table with what becomes of it under the map: kept; folded, with the earlier record that has the same image; dead, a return
that no run can take. Then how many there are of each.

Example:

    basilvault reduce tables/t.txt --map small.map
    basilvault records tables/t.txt small.map
",
    least: 2,
    most: 2,
    options: &[JSON, NAMES, STATES, SYMBOLS],
    run,
};

/// Prints the records.
fn run(call: &Call) -> Outcome {
    let (limits, input, table, names, map) = input::with_map(call)?;
    let mut fates = [0; MOST_RECORDS];
    let recorded = basilvault::records_within(limits, &input.bytes, &map.classes, &mut fates);
    let recorded = recorded.map_err(|refusal| map.refused(&input, &table, &names, refusal))?;
    let class = |state: u8| map.classes[usize::from(state)];
    let moves = table.internals.iter().chain(&table.calls);
    let moves = moves.map(|&r| (text::internal(&names, r), vec![class(r[0]), r[1], class(r[2])]));
    let returns = table.returns.iter().map(|&r| (text::record(&names, r), vec![class(r[0]), r[1], class(r[2]), class(r[3])]));
    let mut kept: HashMap<Vec<u8>, String> = HashMap::new();
    let mut told: Vec<(String, &str, Option<String>)> = Vec::new();
    for ((line, image), fate) in moves.chain(returns).zip(fates) {
        match fate {
            Recorded::FOLDED => told.push((line.clone(), "folded", Some(kept.get(&image).unwrap_or(&line).clone()))),
            Recorded::DEAD => told.push((line, "dead", None)),
            _ => {
                kept.insert(image, line.clone());
                told.push((line, "kept", None));
            }
        }
    }
    let Recorded { records, kept, folded, dead } = recorded;
    let line = |(line, fate, into): &(String, &str, Option<String>)| match into {
        Some(into) => format!("{line}: {fate} into {into}\n"),
        None => format!("{line}: {fate}\n"),
    };
    let text = || told.iter().map(line).collect::<String>() + &format!("records {records} kept {kept} folded {folded} dead {dead}");
    answer::tell(call, Status::Done, text, || {
        let counts: Fields = vec![("records", records.into()), ("kept", kept.into()), ("folded", folded.into()), ("dead", dead.into())];
        counts.into_iter().chain([("fates", list(told.iter().map(object)))]).collect()
    })
}

/// What an object says of a record.
fn object((line, fate, into): &(String, &str, Option<String>)) -> Json {
    let fields: Fields = vec![("record", line.into()), ("fate", (*fate).into())];
    fields.into_iter().chain(into.as_ref().map(|into| ("into", into.into()))).collect::<Fields>().into()
}
