//! `uses`: use counts added up by class.

use crate::answer::{self, JSON};
use crate::arguments::{Call, Opt, Command, NAMES, STATES, SYMBOLS};
use crate::exit::{Failure, Outcome, Status};
use crate::names::Names;
use crate::lexer::{Line, Mistake, collected, lines, text};
use crate::json::list;
use crate::{files, input, maps, names};
use std::path::Path;

const BINARY: Opt = Opt { name: "--binary", value: "FILE", says: "lines of 5 bytes: a state, and 32 bits, little-endian" };

pub const COMMAND: Command = Command {
    name: "uses",
    summary: "add up use counts of states by the classes of a map",
    usage: "TABLE MAP [LINES | --binary FILE]",
    help: "\
Adds up how often states were used by the classes of a map that the check accepts. LINES is a text with a line `STATE COUNT` for each count, the state by its
name or number. Prints a line for each class, with its states, and the total.

Example:

    basilvault uses tables/t.txt small.map counts.txt
",
    least: 2,
    most: 3,
    options: &[BINARY, JSON, NAMES, STATES, SYMBOLS],
    run,
};

/// Adds up the counts.
fn run(call: &Call) -> Outcome {
    let (limits, input, table, names, map) = input::with_map(call)?;
    let counts = match (call.plain.get(2), call.path(BINARY.name)) {
        (Some(file), None) => from_text(Path::new(file), &names)?,
        (None, Some(file)) => files::read(file)?,
        _ => return Err(Failure::Wrong("the use counts are missing, or given twice: LINES or --binary FILE".into(), None)),
    };
    let uses = basilvault::uses_within(limits, &input.bytes, &map.classes, &counts).map_err(|refusal| map.refused(&input, &table, &names, refusal))?;
    let map = &map.classes;
    let classes = map.iter().max().map_or(0, |&last| usize::from(last) + 1);
    let sums = &uses.sums[..classes];
    let line = |(class, sum): (usize, &u64)| format!("class {class} {}: {sum}\n", maps::members(map, class, &names));
    let text = || sums.iter().enumerate().map(line).collect::<String>() + &format!("total {}", uses.total);
    let fields = || vec![("classes", classes.into()), ("sums", list(sums.iter().copied())), ("total", uses.total.into())];
    answer::tell(call, Status::Done, text, fields)
}

/// The lines of 5 bytes that a text has.
fn from_text(file: &Path, names: &Names) -> Result<Vec<u8>, Failure> {
    let bytes = files::read(file)?;
    let counts = lines(text(file, &bytes, WHAT)?).map(|mut line| counted(&mut line, names));
    collected(file, counts, WHAT).map(|counts| counts.concat())
}

/// What the text should be.
const WHAT: &str = "use counts, lines of a state and a count";

/// The bytes of a line.
fn counted(line: &mut Line, names: &Names) -> Result<[u8; basilvault::LINE], Mistake> {
    let word = line.next("a state")?;
    let state = names::find(&names.states, word.text).ok_or_else(|| word.mistake("a state"))?;
    let expected = "a count, 0 to 4294967295";
    let word = line.next(expected)?;
    let count = word.number().and_then(|count| u32::try_from(count).ok()).ok_or_else(|| word.mistake(expected))?;
    line.done()?;
    let [a, b, c, d] = count.to_le_bytes();
    Ok([state, a, b, c, d])
}
