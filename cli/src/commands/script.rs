//! `script`: whether a table accepts a script.

use crate::answer::{self, JSON};
use crate::arguments::{Call, Opt, Command, NAMES, STATES, SYMBOLS};
use crate::exit::{Failure, Outcome, Status};
use crate::json::Fields;
use crate::names::Names;
use crate::lexer::{Word, collected, meant, nearest, quoted, text, words};
use crate::maps::Map;
use crate::{files, input, names, trace};
use std::path::Path;

const FILE: Opt = Opt { name: "--file", value: "F", says: "the file that has the script" };

const TRACE: Opt = Opt { name: "--trace", value: "", says: "print the states that runs can be in after each symbol" };
const MAP: Opt = Opt { name: "--map", value: "MAP", says: "print their classes in this map as well, which the check must accept" };

pub const COMMAND: Command = Command {
    name: "script",
    summary: "try a script on a table",
    usage: "TABLE [SYMBOL.. | --file F] [--trace] [--map MAP]",
    help: "\
Prints yes or no, with status 0 or 1: whether the table accepts the script, symbols by names or numbers, separated by spaces. Without symbols it is the
empty script. A script with a symbol past the count is refused by 30, one with a 65th open call by 31. With --trace, and with --map, lines before the answer show the states
that runs can be in at the start and after each symbol, and their classes.

Example:

    basilvault script tables/t.txt country pan close
",
    least: 1,
    most: usize::MAX,
    options: &[FILE, TRACE, MAP, JSON, NAMES, STATES, SYMBOLS],
    run,
};

/// Tries the script.
fn run(call: &Call) -> Outcome {
    if call.has(FILE.name) && call.plain.len() > 1 {
        return Err(Failure::Wrong("the script cannot stand in a file and in the call".into(), None));
    }
    let (limits, input) = input::first(call)?;
    let traced = call.has(TRACE.name) || call.has(MAP.name);
    let (table, names) = if traced { input.named(limits, call)? } else { input.named_symbols(limits, call)? };
    let script = call.path(FILE.name).map_or_else(|| given(call, &names), |file| from_file(file, &names))?;
    let yes = basilvault::script_within(limits, &input.bytes, &script).map_err(|refusal| input.refused(refusal))?;
    let map = call.path(MAP.name).map(|file| Map::read(file, &names)).transpose()?;
    if let Some(map) = &map {
        basilvault::check_within(limits, &input.bytes, &map.classes).map_err(|refusal| map.refused(&input, &table, &names, refusal))?;
    }
    let map = map.as_ref().map(|map| &map.classes[..]);
    let steps = if traced { trace::steps(&table, &script) } else { Vec::new() };
    let text = || trace::lines(&steps, &names, &script, map) + if yes { "yes" } else { "no" };
    answer::tell(call, Status::from(yes), text, || {
        let fields: Fields = vec![("accepted", yes.into())];
        fields.into_iter().chain(traced.then(|| ("trace", trace::objects(&steps, &names, &script, map)))).collect()
    })
}

/// The script of the call.
fn given(call: &Call, names: &Names) -> Result<Vec<u8>, Failure> {
    let all: Vec<_> = call.plain[1..].iter().map(|argument| argument.to_string_lossy()).collect();
    let symbol = |word: &str| {
        let found = names::find(&names.symbols, word);
        found.ok_or_else(|| Failure::Mistaken(vec![format!("basilvault: expected {}, found {}{}", symbols(names), quoted(word), meant(nearest(word, names.symbols.iter().map(String::as_str))))]))
    };
    all.iter().flat_map(|argument| argument.split_whitespace()).map(symbol).collect()
}

/// The script of a file.
fn from_file(file: &Path, names: &Names) -> Result<Vec<u8>, Failure> {
    let bytes = files::read(file)?;
    let symbol = |word: Word| names::find(&names.symbols, word.text).ok_or_else(|| word.mistake(&symbols(names)));
    collected(file, words(text(file, &bytes, "a script")?).map(symbol), "a script")
}

/// What can stand in a script.
fn symbols(names: &Names) -> String {
    format!("a symbol ({})", names.symbols.join(", "))
}
