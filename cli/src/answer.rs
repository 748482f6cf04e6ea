//! Answers: a text for people or, with `--json`, an object for programs. docs/answers.schema.json describes the objects.

use crate::arguments::{Call, OUT, Opt, TEXT};
use crate::exit::{Failure, Outcome, Status, note, say};
use crate::files::is_stream;
use crate::json::{Fields, Json, list};
use std::path::Path;

pub const JSON: Opt = Opt { name: "--json", value: "", says: "answer with an object in JSON on a line, a refusal too" };

/// An answer on a table, without the end of its last line.
pub fn shown(call: &Call, table: &Path, status: Status, text: impl FnOnce() -> String, fields: impl FnOnce() -> Fields) -> String {
    if call.has(JSON.name) { object(call, Some(table), status, fields()) } else { text() }
}

/// Says the answer on the first table that a command is lent.
pub fn tell(call: &Call, status: Status, text: impl FnOnce() -> String, fields: impl FnOnce() -> Fields) -> Outcome {
    put(streams(call), &shown(call, call.file(0), status, text, fields)).map(|()| status)
}

/// Says the failure of a call or, where it is on one of several tables, of that table.
pub fn failed(call: &Call, table: Option<&Path>, streams: bool, failure: Failure) -> Outcome {
    match failure_fields(&failure).filter(|_| call.has(JSON.name)) {
        None if table.is_some() => Ok(failure.tell()),
        None => Err(failure),
        Some(fields) => put(streams, &object(call, table, failure.status(), fields)).map(|()| failure.status()),
    }
}

/// Whether standard output takes what the command writes, so that its answer goes to standard error.
pub fn streams(call: &Call) -> bool {
    [OUT, TEXT].iter().any(|option| call.path(option.name).is_some_and(is_stream))
}

/// Writes a line to standard output, or to standard error where that is taken.
pub fn put(streams: bool, line: &str) -> Result<(), Failure> {
    if streams {
        note(line);
        return Ok(());
    }
    say(format!("{line}\n").as_bytes())
}

/// The object of a table, or of a whole call.
fn object(call: &Call, table: Option<&Path>, status: Status, fields: Fields) -> String {
    let mut all: Fields = vec![("command", call.command.into())];
    all.extend(table.map(|table| ("table", table.display().to_string().into())));
    all.push(("status", (status as u8).into()));
    all.extend(fields);
    Json::from(all).to_string()
}

/// What an object says of a failure; nothing of a wrong call, which is told to whoever made it.
fn failure_fields(failure: &Failure) -> Option<Fields> {
    match failure {
        Failure::Refused(what, refusal, values) => {
            let mut fields: Fields = vec![("file", what.into()), ("number", refusal.number().into()), ("meaning", refusal.meaning().into())];
            fields.extend((!values.is_empty()).then(|| ("values", values.into())));
            Some(fields)
        }
        Failure::Mistaken(_) | Failure::File(_) => {
            Some(vec![("messages", list(failure.lines().iter().map(|line| line.strip_prefix("basilvault: ").unwrap_or(line))))])
        }
        Failure::Wrong(..) | Failure::Unread => None,
    }
}
