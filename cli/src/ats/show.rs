//! A table as AutomataScript.

use super::{ALPHABETS, MOVES, NOTE, START, STATES};
use crate::model::{Kind, State, Table};
use crate::names::Names;

/// The script of a table in file order; where a state has a mark, which has no place in it, that state.
pub fn show(table: &Table, names: &Names) -> Result<String, u8> {
    if let Some(marked) = table.states.iter().position(|state| state.mark != 0) {
        return Err(marked as u8);
    }
    let states = |such: fn(&State) -> bool| {
        let chosen = (0..table.states.len()).filter(|q| such(&table.states[*q]));
        set(chosen.map(|q| quoted(names.state(q as u8))).collect())
    };
    let alphabets = ALPHABETS.map(|(field, kind)| (field, set(of_kind(table, kind).map(|symbol| quoted(names.symbol(symbol))).collect())));
    let sets = [states(|_| true), states(|state| state.initial), states(|state| state.accepting)];
    let moves = MOVES.map(|(field, kind)| (field, moves(table, names, kind)));
    let fields = alphabets.into_iter().chain(STATES.into_iter().zip(sets)).chain(moves);
    let fields: Vec<String> = fields.map(|(field, set)| format!("  {field} = {set}")).collect();
    Ok(format!("{}{START} nwa = (\n{}\n);\n", notes(table, names), fields.join(",\n")))
}

/// What the script has no place for: the version where it is not 1, and the order of the symbols where it is not that of the alphabets.
fn notes(table: &Table, names: &Names) -> String {
    let version = if table.version == 1 { String::new() } else { format!("{NOTE} version {}\n", table.version) };
    let by_kind = ALPHABETS.iter().flat_map(|(_, kind)| of_kind(table, *kind));
    if by_kind.eq(0..table.symbols.len() as u8) {
        return version;
    }
    let all: Vec<String> = names.symbols.iter().map(|name| quoted(name)).collect();
    format!("{version}{NOTE} symbols {}\n", all.join(" "))
}

/// The symbols of a kind.
fn of_kind(table: &Table, kind: Kind) -> impl Iterator<Item = u8> {
    (0..table.symbols.len() as u8).filter(move |symbol| table.symbols[usize::from(*symbol)] == kind)
}

/// The moves of a kind, a line each.
fn moves(table: &Table, names: &Names, kind: Kind) -> String {
    let plain = |[p, a, t]: &[u8; 3]| [names.state(*p), names.symbol(*a), names.state(*t)].map(quoted).join(" ");
    let over = |[p, a, s, t]: &[u8; 4]| [names.state(*p), names.state(*s), names.symbol(*a), names.state(*t)].map(quoted).join(" ");
    let all: Vec<String> = match kind {
        Kind::Internal => table.internals.iter().map(plain).collect(),
        Kind::Call => table.calls.iter().map(plain).collect(),
        Kind::Return => table.returns.iter().map(over).collect(),
    };
    match all.len() {
        0 => "{ }".into(),
        _ => format!("{{\n{}  }}", all.iter().map(|one| format!("    ({one})\n")).collect::<String>()),
    }
}

/// Words in braces.
fn set(words: Vec<String>) -> String {
    format!("{{ {}{}}}", words.join(" "), if words.is_empty() { "" } else { " " })
}

/// A name in quotes.
fn quoted(name: &str) -> String {
    let mut quoted = String::from("\"");
    for letter in name.chars() {
        match letter {
            '"' => quoted += "\\\"",
            '\\' => quoted += "\\\\",
            '\n' => quoted += "\\n",
            '\t' => quoted += "\\t",
            '\r' => quoted += "\\r",
            letter => quoted.push(letter),
        }
    }
    quoted + "\""
}
