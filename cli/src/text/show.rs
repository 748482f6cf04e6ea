//! A table as text.

use crate::model::{Kind, Table};
use crate::names::Names;
use basilvault::Tops;
use std::fmt::Write;

/// A move without a stack state, as its line.
pub fn internal(names: &Names, [state, symbol, target]: [u8; 3]) -> String {
    format!("{} {} -> {}", names.state(state), names.symbol(symbol), names.state(target))
}

/// A return, as its line.
pub fn record(names: &Names, [state, symbol, stack, target]: [u8; 4]) -> String {
    format!("{} {} over {} -> {}", names.state(state), names.symbol(symbol), names.state(stack), names.state(target))
}

/// The word of a symbol's kind.
fn kind_word(kind: Kind) -> &'static str {
    match kind {
        Kind::Internal => "internal",
        Kind::Call => "call",
        Kind::Return => "return",
    }
}

/// The text of a table in file order; with its tops, dead returns have a comment.
pub fn show(table: &Table, names: &Names, tops: Option<&Tops>) -> String {
    let mut text = format!("table {}\n", table.version);
    for (kind, name) in table.symbols.iter().zip(&names.symbols) {
        let _ = writeln!(text, "{} {name}", kind_word(*kind));
    }
    if table.version == 2 {
        for (number, name) in names.marks.iter().enumerate().filter_map(|(number, name)| Some((number, name.as_ref()?))) {
            let _ = writeln!(text, "mark {name} {number}");
        }
    }
    for (state, name) in table.states.iter().zip(&names.states) {
        let initial = if state.initial { " initial" } else { "" };
        let accepting = if state.accepting { " accepting" } else { "" };
        let mark = if state.mark == 0 { String::new() } else { format!(" mark {}", names.mark(state.mark)) };
        let _ = writeln!(text, "state {name}{initial}{accepting}{mark}");
    }
    for &moved in table.internals.iter().chain(&table.calls) {
        let _ = writeln!(text, "{}", internal(names, moved));
    }
    for &returned in &table.returns {
        let dead = tops.is_some_and(|tops| tops.words[usize::from(returned[0])] >> returned[2] & 1 == 0);
        let _ = writeln!(text, "{}{}", record(names, returned), if dead { " # dead" } else { "" });
    }
    text
}
