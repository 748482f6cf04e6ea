//! Which states became one.

use super::html::{LONG, escaped, folded, list, paragraph, section};
use super::reduction::Reduction;
use crate::names::Names;

/// Which states became one, and which stayed.
pub fn became_one(it: &Reduction) -> String {
    let joined = it.joined();
    if joined.is_empty() {
        let said = "None. For every two states there is a condition that keeps them apart: one accepts and the other does not, their marks differ, or \
                    one has a move that the other cannot match. The command why tells which, for any two.";
        let said = match (it.proposer.is_search(), it.spent()) {
            (true, true) => "None that the search came to before its budget was spent.",
            (true, false) => said,
            _ => "None: the map joins no two states.",
        };
        return section("Which states became one", &paragraph(said));
    }
    let why = "States become one where no script can tell them apart: both accept or neither does, they have the same mark, and every move of one is \
               matched by the other, into states that became one as well. A return counts only where a script can come to take it.";
    let cards: String = joined.iter().map(|members| card(it, members)).collect();
    let stayed: Vec<u8> = (0..it.map.len() as u8).filter(|q| it.members(it.class(*q)).len() == 1).collect();
    let stayed = match stayed[..] {
        [] => "No state stayed by itself.".into(),
        [q] => format!("Stayed by itself: {}.", it.names.state(q)),
        _ => format!("Stayed by themselves: {}.", named(it.names, &stayed, ", ")),
    };
    section("Which states became one", &(paragraph(why) + &cards + &paragraph(&stayed)))
}

/// One class: its states, and the returns that not all of them have.
fn card(it: &Reduction, members: &[u8]) -> String {
    let head = format!("Class {}: {}", it.class(members[0]), named(it.names, members, ", "));
    let notes = unmatched(it, members);
    let notes = match notes.len() {
        0 => String::new(),
        many => folded("Returns that not all of them have, and why that does no harm", many > LONG / 4, &list(&notes)),
    };
    format!("<div class=\"one\" data-class=\"{}\">\n<h3>{}</h3>\n{notes}</div>\n", it.class(members[0]), escaped(&head))
}

/// The live returns of a class's states for which others of the class are never above the stack state.
fn unmatched(it: &Reduction, members: &[u8]) -> Vec<String> {
    let top = |q: u8, stack: u8| it.tops.words[usize::from(q)] >> stack & 1 != 0;
    let above = |q: u8, stack: u8| (0..it.map.len() as u8).any(|u| it.class(u) == it.class(stack) && top(q, u));
    let mut notes: Vec<String> = Vec::new();
    for &[p, symbol, stack, _] in it.before.returns.iter().filter(|record| members.contains(&record[0]) && top(record[0], record[2])) {
        let never: Vec<u8> = members.iter().copied().filter(|q| !above(*q, stack)).collect();
        let (one, by, over) = (it.names.state(p), it.names.symbol(symbol), it.names.state(stack));
        let (others, verb) = (named(it.names, &never, ", "), if never.len() == 1 { "is" } else { "are" });
        let note = format!("{one} can take {by} ↑ {over}; {others} {verb} never reached with {over} on top of the stack.");
        if !never.is_empty() && !notes.contains(&note) {
            notes.push(note);
        }
    }
    notes
}

/// Names of states, with something between them.
fn named(names: &Names, states: &[u8], between: &str) -> String {
    states.iter().map(|q| names.state(*q)).collect::<Vec<_>>().join(between)
}
