//! What is promised and what is not, in plain words. docs/PROMISES.md has the whole of it.

use super::html::{escaped, grouped, list, paragraph, section};
use super::reduction::Reduction;

/// The words of the page.
pub fn glossary() -> String {
    let words = [
        ("State", "where a script can be. It starts in an initial state, and is accepted where it ends in an accepting one with nothing left open."),
        ("Symbol", "a step of a script: an internal changes the state alone, a call opens something, a return closes what was opened last."),
        ("Record", "one move of the table: from a state, by a symbol, to a state."),
        (
            "Stack",
            "what is open. A call (↓) puts the state that it leaves on the stack; a return (↑) takes the topmost off, and goes where a record for it says.",
        ),
        ("Mark", "a number that a state may have. States of different marks are never merged."),
        (
            "Map, class",
            "the map gives every state a class; states of one class become one. A pair is two states, joined where they are of one class.",
        ),
        ("Check", "decides whether a map may be used, whoever proposes it."),
        ("Guess", "the search for a map tries to join two states and takes it back where that fails. The budget is how often it may."),
    ];
    let line = |(word, said): &(&str, &str)| format!("<dt>{}</dt><dd>{}</dd>\n", escaped(word), escaped(said));
    let words: String = words.iter().map(line).collect();
    format!("<details class=\"glossary\">\n<summary>The words on this page</summary>\n<dl>\n{words}</dl>\n</details>\n")
}

/// What holds of this table and its reduction.
pub fn promised(it: &Reduction) -> String {
    let mut items = vec![
        "The table that goes out accepts exactly the scripts that the table that came in accepts: none is lost, and none is let in.".to_string(),
        "A script that leaves something open is accepted by neither.".into(),
        "Each run of the small table is, step by step, state by state and stack by stack, the classes of a run of the large one, and each run of the \
         large one appears so."
            .into(),
        "Every merge has passed a check that does not depend on how the merges were found.".into(),
        "A return is called dead only where no script at all can come to take it.".into(),
        "Every record is kept, folded or dead, and as many are kept as the table that goes out has.".into(),
    ];
    if it.before.version > 1 {
        let marks = "States of different marks are never merged. For each mark, the scripts that can end in a state of that mark, with nothing open, \
                     are the same before and after.";
        items.insert(2, marks.into());
    }
    items.push(format!("No map that passes the check joins more pairs of states than {}.", grouped(it.reduced.ceiling as u64)));
    items.extend(it.proposer.is_search().then(|| match it.search.spent {
        false => "The search came to its end: no map that passes the check joins all pairs that are joined here and one more.".into(),
        true => "The budget was spent, and the page says so: that the search came to its end is not claimed.".into(),
    }));
    let lead = "These sentences are proved of the library that made the table, for every table, not tried on some:";
    section("What is promised", &(paragraph(lead) + &list(&items)))
}

/// What does not follow.
pub fn not_promised(it: &Reduction) -> String {
    let mut items = vec![
        "That two names which became one mean the same to people. Names are not looked at: only which scripts are accepted, and marks. What must stay \
         apart needs a mark of its own."
            .to_string(),
        "That the table that goes out is the smallest of all. Other merges may give fewer states or join more pairs.".into(),
        "How long a reduction takes.".into(),
        "The compiler's back end, the C library and the operating system under the library, and this page: it is put together by a program that is not \
         proved, from the proved library's answers."
            .into(),
    ];
    if it.before.version == 1 {
        items.insert(1, "That states with a meaning of their own stay: this table is of version 1 and has no marks.".into());
    }
    section("What is not promised", &list(&items))
}
