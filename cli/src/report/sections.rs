//! The page's sections, in the order in which the desk reads them.

use super::html::{LONG, count, escaped, folded, grouped, heading, notice, noted_table, opening, paragraph, section, table};
use super::picture::{self, Shown};
use super::reduction::Reduction;
use super::words;
use crate::facts::Facts;
use crate::model::{Kind, Table};
use crate::names::Names;
use basilvault::Tops;

/// The title, what happened in one line, and the numbers that matter.
pub fn head(it: &Reduction, title: &str) -> String {
    let (before, after) = (it.before.states.len(), it.reduced.classes);
    let lead = match (before == after, before) {
        (true, 1) => "The one state stays as it is".into(),
        (true, _) if it.spent() => format!("All {before} states stay: none was merged"),
        (true, _) if !it.proposer.is_search() => format!("All {before} states stay: the map joins none"),
        (true, _) => format!("All {before} states stay: none can be merged"),
        (false, _) => format!("{before} states became {after}"),
    };
    let pairs = format!("{} of at most {}", grouped(it.reduced.joined as u64), grouped(it.reduced.ceiling as u64));
    let kept = format!("{} of {}", grouped(it.recorded.kept as u64), grouped(it.recorded.records as u64));
    let facts = [
        (kept, format!("records kept; {} folded, {} dead", grouped(it.recorded.folded as u64), grouped(it.recorded.dead as u64))),
        (pairs, "pairs of states joined".into()),
        searched(it),
        ("Accepted by the check".into(), format!("the map is {}", it.proposer.said())),
        ("Same scripts".into(), "both tables accept exactly the same ones".into()),
    ];
    let spent = if it.spent() { spent(it) } else { String::new() };
    opening(title, &lead, &facts) + &spent + &words::glossary()
}

/// How the library's search ended.
fn searched(it: &Reduction) -> (String, String) {
    let (head, ended) = match it.search.spent {
        true => ("Search cut short", format!("the budget of {} was spent", guesses(it.budget))),
        false if it.search.guesses == 0 => ("Search complete", "it came to its end without a guess".into()),
        false => ("Search complete", format!("it came to its end after {}", guesses(it.search.guesses))),
    };
    match it.proposer.is_search() {
        true => (head.into(), ended),
        false => (format!("The library's own {}", head.to_lowercase()), format!("{ended}; it joined {}", count(it.search.joined, "pair"))),
    }
}

/// What a spent budget means.
fn spent(it: &Reduction) -> String {
    let more = match it.all_joined() {
        true => "As many pairs are joined as can be, so it has cost nothing.",
        false => "More merges may be possible: a larger budget would tell.",
    };
    let said = "The budget of guesses was spent before the search came to its end. Every merge on this page has passed the check all the same.";
    notice(&format!("{said} {more}"))
}

/// The table that came in.
pub fn came_in(it: &Reduction) -> String {
    let said = counts(&it.before);
    let map = (!it.joined().is_empty()).then_some(&it.map[..]);
    let column: Vec<(u8, String)> = it.map.iter().map(|class| (*class, class.to_string())).collect();
    let shown = Shown { table: &it.before, tops: &it.tops, names: it.names, map, broken: &[], prefix: "in", column: Some(("class", &column)) };
    picture::shown(&shown).under("section", &heading("What came in"), &(paragraph(&said) + &facts(&it.before, &it.tops, it.names)))
}

/// How many states, symbols and records a table has.
pub fn counts(table: &Table) -> String {
    let of = |kind: Kind| table.symbols.iter().filter(|symbol| **symbol == kind).count();
    let counts = [count(of(Kind::Internal), "internal symbol"), count(of(Kind::Call), "call"), count(of(Kind::Return), "return")].join(", ");
    let records = [(table.internals.len(), "internal"), (table.calls.len(), "call"), (table.returns.len(), "return")];
    let records = records.map(|(number, noun)| count(number, noun)).join(", ");
    format!("{}. Symbols: {counts}. Records: {records}.", count(table.states.len(), "state"))
}

/// What a table is worth, in sentences.
pub fn facts(table: &Table, tops: &Tops, names: &Names) -> String {
    Facts::of(table, tops).told(names).iter().map(|fact| paragraph(&sentence(fact))).collect()
}

/// A fact as a sentence.
fn sentence(fact: &str) -> String {
    let mut letters = fact.chars();
    letters.next().map_or(String::new(), |first| format!("{}{}.", first.to_uppercase(), letters.as_str()))
}

/// The table that goes out.
pub fn goes_out(it: &Reduction) -> String {
    let said = match it.joined().is_empty() {
        true if it.recorded.dead == 0 => {
            return section("What goes out", &paragraph("The same table: nothing was merged, and nothing was left out."));
        }
        true => format!("The same states, without {} that no script can take.", count(it.recorded.dead, "return")),
        false => format!("{}, each named after the states that became it.", count(it.reduced.classes, "state")),
    };
    let all = |class: u8| it.members(class).iter().map(|q| it.names.state(*q)).collect::<Vec<_>>().join(", ");
    let column: Vec<(u8, String)> = (0..it.reduced.classes as u8).map(|class| (class, format!("{class}: {}", all(class)))).collect();
    let (table, names) = (&it.after, &it.after_names);
    let shown = Shown { table, tops: &it.after_tops, names, map: None, broken: &[], prefix: "out", column: Some(("class", &column)) };
    picture::shown(&shown).under("section", &heading("What goes out"), &paragraph(&said))
}

/// How much was joined, and whether more can be.
pub fn more_to_gain(it: &Reduction) -> String {
    let (joined, ceiling) = (it.reduced.joined, it.reduced.ceiling);
    let pairs = match ceiling {
        0 => "No map that passes the check joins any two states.".into(),
        _ => format!("The map joins {} of states. No map that passes the check joins more than {}.", count(joined, "pair"), grouped(ceiling as u64)),
    };
    let end = match (it.spent(), it.all_joined()) {
        (_, true) => "So nothing more can be joined.".into(),
        _ if !it.proposer.is_search() => own_search(it),
        (false, false) => {
            "The search came to its end: no map that passes the check joins all of these pairs and one more. Another choice of merges might still join \
             more pairs, up to that number."
                .into()
        }
        (true, false) => "The budget was spent before the search came to its end, so more merges may be possible, up to that number of pairs.".into(),
    };
    let guesses = match it.search.spent {
        false => format!("Guesses made by the search: {} of the {} that were allowed.", grouped(it.search.guesses), grouped(it.budget)),
        true => format!("All {} that were allowed were made.", guesses(it.budget)),
    };
    section("Is there more to gain?", &(paragraph(&pairs) + &paragraph(&end) + &paragraph(&guesses)))
}

/// What the library's own search joins, where the map is not its own.
fn own_search(it: &Reduction) -> String {
    let joins = format!("The library's own search joins {}, into {}.", count(it.search.joined, "pair"), classes(it.search.classes));
    format!("{joins} Whether all pairs that are joined here and one more can be joined was not asked.")
}

/// A number of classes.
pub fn classes(number: usize) -> String {
    format!("{number} {}", if number == 1 { "class" } else { "classes" })
}

/// A number of guesses.
fn guesses(number: u64) -> String {
    format!("{} {}", grouped(number), if number == 1 { "guess" } else { "guesses" })
}

/// The map, by state and as the check takes it.
pub fn map(it: &Reduction) -> String {
    let row = |q: usize| {
        let names = [it.names.state(q as u8), it.after_names.state(it.map[q])].map(escaped);
        let cells = vec![q.to_string(), names[0].clone(), it.map[q].to_string(), names[1].clone()];
        (format!(" data-class=\"{}\"", it.map[q]), cells)
    };
    let rows: Vec<(String, Vec<String>)> = (0..it.map.len()).map(row).collect();
    let plain: Vec<String> = it.map.iter().map(u8::to_string).collect();
    let inner = folded("State by state", rows.len() > LONG, &noted_table(&["state", "named", "class", "named"], &rows));
    let plain = format!("<p><code>{}</code></p>\n", plain.join(" "));
    let lead = paragraph("The class of each state, in the order of their numbers:");
    section("The map", &format!("{lead}{plain}<div id=\"map\">\n{inner}</div>\n"))
}

/// The numbers behind it all.
pub fn numbers(it: &Reduction) -> String {
    let rows = [
        ("bytes of the table that came in", it.bytes as u64),
        ("bytes of the table that goes out", it.reduced.length as u64),
        ("reachable stack tops, over all states", it.tops.found as u64),
        ("clause words, without those of transitivity", it.reduced.words as u64),
        ("clause words that there was room for", it.room as u64),
        ("guesses made by the search", it.search.guesses),
        ("guesses allowed", it.budget),
    ];
    let rows: Vec<Vec<String>> = rows.iter().map(|(name, number)| vec![escaped(name), grouped(*number)]).collect();
    section("Numbers", &table(&["what", "how many"], &rows))
}
