//! Where every record went.

use super::html::{LONG, escaped, folded, grouped, noted_table, paragraph, section, table};
use super::reduction::Reduction;
use crate::model::Kind;
use crate::names::Names;
use basilvault::Recorded;
use std::collections::HashMap;

/// A section of the table that came in: its name, its records, and the library's word on each.
struct Part<'a> {
    name: &'static str,
    records: Vec<Vec<u8>>,
    fates: &'a [u8],
}

/// The three sections of records.
fn parts<'a>(it: &'a Reduction) -> [Part<'a>; 3] {
    let (internals, rest) = it.fates.split_at(it.before.internals.len());
    let (calls, returns) = rest.split_at(it.before.calls.len());
    let wide = |records: &[[u8; 3]]| records.iter().map(|record| record.to_vec()).collect();
    [
        Part { name: "Internals", records: wide(&it.before.internals), fates: internals },
        Part { name: "Calls", records: wide(&it.before.calls), fates: calls },
        Part { name: "Returns", records: it.before.returns.iter().map(|record| record.to_vec()).collect(), fates: returns },
    ]
}

/// Where every record went: how many, and each.
pub fn records(it: &Reduction) -> String {
    let said = "Kept: it is in the table that goes out, between the classes of its states. Folded: an earlier record of the table that came in became the \
                same one, so it is there already, and that record is named. Dead: a return over a stack state that no script can bring about there; it is \
                left out.";
    let parts = parts(it);
    let row = |part: &Part| {
        let count = |fate: u8| grouped(part.fates.iter().filter(|other| **other == fate).count() as u64);
        let [kept, folded, dead] = [Recorded::KEPT, Recorded::FOLDED, Recorded::DEAD].map(count);
        vec![part.name.into(), grouped(part.fates.len() as u64), kept, folded, dead]
    };
    let sums = table(&["", "all", "kept", "folded", "dead"], &parts.iter().map(row).collect::<Vec<_>>());
    let lists: String = parts.iter().filter(|part| !part.records.is_empty()).map(|part| fate_list(it, part)).collect();
    section("Where every record went", &format!("{}{sums}<div id=\"records\">\n{lists}</div>\n", paragraph(said)))
}

/// The records of a section, each with its fate.
fn fate_list(it: &Reduction, part: &Part) -> String {
    let mut kept: HashMap<Vec<u8>, String> = HashMap::new();
    let mut rows = Vec::new();
    for (record, &fate) in part.records.iter().zip(part.fates) {
        let image: Vec<u8> = record.iter().enumerate().map(|(place, &x)| if place == 1 { x } else { it.class(x) }).collect();
        let was = moved(it, it.names, record);
        let (name, became) = match fate {
            Recorded::KEPT => ("kept", moved(it, &it.after_names, &image)),
            Recorded::FOLDED => ("folded", format!("into {}", kept.get(&image).cloned().unwrap_or_default())),
            _ => ("dead", String::new()),
        };
        if fate == Recorded::KEPT {
            kept.insert(image, was.clone());
        }
        let states: Vec<String> = record.iter().enumerate().filter(|(place, _)| *place != 1).map(|(_, q)| q.to_string()).collect();
        let (by, symbol) = (record[1], escaped(it.names.symbol(record[1])));
        let attributes = format!(" data-fate=\"{name}\" data-by=\"{by}\" data-symbol=\"{symbol}\" data-states=\"{}\"", states.join(" "));
        rows.push((attributes, vec![was, format!("<span class=\"fate {name}\">{name}</span>"), became]));
    }
    let head = format!("{}, {}", part.name, grouped(part.records.len() as u64));
    folded(&head, part.records.len() > LONG, &noted_table(&["record", "is", "became"], &rows))
}

/// A record in a line: from, by, to.
fn moved(it: &Reduction, names: &Names, record: &[u8]) -> String {
    let by = names.symbol(record[1]);
    let by = match (it.before.symbols[usize::from(record[1])], record) {
        (Kind::Return, [_, _, stack, _]) => format!("{by} ↑ {}", names.state(*stack)),
        (Kind::Call, _) => format!("{by} ↓"),
        _ => by.into(),
    };
    let [from, to] = [record[0], record[record.len() - 1]].map(|q| escaped(names.state(q)));
    format!("{from} <b>{}</b> → {to}", escaped(&by))
}
