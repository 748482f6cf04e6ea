//! A map that the check does not accept: what breaks it, and where.

use super::html::{count, document, escaped, heading, notice, opening, paragraph, section};
use super::picture::{self, Shown};
use super::reduction::Reduction;
use super::sections::{classes, counts, facts};
use super::words;
use crate::maps::Broken;
use basilvault::Refusal;

/// A map that was refused: the file that it stands in, its classes, the library's answer and what breaks it.
pub struct Refused<'a> {
    pub file: &'a str,
    pub map: &'a [u8],
    pub refusal: Refusal,
    pub broken: Broken,
}

/// The page of a map that the check does not accept, with what the library's search makes of the table.
pub fn refused(it: &Reduction, refused: &Refused, title: &str) -> String {
    let lead = format!("The map of {} is not accepted", refused.file);
    let states = &refused.broken.states;
    let pair: Vec<&str> = states.iter().map(|q| it.names.state(*q)).collect();
    let broken = match pair.len() {
        0 => ("No pair breaks it".into(), "the map is no map of this table".into()),
        _ => (pair.join(" and "), "the states that break it, where it is looked at first".into()),
    };
    let search = (classes(it.search.classes), format!("by the library's search, which joins {}", count(it.search.joined, "pair")));
    let told = refused.refusal.to_string();
    let (number, meaning) = told.split_once(": ").unwrap_or((&told, ""));
    let head = opening(title, &lead, &[(sentence_case(number), meaning.into()), broken, search]);
    let said = match refused.broken.text.as_str() {
        "" => refused.refusal.to_string(),
        text => format!("The map breaks a condition: {text}."),
    };
    let body = [head, notice(&said), words::glossary(), drawn(it, refused), instead(it)];
    document(title, &body.concat())
}

/// A text with its first letter large.
fn sentence_case(text: &str) -> String {
    text.chars().take(1).flat_map(char::to_uppercase).chain(text.chars().skip(1)).collect()
}

/// The table with the classes as they were drawn.
fn drawn(it: &Reduction, refused: &Refused) -> String {
    // a map of another length, or with class numbers left out, cannot be laid over the table
    let fits = !refused.broken.states.is_empty();
    let column: Vec<(u8, String)> = refused.map.iter().map(|class| (*class, class.to_string())).collect();
    let shown = Shown {
        table: &it.before,
        tops: &it.tops,
        names: it.names,
        map: fits.then_some(refused.map),
        broken: &refused.broken.states,
        prefix: "in",
        column: fits.then_some(("class", &column)),
    };
    let text = paragraph(&counts(&it.before)) + &facts(&it.before, &it.tops, it.names);
    picture::shown(&shown).under("section", &heading("The map as it was drawn"), &text)
}

/// What may be used in its place.
fn instead(it: &Reduction) -> String {
    let joined: Vec<String> =
        it.joined().iter().map(|members| members.iter().map(|q| it.names.state(*q)).collect::<Vec<_>>().join(", ")).collect();
    let said = match joined.len() {
        0 => "The library's search joins no two states of this table.".into(),
        _ => format!("The library's search joins, and the check accepts: {}.", joined.join("; ")),
    };
    let plain: Vec<String> = it.map.iter().map(u8::to_string).collect();
    section("What may be joined", &(paragraph(&said) + &format!("<p><code>{}</code></p>\n", escaped(&plain.join(" ")))))
}
