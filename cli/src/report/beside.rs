//! Two tables side by side, what `compare` says of them, and the scripts that tell them apart.

use super::html::{LONG, count, document, escaped, folded, opening, paragraph, section, table};
use super::picture::{self, Shown};
use super::sections::{counts, facts};
use super::words;
use crate::compared::{Compared, Fit, Verdict};
use crate::trace;
use basilvault::Tops;

/// How many steps of a script are shown.
const STEPS: usize = 500;

/// The page of two tables with their tops, of which this is known.
pub fn beside(compared: &Compared, both: &[Fit; 2], tops: &[Tops; 2], titles: &[String; 2]) -> String {
    let verdict = compared.verdict(both);
    let [first, second] = titles;
    let lead = match both {
        [Fit::Yes, Fit::Yes] => format!("{first} and {second} accept the same scripts"),
        [Fit::Yes, Fit::No(_)] => format!("{second} accepts all that {first} accepts, and more"),
        [Fit::No(_), Fit::Yes] => format!("{first} accepts all that {second} accepts, and more"),
        [Fit::No(_), Fit::No(_)] => "Each accepts scripts that the other does not".into(),
        [Fit::Yes, Fit::Refused(_)] => format!("{second} accepts all that {first} accepts; the other way is not told"),
        [Fit::Refused(_), Fit::Yes] => format!("{first} accepts all that {second} accepts; the other way is not told"),
        [Fit::No(_), Fit::Refused(_)] => format!("{first} accepts scripts that {second} does not; the other way is not told"),
        [Fit::Refused(_), Fit::No(_)] => format!("{second} accepts scripts that {first} does not; the other way is not told"),
        [Fit::Refused(_), Fit::Refused(_)] => "Neither way is told".into(),
    };
    let fact = |place: usize, title: &String| (title.clone(), counts(&compared.tables[place]));
    let title = format!("{first} and {second}");
    let scripts: String = [0, 1].iter().map(|&place| told_apart(compared, both, titles, place)).collect();
    let head = opening(&title, &lead, &[fact(0, first), fact(1, second)]);
    let sides: String = [0, 1].iter().map(|&place| side(compared, tops, titles, place)).collect();
    let sides = section("Side by side", &format!("<div class=\"beside\">\n{sides}</div>\n"));
    document(&title, &[head, words::glossary(), said(&verdict, titles), scripts, sides].concat())
}

/// What `compare` prints.
fn said(verdict: &Verdict, [first, second]: &[String; 2]) -> String {
    let lines: String = std::iter::once(verdict.head).chain(verdict.lines.iter().map(String::as_str)).map(|line| format!("{}\n", escaped(line))).collect();
    let note = format!("The first is {first}, the second {second}. The library's answer is proved; it has tried every script that is shown on both tables.");
    section("What compare says", &format!("<pre>{lines}</pre>\n{}", paragraph(&note)))
}

/// A script that one table alone accepts, step by step on both.
fn told_apart(compared: &Compared, both: &[Fit; 2], titles: &[String; 2], place: usize) -> String {
    let Fit::No(Some(script)) = &both[place] else { return String::new() };
    let reached = [0, 1].map(|side| trace::steps(&compared.tables[side], script));
    let named = |side: usize, states: &[usize]| match states {
        [] => "<span class=\"faint\">no run is left</span>".to_string(),
        _ => escaped(&states.iter().map(|q| compared.names[side].states[*q].as_str()).collect::<Vec<_>>().join(", ")),
    };
    let step = |at: usize| {
        let by = if at == 0 { "<span class=\"faint\">start</span>".into() } else { format!("<b>{}</b>", escaped(compared.names[0].symbol(script[at - 1]))) };
        vec![at.to_string(), by, named(0, &reached[0][at]), named(1, &reached[1][at])]
    };
    let mut rows: Vec<Vec<String>> = (0..=script.len()).take(STEPS).map(step).collect();
    let accepts = |side: usize| if side == place { "<b>accepted</b>" } else { "<b>not accepted</b>" };
    rows.push(vec![String::new(), "end".into(), accepts(0).into(), accepts(1).into()]);
    let steps = table(&["step", "symbol", &titles[0], &titles[1]], &rows);
    let more = if script.len() >= STEPS { paragraph(&format!("The first {STEPS} of its {} steps are shown.", script.len() + 1)) } else { String::new() };
    let head = format!("A script that {} alone accepts", titles[place]);
    let open = paragraph("A shortest one, and the states that its runs can be in after each symbol:") + &more;
    section(&head, &(open + &folded(&count(script.len(), "symbol"), rows.len() > 2 * LONG, &steps)))
}

/// One of the two tables.
fn side(compared: &Compared, tops: &[Tops; 2], titles: &[String; 2], place: usize) -> String {
    let (table, names) = (&compared.tables[place], &compared.names[place]);
    let prefix = ["first", "second"][place];
    let shown = Shown { table, tops: &tops[place], names, map: None, broken: &[], prefix, column: None };
    picture::shown(&shown).under("div", &format!("<h3>{}</h3>\n", escaped(&titles[place])), &facts(table, &tops[place], names))
}
