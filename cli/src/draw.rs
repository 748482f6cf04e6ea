//! A table as a picture: text for Graphviz.

pub mod arrows;
pub mod looks;

use crate::model::Table;
use crate::names::Names;
use arrows::{Arrow, Line};
use basilvault::Tops;
use looks::Looks;

/// What is drawn.
#[derive(Clone, Copy)]
pub struct Picture<'a> {
    pub table: &'a Table,
    pub tops: &'a Tops,
    pub names: &'a Names,
    /// a box is drawn around each of its classes
    pub map: Option<&'a [u8]>,
    /// states that break the map
    pub broken: &'a [u8],
    /// whether what the strokes mean stands under the picture
    pub explained: bool,
}

/// The picture of a table, in Graphviz's language: an arrow into each initial state, a double ring around each accepting one, and with a map a box around
/// each class. What it shows has an id: `q3` a state, `class2` a box; an arrow has the classes `from3`, `to5` and `by1`.
pub fn dot(picture: &Picture) -> String {
    let Picture { table, tops, names, map, broken, explained } = *picture;
    let (arrows, looks) = (arrows::gathered(table, tops), Looks::of(table, tops, broken));
    let round = names.states.iter().all(|name| name.chars().count() <= 4) && table.states.iter().all(|state| state.mark == 0);
    let label = if explained { legend(&looks.meanings(table, names, &arrows)) } else { "\"\"".into() };
    let mut text = format!(
        "digraph table {{\n  rankdir=LR; ranksep=0.55; nodesep=0.35; fontname=\"{FONT}\"; fontsize=11; fontcolor=\"#555555\";\n  labelloc=b; labeljust=l; \
         label={label};\n"
    );
    text += &format!("  node [shape={}, fontname=\"{FONT}\", fontsize=13, margin=\"0.06,0.04\"];\n", if round { "circle" } else { "ellipse" });
    text += &format!("  edge [fontname=\"{FONT}\", fontsize=11, arrowsize=0.8];\n");
    let all: Vec<usize> = (0..table.states.len()).collect();
    let single: Vec<u8> = all.iter().map(|q| *q as u8).collect();
    if all.len() <= FEW {
        text += &starts(table, &all, "  ");
    }
    match map {
        None if all.len() <= FEW => all.iter().for_each(|q| text += &state(picture, &looks, *q, "  ")),
        _ => text += &classes(picture, &looks, map.unwrap_or(&single)),
    }
    arrows.iter().for_each(|arrow| text += &edge(arrow, names));
    text + "}\n"
}

/// What the arrow into an initial state says.
const START: &str = "a script starts here";

/// The letters of pictures.
const FONT: &str = "Helvetica,Arial,sans-serif";

/// Up to so many states a box of one state is seen, and arrows into initial states come from outside. Past that it is not seen, but still keeps the picture
/// narrow, and arrows come from inside, which keeps them short.
const FEW: usize = 16;

/// The states of each class in a box.
fn classes(picture: &Picture, looks: &Looks, map: &[u8]) -> String {
    let Picture { table, names, .. } = *picture;
    let mut text = String::new();
    for class in 0..map.iter().max().map_or(0, |last| last + 1) {
        let members: Vec<usize> = (0..map.len()).filter(|q| map[*q] == class).collect();
        let all: Vec<&str> = members.iter().map(|q| names.state(*q as u8)).collect();
        let (label, style) = match all[..] {
            [_] if map.len() > FEW => (String::new(), "peripheries=0"),
            [_] => (format!("class {class}"), "style=dotted; color=\"#aaaaaa\"; fontcolor=\"#777777\""),
            _ => (
                format!("class {class}: {} states are one", all.len()),
                "style=\"filled,rounded\"; color=\"#8a6d00\"; fillcolor=\"#fff6d6\"; penwidth=1.5",
            ),
        };
        let (label, tip) = (quoted(&label), quoted(&all.join(", ")));
        text += &format!("  subgraph cluster_{class} {{\n    label={label}; labelloc=t; {style}; id=class{class}; tooltip={tip};\n");
        members.iter().for_each(|q| text += &state(picture, looks, *q, "    "));
        if map.len() > FEW {
            text += &starts(table, &members, "    ");
        }
        text += "  }\n";
    }
    text
}

/// A state: its name, its mark where it has one, and how it looks.
fn state(picture: &Picture, looks: &Looks, q: usize, pad: &str) -> String {
    let Picture { table, names, .. } = *picture;
    let rings = if table.states[q].accepting { 2 } else { 1 };
    let name = names.state(q as u8);
    let label = quoted(&(broken(name) + &looks.under(table, names, q as u8)));
    format!("{pad}q{q} [label={label}, id=q{q}, tooltip={}, peripheries={rings}, {}];\n", quoted(name), looks.attributes(table, q as u8))
}

/// The arrows into those of these states that are initial, each from a point.
fn starts(table: &Table, states: &[usize], pad: &str) -> String {
    let initial = states.iter().filter(|q| table.states[**q].initial);
    let start = |q: &usize| {
        format!(
            "{pad}start{q} [shape=point, width=0.09, label=\"\", tooltip=\"{START}\"];\n{pad}start{q} -> q{q} [weight=20, tooltip=\"{START}\"];\n"
        )
    };
    initial.map(start).collect()
}

/// A name in lines of about so many characters, broken at blanks.
fn broken(name: &str) -> String {
    let words: Vec<String> = name.split(' ').map(String::from).collect();
    arrows::wrapped(&words, NARROW).iter().map(|line| line.join(" ")).collect::<Vec<_>>().join("\n")
}

/// How a kind of arrow is drawn: colours that are told apart by all readers, and in print by their strokes.
fn stroke(line: Line) -> &'static str {
    match line {
        Line::Internal => "color=black",
        Line::Call => "color=\"#0072b2\", fontcolor=\"#00507d\", penwidth=2.2",
        Line::Return => "color=\"#b34700\", fontcolor=\"#8a3700\", style=dashed, penwidth=1.3",
        Line::Dead => "color=\"#b0b0b0\", fontcolor=\"#8c8c8c\", style=dotted",
    }
}

/// What a kind of arrow is called in the style of a page.
fn kind(line: Line) -> &'static str {
    match line {
        Line::Internal => "internal",
        Line::Call => "call",
        Line::Return => "return",
        Line::Dead => "dead",
    }
}

/// What a picture means, as its label: lines that start at the left.
fn legend(meanings: &[looks::Meaning]) -> String {
    let line = |meaning: &looks::Meaning| escaped(&meaning.says) + "\\l";
    format!("\"{}\"", meanings.iter().map(line).collect::<String>())
}

/// An arrow with the first of its labels; all of them are its tooltip.
fn edge(arrow: &Arrow, names: &Names) -> String {
    let short = arrow.labels(names, MANY);
    let mut shown = arrows::wrapped(&short, WIDE);
    if shown.len() > TALL {
        let left: usize = short.len() - shown[..TALL - 1].iter().map(|line| line.len()).sum::<usize>();
        shown.truncate(TALL - 1);
        shown.push(vec![format!("… and {left} more")]);
    }
    let shown: Vec<String> = shown.iter().map(|line| line.join(", ")).collect();
    let (from, to) = (arrow.from, arrow.to);
    let by: String = arrow.by.iter().map(|(symbol, _)| format!(" by{symbol}")).collect();
    format!(
        "  q{from} -> q{to} [class=\"{} from{from} to{to}{by}\", label={}, tooltip={}, {}];\n",
        kind(arrow.line),
        quoted(&shown.join("\n")),
        quoted(&arrow.labels(names, usize::MAX).join(", ")),
        stroke(arrow.line)
    )
}

/// How wide the name of a state may become before it is broken.
const NARROW: usize = 18;

/// How wide the label of an arrow may become before a new line is begun, how many lines it has at most, and how many stack states it names of a return.
const WIDE: usize = 26;
const TALL: usize = 6;
const MANY: usize = 4;

/// A text in quotes, such that every character stands for itself.
pub fn quoted(text: &str) -> String {
    format!("\"{}\"", escaped(text))
}

/// A text as it stands between quotes.
fn escaped(text: &str) -> String {
    let mut escaped = String::new();
    for letter in text.chars() {
        match letter {
            '"' => escaped += "\\\"",
            '\\' => escaped += "\\\\",
            '\n' => escaped += "\\n",
            '&' => escaped += "&amp;",
            '<' => escaped += "&lt;",
            '>' => escaped += "&gt;",
            letter if letter.is_control() => escaped.push(' '),
            letter => escaped.push(letter),
        }
    }
    escaped
}

#[cfg(test)]
mod tests;
