//! How states look in a picture: the colour of a mark, pale where no run comes, crossed where nothing is accepted; and what all of it means.

use super::arrows::{Arrow, Line};
use crate::facts::Facts;
use crate::model::Table;
use crate::names::Names;
use basilvault::Tops;

/// A colour: its name, itself, and that of letters on it.
#[derive(Clone, Copy)]
pub struct Colour {
    pub name: &'static str,
    pub fill: &'static str,
    pub letters: &'static str,
}

/// The colours of Okabe and Ito but black, which readers who see few colours tell apart too.
const COLOURS: [Colour; 7] = [
    Colour { name: "orange", fill: "#e69f00", letters: "black" },
    Colour { name: "sky blue", fill: "#56b4e9", letters: "black" },
    Colour { name: "green", fill: "#009e73", letters: "black" },
    Colour { name: "yellow", fill: "#f0e442", letters: "black" },
    Colour { name: "purple", fill: "#cc79a7", letters: "black" },
    Colour { name: "blue", fill: "#0072b2", letters: "white" },
    Colour { name: "vermilion", fill: "#d55e00", letters: "black" },
];

/// The outlines of marks: where there are more of them than colours, the next ones have thicker outlines.
const OUTLINES: [(&str, &str); 3] = [("", "1"), (", thick outline", "3"), (", thickest outline", "5")];

/// What a state from which nothing is accepted has under its name.
const CROSS: &str = "×";

/// What is known of the states of a table.
pub struct Looks {
    /// the marks in use, ascending, without 0
    marks: Vec<u8>,
    facts: Facts,
    /// those that break a map
    broken: Vec<u8>,
}

/// A line of what a picture means, with the colour that it is about.
pub struct Meaning {
    pub colour: Option<Colour>,
    pub says: String,
}

impl Looks {
    /// Those of a table, of which these states break a map.
    pub fn of(table: &Table, tops: &Tops, broken: &[u8]) -> Looks {
        let mut marks: Vec<u8> = table.states.iter().map(|state| state.mark).filter(|mark| *mark != 0).collect();
        marks.sort_unstable();
        marks.dedup();
        Looks { marks, facts: Facts::of(table, tops), broken: broken.to_vec() }
    }

    /// Whether no run reaches a state.
    pub fn unreached(&self, q: u8) -> bool {
        self.facts.unreached.contains(&q)
    }

    /// Whether nothing is accepted from a state, where something is accepted at all.
    pub fn stuck(&self, q: u8) -> bool {
        self.facts.accepts && self.facts.stuck.contains(&q)
    }

    /// The colour of a mark, and its outline: what it is called and how wide it is.
    fn marked(&self, mark: u8) -> Option<(Colour, (&'static str, &'static str))> {
        let place = self.marks.iter().position(|other| *other == mark)?;
        Some((COLOURS[place % COLOURS.len()], OUTLINES[place / COLOURS.len()]))
    }

    /// What stands under a state's name.
    pub fn under(&self, table: &Table, names: &Names, q: u8) -> String {
        let mark = table.states[usize::from(q)].mark;
        let mark = if mark == 0 { String::new() } else { format!("\nmark {}", names.mark(mark)) };
        mark + &if self.stuck(q) { format!("\n{CROSS}") } else { String::new() }
    }

    /// The attributes of a state. Its classes are for the style of a page.
    pub fn attributes(&self, table: &Table, q: u8) -> String {
        let marked = self.marked(table.states[usize::from(q)].mark);
        let pale = self.unreached(q);
        let (fill, letters, wide) = marked.map_or(("white", "black", "1"), |(colour, outline)| (colour.fill, colour.letters, outline.1));
        let classes = [("marked", marked.is_some()), ("unreached", pale), ("stuck", self.stuck(q)), ("broken", self.broken.contains(&q))];
        let classes: Vec<&str> = classes.iter().filter(|(_, so)| *so).map(|(class, _)| *class).collect();
        let class = if classes.is_empty() { String::new() } else { format!(", class=\"{}\"", classes.join(" ")) };
        let alike = match (self.broken.contains(&q), pale) {
            (true, _) => format!("style=filled, fillcolor=\"{fill}\", fontcolor={letters}, color=\"#d55e00\", penwidth=3"),
            (_, true) if marked.is_some() => format!("style=\"filled,dashed\", fillcolor=\"{fill}40\", fontcolor=\"#6b6b6b\", color=\"#999999\", penwidth={wide}"),
            (_, true) => "style=\"filled,dashed\", fillcolor=white, fontcolor=\"#6b6b6b\", color=\"#999999\"".into(),
            _ => format!("style=filled, fillcolor=\"{fill}\", fontcolor={letters}, penwidth={wide}"),
        };
        alike + &class
    }

    /// What the strokes, colours and signs of a picture mean, as far as it has them.
    pub fn meanings(&self, table: &Table, names: &Names, arrows: &[Arrow]) -> Vec<Meaning> {
        let has = |line: Line| arrows.iter().any(|arrow| arrow.line == line);
        let any = |so: &dyn Fn(u8) -> bool| (0..table.states.len() as u8).any(so);
        let said = [
            (table.states.iter().any(|state| state.accepting), "double ring: accepting"),
            (has(Line::Internal), "thin: an internal"),
            (has(Line::Call), "thick, ↓: a call, which puts the state it leaves on the stack"),
            (has(Line::Return), "dashed, ↑: a return, with the state it takes from the stack"),
            (has(Line::Dead), "grey, dotted: a dead return, which no script can take"),
            (any(&|q| self.unreached(q)), "pale, dashed ring: no run reaches it"),
            (any(&|q| self.stuck(q)), "×: nothing is accepted from it"),
            (!self.broken.is_empty(), "thick vermilion ring: breaks the map"),
        ];
        let said = said.iter().filter(|(there, _)| *there).map(|(_, says)| Meaning { colour: None, says: says.to_string() });
        let marks = self.marks.iter().filter_map(|mark| {
            let (colour, (outline, _)) = self.marked(*mark)?;
            Some(Meaning { colour: Some(colour), says: format!("{}{outline}: mark {}", colour.name, names.mark(*mark)) })
        });
        said.chain(marks).collect()
    }
}
