//! The arrows of a picture: records of one kind between the same two states gathered.

use crate::model::Table;
use crate::names::Names;
use basilvault::Tops;

/// What an arrow stands for.
#[derive(Clone, Copy, Debug, PartialEq, Eq, PartialOrd, Ord)]
pub enum Line {
    Internal,
    Call,
    Return,
    Dead,
}

/// Records of one kind with the same ends: symbols, and of returns the stack states of each.
#[derive(Clone, Debug)]
pub struct Arrow {
    pub from: u8,
    pub to: u8,
    pub line: Line,
    pub by: Vec<(u8, Vec<u8>)>,
}

/// Whether some run can take a return.
pub fn live(tops: &Tops, record: &[u8; 4]) -> bool {
    tops.words[usize::from(record[0])] >> record[2] & 1 != 0
}

/// All arrows of a table, by their ends.
pub fn gathered(table: &Table, tops: &Tops) -> Vec<Arrow> {
    let plain = |line: Line| move |&[from, symbol, to]: &[u8; 3]| (from, to, line, symbol, None);
    let returning = |record: &[u8; 4]| {
        let line = if live(tops, record) { Line::Return } else { Line::Dead };
        (record[0], record[3], line, record[1], Some(record[2]))
    };
    let mut all: Vec<_> = table.internals.iter().map(plain(Line::Internal)).chain(table.calls.iter().map(plain(Line::Call))).collect();
    all.extend(table.returns.iter().map(returning));
    all.sort_unstable();
    let mut arrows: Vec<Arrow> = Vec::new();
    for (from, to, line, symbol, stack) in all {
        if arrows.last().is_none_or(|last| (last.from, last.to, last.line) != (from, to, line)) {
            arrows.push(Arrow { from, to, line, by: Vec::new() });
        }
        let by = &mut arrows.last_mut().expect("one was put there").by;
        match by.last_mut().filter(|(last, _)| *last == symbol) {
            Some((_, stacks)) => stacks.extend(stack),
            None => by.push((symbol, stack.into_iter().collect())),
        }
    }
    arrows
}

impl Arrow {
    /// A label for each symbol: `pan`, `country ↓`, `close ↑ start`, `close ↑ (start, inside)`, and `close ↑ 12 states` where there are more than so many.
    pub fn labels(&self, names: &Names, many: usize) -> Vec<String> {
        self.by.iter().map(|(symbol, stacks)| label(self.line, names.symbol(*symbol), stacks, names, many)).collect()
    }
}

/// The label of one symbol.
fn label(line: Line, symbol: &str, stacks: &[u8], names: &Names, many: usize) -> String {
    let over: Vec<&str> = stacks.iter().map(|stack| names.state(*stack)).collect();
    match (line, &over[..]) {
        (Line::Internal, _) => symbol.into(),
        (Line::Call, _) => format!("{symbol} ↓"),
        (_, [one]) => format!("{symbol} ↑ {one}"),
        (_, all) if all.len() > many => format!("{symbol} ↑ {} states", all.len()),
        (_, all) => format!("{symbol} ↑ ({})", all.join(", ")),
    }
}

/// Labels in lines of about so many characters, each line with one at least.
pub fn wrapped(labels: &[String], wide: usize) -> Vec<Vec<String>> {
    let mut lines: Vec<Vec<String>> = Vec::new();
    let mut used = 0;
    for label in labels {
        let length = label.chars().count() + 2;
        match lines.last_mut().filter(|_| used + length <= wide) {
            Some(line) => line.push(label.clone()),
            None => {
                lines.push(vec![label.clone()]);
                used = 0;
            }
        }
        used += length;
    }
    lines
}
