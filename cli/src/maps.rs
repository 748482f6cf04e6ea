//! Maps as text: the class number of each state in turn; or by names, a line a class with its states, and a label before a colon where one is wanted.

mod broken;

pub use broken::Broken;

use crate::exit::Failure;
use crate::files;
use crate::input::Input;
use crate::model::Table;
use crate::names::{self, Names};
use crate::lexer::{Line, Mistake, Word, collected, lines, meant, mistaken, nearest, text, words};
use basilvault::Refusal;
use std::collections::HashSet;
use std::path::{Path, PathBuf};

/// A map of a table: its file, and the class of each state.
pub struct Map {
    file: PathBuf,
    pub classes: Vec<u8>,
}

/// What the file should be.
const WHAT: &str = "a map";

impl Map {
    /// The map of a file, whose states have these names.
    pub fn read(file: &Path, names: &Names) -> Result<Map, Failure> {
        let bytes = files::read(file)?;
        let text = text(file, &bytes, WHAT)?;
        let classes = if words(text).any(|word| !crate::lexer::is_number(word.text)) {
            by_names(file, text, names)
        } else {
            let class = |word: Word| word.number().and_then(|n| n.try_into().ok()).ok_or_else(|| word.mistake("a class number, 0 to 255"));
            collected(file, words(text).map(class), WHAT)
        };
        Ok(Map { file: file.to_path_buf(), classes: classes? })
    }

    /// A map that was made from a file.
    pub fn of(file: &Path, classes: Vec<u8>) -> Map {
        Map { file: file.to_path_buf(), classes }
    }

    /// The failure of a refused call on this map of a table. What is the map's fault is told of its file, with the states that break it.
    pub fn refused(&self, input: &Input, table: &Table, names: &Names, refusal: Refusal) -> Failure {
        match refusal.number() {
            15..=20 => Failure::Refused(self.file.display().to_string(), refusal, self.broken(input, table, names, refusal).text),
            _ => input.refused(refusal),
        }
    }

    /// What breaks this map of a table, which the library has refused.
    pub fn broken(&self, input: &Input, table: &Table, names: &Names, refusal: Refusal) -> Broken {
        broken::found(input, table, names, &self.classes, refusal)
    }
}

/// The classes of a map by names, numbered by their first states.
fn by_names(file: &Path, text: &str, names: &Names) -> Result<Vec<u8>, Failure> {
    let mut lines_of: Vec<Option<usize>> = vec![None; names.states.len()];
    let mut mistakes: Vec<Mistake> = Vec::new();
    for (place, mut line) in lines(text).enumerate() {
        mistakes.extend(class(&mut line, place, &mut lines_of, names));
    }
    let missing: Vec<&str> = lines_of.iter().zip(&names.states).filter(|(line, _)| line.is_none()).map(|(_, name)| name.as_str()).collect();
    if mistakes.is_empty() && !missing.is_empty() {
        let end = text.lines().count().max(1);
        mistakes.push(Mistake { line: end, column: 1, text: format!("expected every state in a class, found none with {}", missing.join(", ")) });
    }
    if !mistakes.is_empty() {
        return Err(mistaken(file, &mistakes, WHAT));
    }
    let mut seen: Vec<Option<usize>> = Vec::new();
    Ok(lines_of
        .into_iter()
        .map(|line| {
            let known = seen.iter().position(|there| *there == line);
            known.unwrap_or_else(|| {
                seen.push(line);
                seen.len() - 1
            }) as u8
        })
        .collect())
}

/// Notes the states of a line as one class; the mistakes in it.
fn class(line: &mut Line, place: usize, lines_of: &mut [Option<usize>], names: &Names) -> Vec<Mistake> {
    let mut mistakes = Vec::new();
    let mut first = true;
    while !line.is_done() {
        let Ok(word) = line.next("a state") else { break };
        if std::mem::take(&mut first) && word.text.ends_with(':') {
            continue;
        }
        let state = names::find(&names.states, word.text).map(usize::from).filter(|&state| state < lines_of.len());
        match state {
            None => mistakes.push(word.mistake(&format!("a state{}", meant(nearest(word.text, names.states.iter().map(String::as_str)))))),
            Some(state) if lines_of[state].is_some() => mistakes.push(word.mistake("a state that stands in no class before")),
            Some(state) => lines_of[state] = Some(place),
        }
    }
    mistakes
}

/// A map as text: by names where the table has some, a line a class; else a line of class numbers.
pub fn shown(map: &[u8], names: Option<&Names>) -> String {
    let Some(names) = names else {
        return map.iter().map(u8::to_string).collect::<Vec<_>>().join(" ") + "\n";
    };
    let classes = map.iter().max().map_or(0, |&last| usize::from(last) + 1);
    (0..classes).map(|class| of_class(map, class, names).collect::<Vec<_>>().join(" ") + "\n").collect()
}

/// How many pairs of states a map joins.
pub fn joined(map: &[u8]) -> usize {
    (0..map.len()).map(|q| map[..q].iter().filter(|&&class| class == map[q]).count()).sum()
}

/// The names of a class's states.
fn of_class<'a>(map: &'a [u8], class: usize, names: &'a Names) -> impl Iterator<Item = &'a str> {
    map.iter().zip(&names.states).filter(move |(c, _)| usize::from(**c) == class).map(|(_, name)| name.as_str())
}

/// The members of a class, by their names.
pub fn members(map: &[u8], class: usize, names: &Names) -> String {
    format!("{{{}}}", of_class(map, class, names).collect::<Vec<_>>().join(", "))
}

/// The names of the quotient's states: each has those of its members, joined by `+`, and where two would be alike a number after the second.
pub fn class_names(map: &[u8], names: &Names, quotient: &Table) -> Names {
    let mut taken = HashSet::new();
    let name = |class: usize| {
        let name = of_class(map, class, names).collect::<Vec<_>>().join("+");
        let others = (2..).map(|number| format!("{name}.{number}"));
        let free = std::iter::once(name.clone()).chain(others).find(|name| !taken.contains(name)).unwrap_or_default();
        taken.insert(free.clone());
        free
    };
    Names { states: (0..quotient.states.len()).map(name).collect(), ..names.clone() }
}
