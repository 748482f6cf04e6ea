//! Names for the symbols, states and marks of a table.

use crate::model::{Kind, Table};

/// The names of a table's symbols and states, and of those marks that have one.
#[derive(Clone, Debug, Default, PartialEq, Eq)]
pub struct Names {
    pub symbols: Vec<String>,
    pub states: Vec<String>,
    pub marks: [Option<String>; 16],
}

impl Names {
    /// The names where none are given: a symbol is `i`, `c` or `r` by its kind, a state `q`, each with its number; marks are numbers.
    pub fn numbered(table: &Table) -> Names {
        let letter = |kind: &Kind| match kind {
            Kind::Internal => 'i',
            Kind::Call => 'c',
            Kind::Return => 'r',
        };
        Names {
            symbols: table.symbols.iter().enumerate().map(|(number, kind)| format!("{}{number}", letter(kind))).collect(),
            states: (0..table.states.len()).map(|number| format!("q{number}")).collect(),
            marks: Default::default(),
        }
    }

    /// The name of a symbol.
    pub fn symbol(&self, number: u8) -> &str {
        &self.symbols[usize::from(number)]
    }

    /// The name of a state.
    pub fn state(&self, number: u8) -> &str {
        &self.states[usize::from(number)]
    }

    /// The name of a mark, or its number.
    pub fn mark(&self, number: u8) -> String {
        self.marks[usize::from(number)].clone().unwrap_or_else(|| number.to_string())
    }
}

/// The number of a name among these, or the number that the word itself is, 255 at most.
pub fn find(names: &[String], word: &str) -> Option<u8> {
    match crate::lexer::is_number(word) {
        true => Some(word.parse().unwrap_or(u8::MAX)),
        false => names.iter().position(|name| name == word).map(|place| place as u8),
    }
}
