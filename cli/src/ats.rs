//! Ultimate's AutomataScript: a table as a `NestedWordAutomaton`, both ways. It has no place for marks, for the order of symbols of different kinds and for the
//! version; the last two stand in comments that start with `//@basilvault`, which Ultimate passes over.

mod read;
mod show;
mod tokens;

pub use read::{Read, read};
pub use show::show;

use crate::lexer;
use crate::model::Kind;
use std::path::Path;
use tokens::{Sort, Tokens};

/// The word that a table starts with.
const START: &str = "NestedWordAutomaton";

/// What comments that say more than the script can start with.
const NOTE: &str = "//@basilvault";

/// The alphabets, in the order in which symbols are numbered where no comment says another.
const ALPHABETS: [(&str, Kind); 3] = [("callAlphabet", Kind::Call), ("internalAlphabet", Kind::Internal), ("returnAlphabet", Kind::Return)];

/// The sets of states, and those of moves.
const STATES: [&str; 3] = ["states", "initialStates", "finalStates"];
const MOVES: [(&str, Kind); 3] = [("callTransitions", Kind::Call), ("internalTransitions", Kind::Internal), ("returnTransitions", Kind::Return)];

/// Whether a file is meant as AutomataScript: by the end of its name, or by its first word.
pub fn is_meant(file: &Path, bytes: &[u8]) -> bool {
    let start = String::from_utf8_lossy(lexer::unmarked(&bytes[..bytes.len().min(1 << 16)]));
    let mut noted = 0;
    let first = Tokens::of(&start).flatten().find(|token| {
        if token.sort == Sort::Note {
            noted = token.line;
        }
        token.line != noted || token.sort == Sort::End
    });
    let named = first.is_some_and(|token| token.sort == Sort::Word && lexer::nearest(&token.text, [START]).is_some());
    named || file.extension().is_some_and(|end| end == "ats")
}

#[cfg(test)]
mod tests;
