//! A table in text form, line by line, with names for symbols, states and marks.

mod read;
mod show;

pub use read::read;
pub use show::{internal, record, show};

use crate::lexer;

/// The words of the form, which are no names.
const FORM: [&str; 8] = ["table", "internal", "call", "return", "mark", "state", "over", "->"];

/// Whether a word may be a name: no number, no word of the form, and nothing that a terminal obeys.
fn is_name(word: &str) -> bool {
    !lexer::is_number(word) && !FORM.contains(&word) && !word.chars().any(char::is_control)
}

/// Whether a name from elsewhere can stand in a text: a word that may be a name, without blanks and without the sign of a comment.
pub fn is_word(name: &str) -> bool {
    is_name(name) && !name.is_empty() && !name.contains(|letter: char| letter == '#' || letter.is_whitespace())
}

/// Whether bytes are meant as text: the first word is `table`, or nearly so; or they start as UTF-16 does.
pub fn is_meant(bytes: &[u8]) -> bool {
    let wide = [[0xff, 0xfe], [0xfe, 0xff]].iter().any(|mark| bytes.starts_with(mark));
    let start = String::from_utf8_lossy(lexer::unmarked(&bytes[..bytes.len().min(1 << 16)])).to_lowercase();
    wide || lexer::words(&start).next().is_some_and(|word| lexer::nearest(word.text, ["table"]).is_some())
}
