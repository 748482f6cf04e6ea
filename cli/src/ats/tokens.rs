//! The words and signs of AutomataScript, each with its line and column.

use super::NOTE;
use crate::lexer::{Mistake, Word};
use std::iter::Peekable;
use std::str::Chars;

/// What a token is.
#[derive(Clone, Copy, Debug, PartialEq, Eq)]
pub enum Sort {
    /// a bare word
    Word,
    /// a word in quotes, here without them
    Quoted,
    /// one of ( ) { } = , ;
    Sign,
    /// a comment that is meant for the table; its words follow, up to the end of the line
    Note,
    /// the end of the text
    End,
}

/// A token and where it starts.
#[derive(Clone, Debug)]
pub struct Token {
    pub sort: Sort,
    pub text: String,
    pub line: usize,
    pub column: usize,
}

impl Token {
    /// The mistake that stands here, where something else was expected.
    pub fn mistake(&self, expected: &str) -> Mistake {
        match self.sort {
            Sort::End => Mistake { line: self.line, column: self.column, text: format!("expected {expected}, found the end of the text") },
            _ => Word { text: &self.text, line: self.line, column: self.column }.mistake(expected),
        }
    }

    /// Whether it names something.
    pub fn is_name(&self) -> bool {
        matches!(self.sort, Sort::Word | Sort::Quoted)
    }

    /// Whether it is this sign.
    pub fn is(&self, sign: char) -> bool {
        self.sort == Sort::Sign && self.text.starts_with(sign)
    }
}

/// The signs, which end a bare word.
const SIGNS: &str = "(){}=,;";

/// The tokens of a text; a mistake where there is none.
pub struct Tokens<'a> {
    letters: Peekable<Chars<'a>>,
    line: usize,
    column: usize,
}

impl<'a> Tokens<'a> {
    /// Those of a text.
    pub fn of(text: &'a str) -> Tokens<'a> {
        Tokens { letters: text.chars().peekable(), line: 1, column: 1 }
    }

    /// A token that starts where the text is read now.
    fn here(&self, sort: Sort, text: String) -> Token {
        Token { sort, text, line: self.line, column: self.column }
    }

    /// Takes a letter.
    fn take(&mut self) -> Option<char> {
        let letter = self.letters.next()?;
        (self.line, self.column) = if letter == '\n' { (self.line + 1, 1) } else { (self.line, self.column + 1) };
        Some(letter)
    }

    /// Takes letters as long as they are such.
    fn while_such(&mut self, such: impl Fn(char) -> bool) -> String {
        let mut taken = String::new();
        while let Some(letter) = self.letters.peek().copied().filter(|letter| such(*letter)) {
            taken.push(letter);
            self.take();
        }
        taken
    }

    /// Whether the text goes on with this.
    fn goes_on(&self, start: &str) -> bool {
        let mut letters = self.letters.clone();
        start.chars().all(|letter| letters.next() == Some(letter))
    }

    /// Passes over blanks and comments, up to a comment that is meant for the table.
    fn skip(&mut self) -> Result<(), Mistake> {
        loop {
            self.while_such(char::is_whitespace);
            if self.goes_on("//") && !self.goes_on(NOTE) {
                self.while_such(|letter| letter != '\n');
            } else if self.goes_on("/*") {
                let start = self.here(Sort::Sign, "/*".into());
                self.take();
                self.take();
                while !self.goes_on("*/") {
                    self.take().ok_or_else(|| start.mistake("a comment that ends with `*/`"))?;
                }
                self.take();
                self.take();
            } else {
                return Ok(());
            }
        }
    }

    /// A word in quotes, after the first of them.
    fn quoted(&mut self, mut token: Token) -> Result<Token, Mistake> {
        loop {
            let here = self.here(Sort::Word, token.text.clone());
            match self.take() {
                Some('"') => return Ok(token),
                Some('\\') => {
                    let letter = self.take().unwrap_or(' ');
                    let meant = [('"', '"'), ('\\', '\\'), ('n', '\n'), ('t', '\t'), ('r', '\r')].into_iter().find(|(from, _)| *from == letter);
                    let (_, meant) = meant.ok_or_else(|| Token { text: format!("\\{letter}"), ..here }.mistake("one of \\\" \\\\ \\n \\t \\r"))?;
                    token.text.push(meant);
                }
                None | Some('\n') => return Err(token.mistake("a word that ends with `\"` in its line")),
                Some(letter) => token.text.push(letter),
            }
        }
    }

    /// The next token.
    fn token(&mut self) -> Result<Token, Mistake> {
        self.skip()?;
        let mut token = self.here(Sort::End, String::new());
        let Some(&letter) = self.letters.peek() else { return Ok(token) };
        if self.goes_on(NOTE) {
            token.sort = Sort::Note;
            while token.text != NOTE {
                token.text.extend(self.take());
            }
        } else if letter == '"' {
            token.sort = Sort::Quoted;
            self.take();
            return self.quoted(token);
        } else if SIGNS.contains(letter) {
            token.sort = Sort::Sign;
            token.text.extend(self.take());
        } else {
            token.sort = Sort::Word;
            while self.letters.peek().is_some_and(|&letter| bare(letter)) && !self.goes_on("//") && !self.goes_on("/*") {
                token.text.extend(self.take());
            }
        }
        Ok(token)
    }
}

/// Whether a letter may stand in a bare word.
fn bare(letter: char) -> bool {
    !letter.is_whitespace() && !SIGNS.contains(letter) && letter != '"'
}

impl Iterator for Tokens<'_> {
    type Item = Result<Token, Mistake>;

    /// The next token; the end of the text is one, again and again.
    fn next(&mut self) -> Option<Result<Token, Mistake>> {
        Some(self.token())
    }
}
