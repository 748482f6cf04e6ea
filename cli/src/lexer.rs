//! Text as lines of words, each with its line and column, and mistakes that say where they are. `#` starts a comment.

use crate::exit::Failure;
use std::path::Path;

/// The mistakes of a file that are told.
const TOLD: usize = 10;

/// A mistake: its line and column, from 1, and what was expected and found.
#[derive(Clone, Debug, PartialEq, Eq)]
pub struct Mistake {
    pub line: usize,
    pub column: usize,
    pub text: String,
}

/// A word and where it starts.
#[derive(Clone, Copy, Debug, PartialEq, Eq)]
pub struct Word<'a> {
    pub text: &'a str,
    pub line: usize,
    pub column: usize,
}

impl Word<'_> {
    /// The mistake that stands at this word, which is not what was expected.
    pub fn mistake(&self, expected: &str) -> Mistake {
        Mistake { line: self.line, column: self.column, text: format!("expected {expected}, found {}", quoted(self.text)) }
    }

    /// The number that the word is, where it is digits alone.
    pub fn number(&self) -> Option<u64> {
        is_number(self.text).then(|| self.text.parse().unwrap_or(u64::MAX))
    }
}

/// Whether a word is a number, and so no name.
pub fn is_number(word: &str) -> bool {
    !word.is_empty() && word.bytes().all(|byte| byte.is_ascii_digit())
}

/// The words of a line that are still to be read.
pub struct Line<'a> {
    words: std::vec::IntoIter<Word<'a>>,
    number: usize,
    end: usize,
}

impl<'a> Line<'a> {
    /// A line with this number, without its comment.
    fn of(number: usize, text: &'a str) -> Line<'a> {
        let text = text.split('#').next().unwrap_or(text);
        let (mut words, mut start) = (Vec::new(), None);
        let mut end = 1;
        for (column, (place, c)) in text.char_indices().chain([(text.len(), ' ')]).enumerate() {
            match (start, c.is_whitespace()) {
                (None, false) => start = Some((place, column + 1)),
                (Some((from, column_from)), true) => {
                    words.push(Word { text: &text[from..place], line: number, column: column_from });
                    (start, end) = (None, column + 1);
                }
                _ => {}
            }
        }
        Line { words: words.into_iter(), number, end }
    }

    /// Whether no word is left.
    pub fn is_done(&self) -> bool {
        self.words.len() == 0
    }

    /// The next word; a mistake where the line ends.
    pub fn next(&mut self, expected: &str) -> Result<Word<'a>, Mistake> {
        self.words.next().ok_or_else(|| Mistake {
            line: self.number,
            column: self.end,
            text: format!("expected {expected}, found the end of the line"),
        })
    }

    /// The end of the line; a mistake where a word is left.
    pub fn done(&mut self) -> Result<(), Mistake> {
        self.words.next().map_or(Ok(()), |word| Err(word.mistake("the end of the line")))
    }
}

/// The lines of a text that have a word.
pub fn lines(text: &str) -> impl Iterator<Item = Line<'_>> {
    text.split('\n').enumerate().map(|(place, line)| Line::of(place + 1, line)).filter(|line| !line.is_done())
}

/// All words of a text.
pub fn words(text: &str) -> impl Iterator<Item = Word<'_>> {
    lines(text).flat_map(|line| line.words)
}

/// A word as it stands in a message: at most forty characters, none that a terminal obeys.
pub fn quoted(word: &str) -> String {
    let shown: String = word.chars().take(40).flat_map(|c| if c.is_control() { c.escape_default().collect() } else { vec![c] }).collect();
    format!("`{shown}{}`", if word.chars().nth(40).is_some() { ".." } else { "" })
}

/// The word among these that another was meant as: at most two letters are missing, added, wrong or exchanged, and fewer than half of them.
pub fn nearest<'a>(word: &str, all: impl IntoIterator<Item = &'a str>) -> Option<&'a str> {
    let most = 2.min(word.chars().count() / 2);
    let near = all.into_iter().map(|one| (distance(word, one), one)).filter(|(far, _)| *far <= most);
    near.min_by_key(|(far, _)| *far).map(|(_, one)| one)
}

/// The end of a message that names the word which was meant.
pub fn meant(nearest: Option<&str>) -> String {
    nearest.map_or(String::new(), |word| format!(" (did you mean {word}?)"))
}

/// How many letters are missing, added, wrong or exchanged with the next one.
fn distance(one: &str, other: &str) -> usize {
    let (one, other): (Vec<char>, Vec<char>) = (one.chars().collect(), other.chars().collect());
    let mut rows = vec![(0..=other.len()).collect::<Vec<_>>()];
    for (i, a) in one.iter().enumerate() {
        let mut row = vec![i + 1];
        for (j, b) in other.iter().enumerate() {
            let changed = rows[i][j] + usize::from(a != b);
            let mut least = changed.min(rows[i][j + 1] + 1).min(row[j] + 1);
            if i > 0 && j > 0 && one[i - 1] == *b && other[j - 1] == *a {
                least = least.min(rows[i - 1][j - 1] + 1);
            }
            row.push(least);
        }
        rows.push(row);
    }
    rows[one.len()][other.len()]
}

/// Bytes as text; a mistake at the first byte that is none.
fn utf8(bytes: &[u8]) -> Result<&str, Mistake> {
    std::str::from_utf8(bytes).map_err(|error| {
        let before = String::from_utf8_lossy(&bytes[..error.valid_up_to()]);
        let line = before.matches('\n').count() + 1;
        let column = before.chars().rev().take_while(|&c| c != '\n').count() + 1;
        Mistake { line, column, text: format!("expected text in UTF-8, found the byte {:02x}", bytes[error.valid_up_to()]) }
    })
}

/// The failure of a file with mistakes: the first ten with file, line and column, then what it is not.
pub fn mistaken(file: &Path, mistakes: &[Mistake], what: &str) -> Failure {
    let file = file.display();
    let mut lines: Vec<_> = mistakes.iter().take(TOLD).map(|m| format!("{file}:{}:{}: {}", m.line, m.column, m.text)).collect();
    let more = match mistakes.len().saturating_sub(TOLD) {
        0 => String::new(),
        more => format!(" ({more} more)"),
    };
    lines.push(format!("basilvault: {file}: not {what}{more}"));
    Failure::Mistaken(lines)
}

/// Bytes without the byte order mark that some editors put first.
pub fn unmarked(bytes: &[u8]) -> &[u8] {
    bytes.strip_prefix(b"\xef\xbb\xbf").unwrap_or(bytes)
}

/// The bytes of a file as text.
pub fn text<'a>(file: &Path, bytes: &'a [u8], what: &str) -> Result<&'a str, Failure> {
    utf8(unmarked(bytes)).map_err(|mistake| mistaken(file, &[mistake], what))
}

/// What the parts of a file give, or all of its mistakes.
pub fn collected<T>(file: &Path, parts: impl Iterator<Item = Result<T, Mistake>>, what: &str) -> Result<Vec<T>, Failure> {
    let (mut all, mut mistakes) = (Vec::new(), Vec::new());
    for part in parts {
        match part {
            Ok(part) => all.push(part),
            Err(mistake) => mistakes.push(mistake),
        }
    }
    if mistakes.is_empty() { Ok(all) } else { Err(mistaken(file, &mistakes, what)) }
}
