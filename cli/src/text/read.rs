//! A table from text, or the mistakes of the text.

use super::is_name;
use crate::model::{Kind, State, Table};
use crate::names::Names;
use crate::lexer::{Line, Mistake, Word, lines};
use basilvault::{MOST_CALLS, MOST_INTERNALS, MOST_RETURNS, MOST_STATES, MOST_SYMBOLS};
use std::collections::HashMap;

/// Named things in the order of their lines: the number and the line of each name.
#[derive(Default)]
struct Named(HashMap<String, (u8, usize)>);

impl Named {
    /// Gives a name the number; a mistake where the word is no name or is taken.
    fn add(&mut self, word: Word, number: u8, what: &str) -> Result<String, Mistake> {
        if !is_name(word.text) {
            return Err(word.mistake(&format!("a name for a {what}")));
        }
        if let Some((_, line)) = self.0.get(word.text) {
            return Err(word.mistake(&format!("another name than that of the {what} of line {line}")));
        }
        self.0.insert(word.text.into(), (number, word.line));
        Ok(word.text.into())
    }

    /// The number of a name, or a number below the count.
    fn find(&self, word: Word, count: usize, what: &str) -> Result<u8, Mistake> {
        let number = match word.number() {
            Some(number) => u8::try_from(number).ok().filter(|&number| usize::from(number) < count),
            None => self.0.get(word.text).map(|(number, _)| *number),
        };
        number.ok_or_else(|| word.mistake(what))
    }
}

/// What was read so far.
#[derive(Default)]
struct Reader {
    table: Table,
    names: Names,
    symbols: Named,
    states: Named,
    marks: Named,
    moves: HashMap<Vec<u8>, usize>,
}

/// The table and the names of a text, or all mistakes in it.
pub fn read(text: &str) -> Result<(Table, Names), Vec<Mistake>> {
    let mut reader = Reader::default();
    let mut mistakes = Vec::new();
    let mut rest = lines(text);
    let version = match rest.next() {
        Some(mut line) => version(&mut line),
        None => Err(Mistake { line: 1, column: 1, text: "expected `table`, found the end of the text".into() }),
    };
    // after a first line that is mistaken marks are taken
    reader.table.version = version.unwrap_or_else(|mistake| {
        mistakes.push(mistake);
        2
    });
    mistakes.extend(rest.filter_map(|mut line| reader.line(&mut line).err()));
    if !mistakes.is_empty() {
        return Err(mistakes);
    }
    reader.table.internals.sort_unstable();
    reader.table.calls.sort_unstable();
    reader.table.returns.sort_unstable();
    Ok((reader.table, reader.names))
}

/// The version, from the first line.
fn version(line: &mut Line) -> Result<u8, Mistake> {
    let first = line.next("`table`")?;
    if first.text != "table" {
        return Err(first.mistake("`table`"));
    }
    let expected = "the version, 1 or 2";
    let word = line.next(expected)?;
    let version = match word.number() {
        Some(number @ 1..=2) => number as u8,
        _ => return Err(word.mistake(expected)),
    };
    line.done().map(|()| version)
}

/// A mistake where there are as many as a table may have.
fn room(word: Word, count: usize, most: usize, what: &str) -> Result<(), Mistake> {
    if count < most { Ok(()) } else { Err(word.mistake(&format!("at most {most} {what}"))) }
}

impl Reader {
    /// Reads a line after the first.
    fn line(&mut self, line: &mut Line) -> Result<(), Mistake> {
        let word = line.next("a declaration or a move")?;
        match word.text {
            "internal" => self.symbol(line, Kind::Internal),
            "call" => self.symbol(line, Kind::Call),
            "return" => self.symbol(line, Kind::Return),
            "mark" => self.mark(word, line),
            "state" => self.state(line),
            _ => self.moved(word, line),
        }
    }

    /// Reads the name of a symbol.
    fn symbol(&mut self, line: &mut Line, kind: Kind) -> Result<(), Mistake> {
        let word = line.next("a name for a symbol")?;
        let count = self.table.symbols.len();
        room(word, count, MOST_SYMBOLS, "symbols")?;
        self.names.symbols.push(self.symbols.add(word, count as u8, "symbol")?);
        self.table.symbols.push(kind);
        line.done()
    }

    /// Reads the name of a mark and its number.
    fn mark(&mut self, first: Word, line: &mut Line) -> Result<(), Mistake> {
        if self.table.version == 1 {
            return Err(first.mistake("a table of version 2 before a mark"));
        }
        let word = line.next("a name for a mark")?;
        let expected = "the number of the mark, 0 to 15";
        let numeral = line.next(expected)?;
        let number = numeral.number().filter(|&number| number < 16).ok_or_else(|| numeral.mistake(expected))? as u8;
        let place = &mut self.names.marks[usize::from(number)];
        if let Some(name) = place {
            return Err(numeral.mistake(&format!("another mark than that of {name}")));
        }
        *place = Some(self.marks.add(word, number, "mark")?);
        line.done()
    }

    /// Reads a state: its name, then what it is. The name is known though what is after it be mistaken.
    fn state(&mut self, line: &mut Line) -> Result<(), Mistake> {
        let word = line.next("a name for a state")?;
        let count = self.table.states.len();
        room(word, count, MOST_STATES, "states")?;
        self.names.states.push(self.states.add(word, count as u8, "state")?);
        self.table.states.push(State::default());
        self.table.states[count] = self.properties(line)?;
        Ok(())
    }

    /// Reads what a state is: initial, accepting, marked, each at most once.
    fn properties(&self, line: &mut Line) -> Result<State, Mistake> {
        let mut state = State::default();
        let mut left = vec!["initial", "accepting"];
        left.extend((self.table.version == 2).then_some("mark"));
        while !line.is_done() {
            let word = line.next("")?;
            let Some(place) = left.iter().position(|&property| property == word.text) else {
                return Err(
                    word.mistake(&left.iter().map(|property| format!("`{property}` or ")).chain(["the end of the line".into()]).collect::<String>())
                );
            };
            match left.remove(place) {
                "initial" => state.initial = true,
                "accepting" => state.accepting = true,
                _ => state.mark = self.marked(line)?,
            }
        }
        Ok(state)
    }

    /// Reads the mark of a state, by its name or number.
    fn marked(&self, line: &mut Line) -> Result<u8, Mistake> {
        let expected = "a mark: the name of one, or 0 to 15";
        self.marks.find(line.next(expected)?, 16, expected)
    }

    /// Reads a state that was declared.
    fn known(&self, word: Word) -> Result<u8, Mistake> {
        self.states.find(word, self.table.states.len(), STATE)
    }

    /// Reads a move, from its first word on.
    fn moved(&mut self, first: Word, line: &mut Line) -> Result<(), Mistake> {
        let state = self.states.find(first, self.table.states.len(), "a declaration, or a move of a state of a line before")?;
        let word = line.next(SYMBOL)?;
        let symbol = self.symbols.find(word, self.table.symbols.len(), SYMBOL)?;
        let kind = self.table.symbols[usize::from(symbol)];
        if kind == Kind::Return {
            form(line, "`over` after a return", "over")?;
            let stack = self.known(line.next(STATE)?)?;
            let target = self.target(line, "`->`")?;
            return put(&mut self.moves, &mut self.table.returns, MOST_RETURNS, first, [state, symbol, stack, target]);
        }
        let target = self.target(line, "`->` after an internal or a call")?;
        let (section, most) = if kind == Kind::Call { (&mut self.table.calls, MOST_CALLS) } else { (&mut self.table.internals, MOST_INTERNALS) };
        put(&mut self.moves, section, most, first, [state, symbol, target])
    }

    /// Reads the rest of a move: the arrow and the target.
    fn target(&self, line: &mut Line, arrow: &str) -> Result<u8, Mistake> {
        form(line, arrow, "->")?;
        let target = self.known(line.next(STATE)?)?;
        line.done().map(|()| target)
    }
}

/// Takes a move into its section. It must be new.
fn put<const WIDTH: usize>(
    moves: &mut HashMap<Vec<u8>, usize>,
    section: &mut Vec<[u8; WIDTH]>,
    most: usize,
    first: Word,
    record: [u8; WIDTH],
) -> Result<(), Mistake> {
    if let Some(line) = moves.get(&record[..]) {
        return Err(first.mistake(&format!("another move than that of line {line}")));
    }
    room(first, section.len(), most, "moves of this kind")?;
    moves.insert(record.into(), first.line);
    section.push(record);
    Ok(())
}

/// What is expected where a symbol must be named.
const SYMBOL: &str = "a symbol of a line before";

/// What is expected where a state must be named.
const STATE: &str = "a state of a line before";

/// Reads a word of the form.
fn form(line: &mut Line, expected: &str, wanted: &str) -> Result<(), Mistake> {
    let word = line.next(expected)?;
    if word.text == wanted { Ok(()) } else { Err(word.mistake(expected)) }
}
