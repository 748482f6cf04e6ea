//! A table from AutomataScript, or what in it has no place in a table.

use super::tokens::{Sort, Token, Tokens};
use super::{ALPHABETS, MOVES, NOTE, START, STATES};
use crate::lexer::{Mistake, meant, nearest};
use crate::model::{Kind, State, Table};
use crate::names::Names;
use crate::text;
use basilvault::{MOST_CALLS, MOST_INTERNALS, MOST_RETURNS, MOST_STATES, MOST_SYMBOLS};
use std::collections::HashMap;

/// What was read: the table, its names, and those of them that a text cannot have.
pub struct Read {
    pub table: Table,
    pub names: Names,
    pub unnamable: Vec<Mistake>,
}

/// A field of the script: the token that names it, and what is in its braces: words, or words in parentheses.
struct Field {
    head: Token,
    items: Vec<Vec<Token>>,
}

/// The script as it stands: its fields, and the words of its comments that are meant for the table.
#[derive(Default)]
struct Script {
    fields: HashMap<String, Field>,
    notes: Vec<Vec<Token>>,
}

/// The table of a script, or the mistakes in it. Where its form is mistaken that is the only one told.
pub fn read(text: &str) -> Result<Read, Vec<Mistake>> {
    let script = parsed(text).map_err(|mistake| vec![mistake])?;
    let mut reader = Reader { table: Table { version: 1, ..Table::default() }, ..Reader::default() };
    reader.symbols_of(&script);
    reader.states_of(&script);
    reader.moves_of(&script);
    script.notes.iter().for_each(|note| reader.note(note));
    if !reader.mistakes.is_empty() {
        reader.mistakes.sort_by_key(|mistake| (mistake.line, mistake.column));
        return Err(reader.mistakes);
    }
    reader.table.internals.sort_unstable();
    reader.table.calls.sort_unstable();
    reader.table.returns.sort_unstable();
    Ok(Read { table: reader.table, names: reader.names, unnamable: reader.unnamable })
}

/// The tokens of a script, without its comments, and those of the comments that are meant for the table.
fn split(text: &str) -> Result<(Vec<Token>, Vec<Vec<Token>>), Mistake> {
    let (mut plain, mut notes) = (Vec::new(), Vec::<Vec<Token>>::new());
    for token in Tokens::of(text) {
        let token = token?;
        let noted = notes.last().and_then(|note| note.first()).is_some_and(|head: &Token| head.line == token.line);
        match token.sort {
            Sort::Note => notes.push(vec![token]),
            Sort::End => {
                plain.push(token);
                break;
            }
            _ if noted => notes.last_mut().expect("a note that was begun").push(token),
            _ => plain.push(token),
        }
    }
    Ok((plain, notes))
}

/// The form of a script: `NestedWordAutomaton NAME = ( FIELD = { .. }, .. );`
fn parsed(text: &str) -> Result<Script, Mistake> {
    let (tokens, notes) = split(text)?;
    let mut rest = Rest(tokens.into_iter().peekable());
    let start = rest.next();
    if start.sort != Sort::Word || start.text != START {
        return Err(start.mistake(&format!("`{START}`, which alone has a place in a table")));
    }
    rest.name("a name for the automaton")?;
    rest.sign('=')?;
    rest.sign('(')?;
    let mut script = Script { notes, ..Script::default() };
    loop {
        let field = rest.field()?;
        if let Some(other) = script.fields.get(&field.head.text) {
            return Err(field.head.mistake(&format!("another field than that of line {}", other.head.line)));
        }
        script.fields.insert(field.head.text.clone(), field);
        let after = rest.next();
        match () {
            () if after.is(',') => {}
            () if after.is(')') => break,
            () => return Err(after.mistake("`,` or `)`")),
        }
    }
    rest.sign(';')?;
    let end = rest.next();
    if end.sort == Sort::End { Ok(script) } else { Err(end.mistake("the end of the text: one automaton alone has a place in a table")) }
}

/// The tokens that are still to be read; the last is the end of the text.
struct Rest(std::iter::Peekable<std::vec::IntoIter<Token>>);

impl Rest {
    /// The next token. The end of the text is asked for once: what is expected after it is a mistake.
    fn next(&mut self) -> Token {
        self.0.next().unwrap_or(Token { sort: Sort::End, text: String::new(), line: 1, column: 1 })
    }

    /// A sign.
    fn sign(&mut self, sign: char) -> Result<Token, Mistake> {
        let token = self.next();
        if token.is(sign) { Ok(token) } else { Err(token.mistake(&format!("`{sign}`"))) }
    }

    /// A name.
    fn name(&mut self, expected: &str) -> Result<Token, Mistake> {
        let token = self.next();
        if token.is_name() { Ok(token) } else { Err(token.mistake(expected)) }
    }

    /// A field with what it has in braces.
    fn field(&mut self) -> Result<Field, Mistake> {
        let known = || ALPHABETS.iter().map(|(name, _)| *name).chain(STATES).chain(MOVES.iter().map(|(name, _)| *name));
        let head = self.next();
        if head.sort != Sort::Word || !known().any(|name| name == head.text) {
            let all: Vec<&str> = known().collect();
            return Err(head.mistake(&format!("one of {}{}", all.join(", "), meant(nearest(&head.text, known())))));
        }
        self.sign('=')?;
        self.sign('{')?;
        let moves = MOVES.iter().any(|(name, _)| *name == head.text);
        let mut items = Vec::new();
        while !self.0.peek().is_some_and(|token| token.is('}')) {
            items.push(if moves { self.moved()? } else { vec![self.name("a name or `}`")?] });
        }
        self.next();
        Ok(Field { head, items })
    }

    /// The words of a move, in parentheses.
    fn moved(&mut self) -> Result<Vec<Token>, Mistake> {
        let open = self.next();
        if !open.is('(') {
            return Err(open.mistake("`(` or `}`"));
        }
        let mut words = Vec::new();
        while !self.0.peek().is_some_and(|token| token.is(')')) {
            words.push(self.name("a name or `)`")?);
        }
        self.next();
        // where a word is missing it is told at the parenthesis
        Ok([vec![open], words].concat())
    }
}

/// Named things: the number and the line of each name.
type Named = HashMap<String, (u8, usize)>;

/// What was read so far.
#[derive(Default)]
struct Reader {
    table: Table,
    names: Names,
    symbols: Named,
    states: Named,
    seen: HashMap<Vec<u8>, usize>,
    mistakes: Vec<Mistake>,
    unnamable: Vec<Mistake>,
}

/// Gives a name the next number: a mistake where it is taken, or there are as many as a table may have.
fn add(named: &mut Named, token: &Token, most: usize, what: &str) -> Result<(), Mistake> {
    if let Some((_, line)) = named.get(&token.text) {
        return Err(token.mistake(&format!("another name than that of the {what} of line {line}")));
    }
    if named.len() == most {
        return Err(token.mistake(&format!("at most {most} {what}s")));
    }
    named.insert(token.text.clone(), (named.len() as u8, token.line));
    Ok(())
}

/// The number of a name.
fn find(named: &Named, token: &Token, what: &str) -> Result<u8, Mistake> {
    let near = || meant(nearest(&token.text, named.keys().map(String::as_str)));
    named.get(&token.text).map(|(number, _)| *number).ok_or_else(|| token.mistake(&format!("{what}{}", near())))
}

impl Reader {
    /// Notes a mistake, and hands on what is none.
    fn noted<T>(&mut self, result: Result<T, Mistake>) -> Option<T> {
        result.map_err(|mistake| self.mistakes.push(mistake)).ok()
    }

    /// Notes a name that a text cannot have.
    fn named(&mut self, token: &Token) -> String {
        if !text::is_word(&token.text) {
            self.unnamable.push(token.mistake("a name that a text can have: no blank, no #, no number, no word of the form"));
        }
        token.text.clone()
    }

    /// The words of a field.
    fn words<'a>(script: &'a Script, field: &str) -> impl Iterator<Item = &'a Token> {
        script.fields.get(field).into_iter().flat_map(|field| field.items.iter().flatten())
    }

    /// Reads the alphabets.
    fn symbols_of(&mut self, script: &Script) {
        for (field, kind) in ALPHABETS {
            for token in Reader::words(script, field) {
                let added = add(&mut self.symbols, token, MOST_SYMBOLS, "symbol");
                if self.noted(added).is_some() {
                    let name = self.named(token);
                    self.names.symbols.push(name);
                    self.table.symbols.push(kind);
                }
            }
        }
    }

    /// Reads the states, and which of them are initial and accepting.
    fn states_of(&mut self, script: &Script) {
        let [all, initial, accepting] = STATES;
        for token in Reader::words(script, all) {
            let added = add(&mut self.states, token, MOST_STATES, "state");
            if self.noted(added).is_some() {
                let name = self.named(token);
                self.names.states.push(name);
                self.table.states.push(State::default());
            }
        }
        for (field, is_initial) in [(initial, true), (accepting, false)] {
            for token in Reader::words(script, field) {
                let found = find(&self.states, token, "a state");
                if let Some(state) = self.noted(found) {
                    let state = &mut self.table.states[usize::from(state)];
                    let place = if is_initial { &mut state.initial } else { &mut state.accepting };
                    let twice = std::mem::replace(place, true);
                    self.mistakes.extend(twice.then(|| token.mistake("a state that does not stand there already")));
                }
            }
        }
    }

    /// Reads the moves.
    fn moves_of(&mut self, script: &Script) {
        for (field, kind) in MOVES {
            for words in script.fields.get(field).into_iter().flat_map(|field| &field.items) {
                let read = self.moved(words, kind);
                self.noted(read);
            }
        }
    }

    /// Reads a move: its parenthesis, then state, symbol and target; of a return the stack state stands after the state.
    fn moved(&mut self, words: &[Token], kind: Kind) -> Result<(), Mistake> {
        let state = |token| find(&self.states, token, "a state");
        let by = |token| self.symbol(token, kind);
        let record = match (words, kind) {
            ([_, from, over, symbol, to], Kind::Return) => vec![state(from)?, by(symbol)?, state(over)?, state(to)?],
            ([_, from, symbol, to], Kind::Call | Kind::Internal) => vec![state(from)?, by(symbol)?, state(to)?],
            ([open, ..], Kind::Return) => return Err(open.mistake("a return of four words: the state, the state before its call, the symbol, the target")),
            ([open, ..], _) => return Err(open.mistake("a move of three words: the state, the symbol, the target")),
            ([], _) => unreachable!("a move starts with its parenthesis"),
        };
        if let Some(line) = self.seen.get(&record) {
            return Err(words[0].mistake(&format!("another move than that of line {line}")));
        }
        self.seen.insert(record.clone(), words[0].line);
        let (count, most) = match kind {
            Kind::Internal => (self.table.internals.len(), MOST_INTERNALS),
            Kind::Call => (self.table.calls.len(), MOST_CALLS),
            Kind::Return => (self.table.returns.len(), MOST_RETURNS),
        };
        if count == most {
            return Err(words[0].mistake(&format!("at most {most} moves of this kind")));
        }
        match (kind, &record[..]) {
            (Kind::Internal, &[p, a, t]) => self.table.internals.push([p, a, t]),
            (Kind::Call, &[p, a, t]) => self.table.calls.push([p, a, t]),
            (_, &[p, a, s, t]) => self.table.returns.push([p, a, s, t]),
            _ => unreachable!("a record has as many words as its kind"),
        }
        Ok(())
    }

    /// A symbol of a kind.
    fn symbol(&self, token: &Token, kind: Kind) -> Result<u8, Mistake> {
        let (alphabet, _) = ALPHABETS[ALPHABETS.iter().position(|(_, other)| *other == kind).unwrap_or_default()];
        let symbol = find(&self.symbols, token, &format!("a symbol of the {alphabet}"))?;
        let right = self.table.symbols[usize::from(symbol)] == kind;
        if right { Ok(symbol) } else { Err(token.mistake(&format!("a symbol of the {alphabet}"))) }
    }

    /// Reads a comment that is meant for the table: its version, or the order of its symbols.
    fn note(&mut self, words: &[Token]) {
        let texts: Vec<&str> = words[1..].iter().map(|word| word.text.as_str()).collect();
        let read = match texts[..] {
            ["version", version @ ("1" | "2")] => {
                self.table.version = if version == "1" { 1 } else { 2 };
                Ok(())
            }
            ["symbols", ..] => self.ordered(&words[2..], &words[1]),
            _ => Err(words[0].mistake(&format!("`{NOTE} version` and 1 or 2, or `{NOTE} symbols` and all symbols"))),
        };
        self.noted(read);
    }

    /// Numbers the symbols in another order.
    fn ordered(&mut self, words: &[Token], head: &Token) -> Result<(), Mistake> {
        let mut order = Vec::new();
        for word in words {
            let symbol = find(&self.symbols, word, "a symbol")?;
            if order.contains(&symbol) {
                return Err(word.mistake("a symbol that does not stand there already"));
            }
            order.push(symbol);
        }
        if order.len() != self.table.symbols.len() {
            return Err(head.mistake(&format!("all {} symbols after it", self.table.symbols.len())));
        }
        let place = |symbol: &mut u8| *symbol = order.iter().position(|other| other == symbol).unwrap_or_default() as u8;
        let symbols = order.iter().map(|&symbol| self.table.symbols[usize::from(symbol)]).collect();
        self.names.symbols = order.iter().map(|&symbol| self.names.symbol(symbol).into()).collect();
        self.table.symbols = symbols;
        self.table.internals.iter_mut().chain(&mut self.table.calls).for_each(|record| place(&mut record[1]));
        self.table.returns.iter_mut().for_each(|record| place(&mut record[1]));
        Ok(())
    }
}
