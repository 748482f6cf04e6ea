//! A table as sections of records, and back to bytes. What is readable, the library says.

use basilvault::{Limits, Refusal};

/// The kind of a symbol.
#[derive(Clone, Copy, Debug, PartialEq, Eq)]
pub enum Kind {
    Internal,
    Call,
    Return,
}

/// A state: whether scripts start or end there, and its mark, 0 in version 1.
#[derive(Clone, Copy, Debug, Default, PartialEq, Eq)]
pub struct State {
    pub initial: bool,
    pub accepting: bool,
    pub mark: u8,
}

/// A table's sections, records in file order: `[state, symbol, target]` and, of a return, `[state, symbol, stack state, target]`.
#[derive(Clone, Debug, Default, PartialEq, Eq)]
pub struct Table {
    pub version: u8,
    pub symbols: Vec<Kind>,
    pub states: Vec<State>,
    pub internals: Vec<[u8; 3]>,
    pub calls: Vec<[u8; 3]>,
    pub returns: Vec<[u8; 4]>,
}

impl Table {
    /// The table that bytes are, where the library reads them at these limits.
    pub fn from_bytes(limits: Limits, bytes: &[u8]) -> Result<Table, Refusal> {
        let starts = basilvault::read_within(limits, bytes)?;
        let trailer = bytes.len() - basilvault::TRAILER;
        let kind = |&byte: &u8| match byte {
            0 => Kind::Internal,
            1 => Kind::Call,
            _ => Kind::Return,
        };
        let state = |&byte: &u8| State { initial: byte & 1 != 0, accepting: byte & 2 != 0, mark: byte >> 2 };
        Ok(Table {
            version: bytes[trailer + 10],
            symbols: bytes[starts.symbols..starts.states].iter().map(kind).collect(),
            states: bytes[starts.states..starts.internals].iter().map(state).collect(),
            internals: records(&bytes[starts.internals..starts.calls]),
            calls: records(&bytes[starts.calls..starts.returns]),
            returns: records(&bytes[starts.returns..trailer]),
        })
    }

    /// The bytes of the table, its records in the order that they have here.
    pub fn to_bytes(&self) -> Vec<u8> {
        let sections = [
            self.symbols.iter().map(|&kind| kind as u8).collect(),
            self.states.iter().map(|state| u8::from(state.initial) | u8::from(state.accepting) << 1 | state.mark << 2).collect(),
            self.internals.concat(),
            self.calls.concat(),
            self.returns.concat(),
        ];
        let mut distance: usize = sections.iter().map(Vec::len).sum();
        let mut trailer = Vec::with_capacity(basilvault::TRAILER);
        for section in &sections {
            trailer.extend((distance as u16).to_le_bytes());
            distance -= section.len();
        }
        trailer.extend(u16::from(self.version).to_le_bytes());
        [sections.concat(), trailer].concat()
    }
}

/// The records of a section.
fn records<const WIDTH: usize>(section: &[u8]) -> Vec<[u8; WIDTH]> {
    section.chunks_exact(WIDTH).map(|record| record.try_into().expect("a whole record")).collect()
}
