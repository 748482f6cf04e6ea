//! What the operations answer, and what a random table is asked to be.

use crate::TRAILER;
use crate::raw::Values;

/// Where the five sections of a table start.
#[derive(Clone, Copy, Debug, PartialEq, Eq, Hash)]
pub struct Starts {
    /// The symbols, a byte each.
    pub symbols: usize,
    /// The states, a byte each.
    pub states: usize,
    /// The internal records, 3 bytes each.
    pub internals: usize,
    /// The call records, 3 bytes each.
    pub calls: usize,
    /// The return records, 4 bytes each.
    pub returns: usize,
}

impl Starts {
    /// How many of each a table of so many bytes has.
    ///
    /// ```
    /// use basilvault::{Counts, EXAMPLE};
    ///
    /// let counts = basilvault::read(&EXAMPLE)?.counts(EXAMPLE.len());
    /// assert_eq!(counts, Counts { symbols: 3, states: 4, internals: 3, calls: 1, returns: 1 });
    /// assert_eq!(counts.records(), 5);
    /// # Ok::<(), basilvault::Refusal>(())
    /// ```
    #[must_use]
    pub const fn counts(self, length: usize) -> Counts {
        Counts {
            symbols: self.states.saturating_sub(self.symbols),
            states: self.internals.saturating_sub(self.states),
            internals: self.calls.saturating_sub(self.internals) / 3,
            calls: self.returns.saturating_sub(self.calls) / 3,
            returns: length.saturating_sub(TRAILER).saturating_sub(self.returns) / 4,
        }
    }
}

impl Values<5> for Starts {
    fn from_values(values: [u64; 5]) -> Starts {
        let [symbols, states, internals, calls, returns] = values.map(|x| x as usize);
        Starts { symbols, states, internals, calls, returns }
    }

    fn values(&self) -> [u64; 5] {
        [self.symbols, self.states, self.internals, self.calls, self.returns].map(|x| x as u64)
    }
}

/// How many symbols, states and records a table has.
#[derive(Clone, Copy, Debug, PartialEq, Eq, Hash)]
pub struct Counts {
    /// Its symbols.
    pub symbols: usize,
    /// Its states.
    pub states: usize,
    /// Its internal records.
    pub internals: usize,
    /// Its call records.
    pub calls: usize,
    /// Its return records.
    pub returns: usize,
}

impl Counts {
    /// The records of all three kinds.
    #[must_use]
    pub const fn records(self) -> usize {
        self.internals + self.calls + self.returns
    }

    /// The words that [`clauses`](crate::clauses) has at most to write for a table with these counts.
    ///
    /// Two words for each pair of states, twelve for each three; for a record of a move at most two for each other state, and one for each record of its
    /// kind; for a return at most three for each two states, and one for each return.
    ///
    /// ```
    /// use basilvault::EXAMPLE;
    ///
    /// let counts = basilvault::read(&EXAMPLE)?.counts(EXAMPLE.len());
    /// let mut list = vec![0; counts.most_words()];
    /// let listed = basilvault::clauses(&EXAMPLE, &mut list)?;
    /// assert!(listed.words <= list.len());
    /// # Ok::<(), basilvault::Refusal>(())
    /// ```
    #[must_use]
    pub const fn most_words(self) -> usize {
        let n = self.states;
        self.most_short_words() + 2 * n * n.saturating_sub(1) * n.saturating_sub(2)
    }

    /// The words of the list without transitivity, which [`reduce`](crate::reduce) has at most to write.
    #[must_use]
    pub const fn most_short_words(self) -> usize {
        let n = self.states;
        let others = n.saturating_sub(1);
        n * others + self.internals * (2 * others + self.internals) + self.calls * (2 * others + self.calls) + self.returns * (3 * n * n + self.returns)
    }
}

/// The reachable stack tops.
#[derive(Clone, Copy, Debug, PartialEq, Eq, Hash)]
pub struct Tops {
    /// A word for each possible state: bit t where state t is a top of it, bit [`BOTTOM`](crate::BOTTOM) where the empty stack is.
    pub words: [u64; 40],
    /// How many tops there are over all states.
    pub found: usize,
}

impl Values<41> for Tops {
    fn from_values(values: [u64; 41]) -> Tops {
        let (words, found) = words_and_last(values);
        Tops { words, found: found as usize }
    }

    fn values(&self) -> [u64; 41] {
        last_behind(self.words, self.found as u64)
    }
}

/// 40 words and the number after them.
fn words_and_last(values: [u64; 41]) -> ([u64; 40], u64) {
    (std::array::from_fn(|q| values[q]), values[40])
}

/// A number after 40 words.
fn last_behind(words: [u64; 40], last: u64) -> [u64; 41] {
    std::array::from_fn(|q| *words.get(q).unwrap_or(&last))
}

/// How long a clause list is.
#[derive(Clone, Copy, Debug, PartialEq, Eq, Hash)]
pub struct Listed {
    /// Its clauses.
    pub clauses: usize,
    /// Its words: those of the buffer after them keep their content.
    pub words: usize,
}

impl Values<2> for Listed {
    fn from_values(values: [u64; 2]) -> Listed {
        let [clauses, words] = values.map(|x| x as usize);
        Listed { clauses, words }
    }

    fn values(&self) -> [u64; 2] {
        [self.clauses, self.words].map(|x| x as u64)
    }
}

/// What a reduction delivers beside the map and the reduced table.
#[derive(Clone, Copy, Debug, PartialEq, Eq, Hash)]
pub struct Reduced {
    /// The classes of the map, which are the states of the reduced table.
    pub classes: usize,
    /// The guesses made.
    pub guesses: u64,
    /// The words of the clause list without transitivity.
    pub words: usize,
    /// The reduced table's bytes.
    pub length: usize,
    /// How many pairs of states the map joins.
    pub joined: usize,
    /// No map that the check accepts joins more pairs.
    pub ceiling: usize,
    /// Whether the budget was spent: then a map that the check accepts may be coarser.
    pub spent: bool,
}

impl Values<7> for Reduced {
    fn from_values(values: [u64; 7]) -> Reduced {
        let [classes, guesses, words, length, joined, ceiling, spent] = values;
        let [classes, words, length, joined, ceiling] = [classes, words, length, joined, ceiling].map(|x| x as usize);
        Reduced { classes, guesses, words, length, joined, ceiling, spent: bool::from_values([spent]) }
    }

    fn values(&self) -> [u64; 7] {
        let [classes, words, length, joined, ceiling] = [self.classes, self.words, self.length, self.joined, self.ceiling].map(|x| x as u64);
        [classes, self.guesses, words, length, joined, ceiling, u64::from(self.spent)]
    }
}

/// Use counts added up.
#[derive(Clone, Copy, Debug, PartialEq, Eq, Hash)]
pub struct Uses {
    /// A sum for each class, zero past the class count.
    pub sums: [u64; 40],
    /// The sum of all.
    pub total: u64,
}

impl Values<41> for Uses {
    fn from_values(values: [u64; 41]) -> Uses {
        let (sums, total) = words_and_last(values);
        Uses { sums, total }
    }

    fn values(&self) -> [u64; 41] {
        last_behind(self.sums, self.total)
    }
}

/// How many records a table has, and how many of them are kept, folded and dead.
#[derive(Clone, Copy, Debug, PartialEq, Eq, Hash)]
pub struct Recorded {
    /// All of them.
    pub records: usize,
    /// Those that the quotient has.
    pub kept: usize,
    /// Those whose image an earlier one already has.
    pub folded: usize,
    /// The dead returns.
    pub dead: usize,
}

impl Recorded {
    /// The byte of a kept record.
    pub const KEPT: u8 = 0;
    /// The byte of a folded record.
    pub const FOLDED: u8 = 1;
    /// The byte of a dead return.
    pub const DEAD: u8 = 2;
}

impl Values<4> for Recorded {
    fn from_values(values: [u64; 4]) -> Recorded {
        let [records, kept, folded, dead] = values.map(|x| x as usize);
        Recorded { records, kept, folded, dead }
    }

    fn values(&self) -> [u64; 4] {
        [self.records, self.kept, self.folded, self.dead].map(|x| x as u64)
    }
}

/// How two tables are combined.
#[derive(Clone, Copy, Debug, PartialEq, Eq, Hash)]
pub enum How {
    /// The words that both accept. States are pairs: state p of the first and q of the second's m are p times m plus q.
    Intersection,
    /// The words that one of them accepts. States are the first's, then the second's.
    Union,
}

/// What a random table is asked to be.
#[derive(Clone, Copy, Debug, PartialEq, Eq, Hash)]
pub struct Load {
    /// The same numbers give the same table, another seed another one.
    pub seed: u32,
    /// How many states; the first is initial, the last accepting.
    pub states: usize,
    /// How many internal symbols.
    pub internals: usize,
    /// How many call symbols.
    pub calls: usize,
    /// How many return symbols.
    pub returns: usize,
    /// How often a possible record is present, of 65,536 times.
    pub density: u32,
}
