//! How much there may be of what.

/// The limits that a table is read at: 1 to 40 states and 1 to 64 symbols; others are refused by 39.
///
/// ```
/// use basilvault::Limits;
///
/// assert_eq!(Limits::default(), Limits { states: 24, symbols: 32 });
/// assert_eq!(Limits::LARGEST.longest(), basilvault::LONGEST_FILE);
/// assert_eq!(Limits::LARGEST.variables(), basilvault::MOST_VARIABLES);
/// ```
#[derive(Clone, Copy, Debug, PartialEq, Eq, Hash)]
pub struct Limits {
    /// How many states a table may have.
    pub states: usize,
    /// How many symbols a table may have.
    pub symbols: usize,
}

impl Limits {
    /// The limits of a caller that gives none.
    pub const STANDARD: Limits = Limits { states: 24, symbols: 32 };
    /// The largest.
    pub const LARGEST: Limits = Limits { states: MOST_STATES, symbols: MOST_SYMBOLS };

    /// The bytes of the longest file at these limits.
    #[must_use]
    pub const fn longest(self) -> usize {
        let records = 3 * MOST_INTERNALS + 3 * MOST_CALLS + 4 * MOST_RETURNS;
        self.states.saturating_add(self.symbols).saturating_add(records + TRAILER)
    }

    /// The most variables that a search may have at these limits: one for each pair of states.
    #[must_use]
    pub const fn variables(self) -> usize {
        self.states.saturating_mul(self.states.saturating_sub(1)) / 2
    }
}

impl Default for Limits {
    fn default() -> Limits {
        Limits::STANDARD
    }
}

/// The greatest state limit.
pub const MOST_STATES: usize = 40;
/// The greatest symbol limit.
pub const MOST_SYMBOLS: usize = 64;
/// The internal records of a table.
pub const MOST_INTERNALS: usize = 1_024;
/// The call records of a table.
pub const MOST_CALLS: usize = 1_024;
/// The return records of a table.
pub const MOST_RETURNS: usize = 4_096;
/// The records of a table: [`records`](crate::records) writes as many bytes at most.
pub const MOST_RECORDS: usize = MOST_INTERNALS + MOST_CALLS + MOST_RETURNS;
/// The bytes of a file's trailer.
pub const TRAILER: usize = 12;
/// The bytes of the longest file at the largest limits.
pub const LONGEST_FILE: usize = Limits::LARGEST.longest();
/// The variables of a search at the largest limits.
pub const MOST_VARIABLES: usize = Limits::LARGEST.variables();
/// The words of a clause list at the largest limits. Most lists are far shorter: [`Counts::most_words`](crate::Counts::most_words) bounds that of a table.
pub const MOST_WORDS: usize =
    crate::Counts { symbols: MOST_SYMBOLS, states: MOST_STATES, internals: MOST_INTERNALS, calls: MOST_CALLS, returns: MOST_RETURNS }.most_words();
/// The bit of a word of [`Tops`](crate::Tops) that stands for the empty stack.
pub const BOTTOM: usize = 40;
/// The bytes of a use line.
pub const LINE: usize = 5;
/// The use lines of a call.
pub const MOST_LINES: usize = 65_536;
/// The calls that a script may have open.
pub const MOST_OPEN: usize = 64;
/// The tables of a season.
pub const MOST_TABLES: usize = 8;
/// The greatest density of a [`Load`](crate::Load): every possible record is present.
pub const MOST_DENSITY: u32 = 65_536;
