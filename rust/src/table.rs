//! Tables that own their bytes, for callers with a heap: the buffers of each call are made inside, as long as it can need them.

use crate::{Counts, How, Limits, Load, Recorded, Reduced, Result, Starts, Tops, Uses};

/// A table that was read, with the limits that it was read at. All its operations are at these limits, and none refuses the table itself.
///
/// ```
/// use basilvault::{EXAMPLE, Table};
///
/// let table = Table::read(EXAMPLE)?;
/// let reduction = table.reduce(100_000)?;
/// assert_eq!(reduction.map, [0, 1, 1, 2]);
/// assert_eq!((reduction.counts.joined, reduction.counts.spent), (1, false));
/// assert_eq!(reduction.table.counts().states, 3);
/// for script in [&[1, 2][..], &[1, 0, 0, 2], &[0], &[1]] {
///     assert_eq!(table.accepts(script), reduction.table.accepts(script));
/// }
/// # Ok::<(), basilvault::Refusal>(())
/// ```
#[must_use]
#[derive(Clone, Debug, PartialEq, Eq, Hash)]
pub struct Table {
    bytes: Vec<u8>,
    limits: Limits,
    starts: Starts,
}

/// What a reduction delivers.
#[must_use]
#[derive(Clone, Debug, PartialEq, Eq, Hash)]
pub struct Reduction {
    /// The reduced table.
    pub table: Table,
    /// The class of each state.
    pub map: Vec<u8>,
    /// Classes, guesses, words, pairs joined, their ceiling, and whether the budget was spent.
    pub counts: Reduced,
}

impl Table {
    /// Reads a table at the limits of a caller that gives none.
    ///
    /// ```
    /// use basilvault::{Refusal, Table};
    ///
    /// assert_eq!(Table::read([0u8; 11]), Err(Refusal::Length));
    /// ```
    pub fn read(bytes: impl Into<Vec<u8>>) -> Result<Table> {
        Table::read_within(Limits::STANDARD, bytes)
    }

    /// Reads a table at limits.
    pub fn read_within(limits: Limits, bytes: impl Into<Vec<u8>>) -> Result<Table> {
        let bytes = bytes.into();
        let starts = crate::read_within(limits, &bytes)?;
        Ok(Table { bytes, limits, starts })
    }

    /// A random table, the same for the same load, at the limits of a caller that gives none.
    pub fn generate(load: Load) -> Result<Table> {
        Table::generate_within(Limits::STANDARD, load)
    }

    /// A random table at limits.
    ///
    /// ```
    /// use basilvault::{Limits, Load, Table};
    ///
    /// let load = Load { seed: 7, states: 40, internals: 1, calls: 1, returns: 1, density: 3_000 };
    /// assert_eq!(Table::generate_within(Limits::LARGEST, load)?.counts().states, 40);
    /// # Ok::<(), basilvault::Refusal>(())
    /// ```
    pub fn generate_within(limits: Limits, load: Load) -> Result<Table> {
        let mut out = vec![0; limits.longest().min(crate::LONGEST_FILE)];
        let length = crate::generate_within(limits, load, &mut out)?;
        out.truncate(length);
        Table::read_within(limits, out)
    }

    /// The file.
    #[must_use]
    pub fn bytes(&self) -> &[u8] {
        &self.bytes
    }

    /// The file, by itself.
    #[must_use]
    pub fn into_bytes(self) -> Vec<u8> {
        self.bytes
    }

    /// The limits that it was read at.
    #[must_use]
    pub fn limits(&self) -> Limits {
        self.limits
    }

    /// Where its sections start.
    #[must_use]
    pub fn starts(&self) -> Starts {
        self.starts
    }

    /// How many symbols, states and records it has.
    #[must_use]
    pub fn counts(&self) -> Counts {
        self.starts.counts(self.bytes.len())
    }

    /// The reachable stack tops of every state.
    pub fn tops(&self) -> Result<Tops> {
        crate::tops_within(self.limits, &self.bytes)
    }

    /// Whether the table accepts a script, a symbol number a byte.
    pub fn accepts(&self, script: &[u8]) -> Result<bool> {
        crate::script_within(self.limits, &self.bytes, script)
    }

    /// Whether another table accepts every script of this one; both have at most 24 states and 32 symbols.
    pub fn fits(&self, other: &Table) -> Result<bool> {
        crate::fit(&self.bytes, &other.bytes)
    }

    /// Combined with another table that has equal symbols, at the limits of this one.
    ///
    /// ```
    /// use basilvault::{EXAMPLE, How, Table};
    ///
    /// let table = Table::read(EXAMPLE)?;
    /// assert_eq!(table.combine(&table, How::Union)?.counts().states, 8);
    /// # Ok::<(), basilvault::Refusal>(())
    /// ```
    pub fn combine(&self, other: &Table, how: How) -> Result<Table> {
        let mut out = vec![0; self.limits.longest().min(crate::LONGEST_FILE)];
        let length = crate::combine_within(self.limits, &self.bytes, &other.bytes, how, &mut out)?;
        out.truncate(length);
        Table::read_within(self.limits, out)
    }

    /// Checks a map, the class of each state: the class count.
    pub fn check(&self, map: &[u8]) -> Result<usize> {
        crate::check_within(self.limits, &self.bytes, map)
    }

    /// The quotient under a map that the check accepts.
    ///
    /// ```
    /// use basilvault::{EXAMPLE, Refusal, Table};
    ///
    /// let table = Table::read(EXAMPLE)?;
    /// assert_eq!(table.quotient(&[0, 1, 1, 2])?.bytes().len(), 31);
    /// assert_eq!(table.quotient(&[0, 1, 1, 1]), Err(Refusal::Agreement));
    /// # Ok::<(), Refusal>(())
    /// ```
    pub fn quotient(&self, map: &[u8]) -> Result<Table> {
        let mut out = vec![0; self.bytes.len()];
        let length = crate::quotient_within(self.limits, &self.bytes, map, &mut out)?;
        out.truncate(length);
        Table::read_within(self.limits, out)
    }

    /// Reduces the table with at most `budget` guesses.
    pub fn reduce(&self, budget: u64) -> Result<Reduction> {
        let counts = self.counts();
        let (mut list, mut map, mut out) = (vec![0; counts.most_short_words()], vec![0; counts.states], vec![0; self.bytes.len()]);
        let reduced = crate::reduce_within(self.limits, &self.bytes, budget, &mut list, &mut map, &mut out)?;
        out.truncate(reduced.length);
        Ok(Reduction { table: Table::read_within(self.limits, out)?, map, counts: reduced })
    }

    /// What becomes of each record under a map that the check accepts, a byte each in file order, and how many of each there are.
    pub fn records(&self, map: &[u8]) -> Result<(Vec<u8>, Recorded)> {
        let mut fates = vec![0; self.counts().records()];
        let recorded = crate::records_within(self.limits, &self.bytes, map, &mut fates)?;
        Ok((fates, recorded))
    }

    /// Use counts added up by the classes of a map that the check accepts.
    pub fn uses(&self, map: &[u8], lines: &[u8]) -> Result<Uses> {
        crate::uses_within(self.limits, &self.bytes, map, lines)
    }
}

impl AsRef<[u8]> for Table {
    fn as_ref(&self) -> &[u8] {
        &self.bytes
    }
}

impl TryFrom<Vec<u8>> for Table {
    type Error = crate::Refusal;

    fn try_from(bytes: Vec<u8>) -> Result<Table> {
        Table::read(bytes)
    }
}
