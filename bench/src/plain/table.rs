//! Reading a table.

use basilvault_tests::reference::Limits;

/// The sections of a table that was read.
pub struct Table<'a> {
    pub version: u16,
    pub symbols: &'a [u8],
    pub states: &'a [u8],
    pub internals: &'a [[u8; 3]],
    pub calls: &'a [[u8; 3]],
    pub returns: &'a [[u8; 4]],
}

impl Table<'_> {
    /// How many states there are.
    pub fn count(&self) -> usize {
        self.states.len()
    }
}

/// The five section starts by the trailer's distances, or 1 to 3.
fn starts_of(l: Limits, bytes: &[u8]) -> Result<[usize; 5], u8> {
    if !(12..=l.states + l.symbols + 22_540).contains(&bytes.len()) {
        return Err(1);
    }
    let (body, trailer) = bytes.split_at(bytes.len() - 12);
    let word = |i: usize| u16::from_le_bytes([trailer[2 * i], trailer[2 * i + 1]]) as usize;
    if !(1..=2).contains(&word(5)) {
        return Err(2);
    }
    let distances: [usize; 5] = std::array::from_fn(word);
    let [symbols, _, internals, calls, returns] = distances;
    if symbols != body.len() || !distances.is_sorted_by(|a, b| a >= b) {
        return Err(3);
    }
    if (internals - calls) % 3 != 0 || (calls - returns) % 3 != 0 || returns % 4 != 0 {
        return Err(3);
    }
    Ok(distances.map(|d| body.len() - d))
}

/// 4: the counts.
fn counts_fit(l: Limits, t: &Table) -> bool {
    t.symbols.len() <= l.symbols && (1..=l.states).contains(&t.count()) && t.internals.len() <= 1024 && t.calls.len() <= 1024 && t.returns.len() <= 4096
}

/// 7: the states and symbols of every record.
fn records_fit(t: &Table) -> bool {
    let state = |q: u8| (q as usize) < t.count();
    let symbol = |a: u8, kind: u8| t.symbols.get(a as usize) == Some(&kind);
    t.internals.iter().all(|&[p, a, e]| state(p) && symbol(a, 0) && state(e))
        && t.calls.iter().all(|&[p, a, e]| state(p) && symbol(a, 1) && state(e))
        && t.returns.iter().all(|&[p, a, s, e]| state(p) && symbol(a, 2) && state(s) && state(e))
}

/// 8: the records of every section ascend.
fn records_ascend(t: &Table) -> bool {
    t.internals.is_sorted_by(|x, y| x < y) && t.calls.is_sorted_by(|x, y| x < y) && t.returns.is_sorted_by(|x, y| x < y)
}

/// The first of 4 to 8 that applies.
fn test(l: Limits, t: &Table) -> Result<(), u8> {
    if !counts_fit(l, t) {
        return Err(4);
    }
    if t.symbols.iter().any(|&x| x > 2) || t.states.iter().any(|&x| x > if t.version == 2 { 63 } else { 3 }) {
        return Err(5);
    }
    if t.states.iter().all(|x| x % 2 == 0) {
        return Err(6);
    }
    if !records_fit(t) {
        return Err(7);
    }
    if !records_ascend(t) {
        return Err(8);
    }
    Ok(())
}

/// Whether 39 does not apply.
pub fn limits_fit(l: Limits) -> bool {
    (1..=40).contains(&l.states) && (1..=64).contains(&l.symbols)
}

/// The sections and their starts, or 39, 1 to 8.
pub fn parse(l: Limits, bytes: &[u8]) -> Result<(Table<'_>, [usize; 5]), u8> {
    if !limits_fit(l) {
        return Err(39);
    }
    let starts = starts_of(l, bytes)?;
    let [_, states, internals, calls, returns] = starts;
    let version = u16::from_le_bytes([bytes[bytes.len() - 2], bytes[bytes.len() - 1]]);
    let table = Table {
        version,
        symbols: &bytes[..states],
        states: &bytes[states..internals],
        internals: bytes[internals..calls].as_chunks().0,
        calls: bytes[calls..returns].as_chunks().0,
        returns: bytes[returns..bytes.len() - 12].as_chunks().0,
    };
    test(l, &table)?;
    Ok((table, starts))
}

/// The five section starts.
pub fn read(l: Limits, bytes: &[u8]) -> Result<[u64; 5], u8> {
    parse(l, bytes).map(|(_, starts)| starts.map(|x| x as u64))
}
