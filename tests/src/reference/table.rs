//! The table file: limits, sections, reading.

pub use basilvault::{Limits, Load};

pub const BOTTOM: usize = 40;

/// The limits of a caller that gives none, and the largest.
pub const STANDARD: Limits = Limits { states: 24, symbols: 32 };
pub const LARGEST: Limits = Limits { states: 40, symbols: 64 };

/// 39: a limit of zero or past its maximum.
pub(super) fn judged(l: Limits) -> Result<(), u8> {
    let fine = (1..=LARGEST.states).contains(&l.states) && (1..=LARGEST.symbols).contains(&l.symbols);
    if fine { Ok(()) } else { Err(39) }
}

/// A table as the file holds it.
#[derive(Clone, Debug, PartialEq, Eq)]
pub struct Table {
    pub version: u16,
    pub symbols: Vec<u8>,
    pub states: Vec<u8>,
    pub internals: Vec<[u8; 3]>,
    pub calls: Vec<[u8; 3]>,
    pub returns: Vec<[u8; 4]>,
}

impl Table {
    /// How many states.
    pub fn count(&self) -> usize {
        self.states.len()
    }

    /// Whether a state is initial.
    pub fn initial(&self, q: usize) -> bool {
        self.states[q] & 1 != 0
    }

    /// Whether a state is accepting.
    pub fn accepting(&self, q: usize) -> bool {
        self.states[q] & 2 != 0
    }

    /// A state's mark; version 1 means mark 0 throughout.
    pub fn mark(&self, q: usize) -> u8 {
        self.states[q] / 4
    }

    /// The file: five sections one behind the other, then the distances and the version.
    pub fn bytes(&self) -> Vec<u8> {
        let mut out = Vec::new();
        let mut starts = Vec::new();
        starts.push(out.len());
        out.extend_from_slice(&self.symbols);
        starts.push(out.len());
        out.extend_from_slice(&self.states);
        starts.push(out.len());
        self.internals.iter().for_each(|r| out.extend_from_slice(r));
        starts.push(out.len());
        self.calls.iter().for_each(|r| out.extend_from_slice(r));
        starts.push(out.len());
        self.returns.iter().for_each(|r| out.extend_from_slice(r));
        let trailer = out.len();
        for s in starts {
            out.extend_from_slice(&((trailer - s) as u16).to_le_bytes());
        }
        out.extend_from_slice(&self.version.to_le_bytes());
        out
    }
}

/// Records of 3 bytes.
pub(super) fn triples(bytes: &[u8]) -> Vec<[u8; 3]> {
    bytes.chunks_exact(3).map(|c| [c[0], c[1], c[2]]).collect()
}

/// Records of 4 bytes.
pub(super) fn quads(bytes: &[u8]) -> Vec<[u8; 4]> {
    bytes.chunks_exact(4).map(|c| [c[0], c[1], c[2], c[3]]).collect()
}

/// The first of 4 to 8 that applies to the parts of a file.
pub(super) fn fault(l: Limits, table: &Table) -> Option<u8> {
    let n = table.count();
    if table.symbols.len() > l.symbols || n == 0 || n > l.states {
        return Some(4);
    }
    if table.internals.len() > 1024 || table.calls.len() > 1024 || table.returns.len() > 4096 {
        return Some(4);
    }
    if table.symbols.iter().any(|&x| x > 2) || table.states.iter().any(|&x| x > if table.version == 1 { 3 } else { 63 }) {
        return Some(5);
    }
    if !(0..n).any(|q| table.initial(q)) {
        return Some(6);
    }
    let kind = |a: u8, k: u8| table.symbols.get(a as usize) == Some(&k);
    let state = |q: u8| (q as usize) < n;
    let fine = table.internals.iter().all(|r| state(r[0]) && kind(r[1], 0) && state(r[2]))
        && table.calls.iter().all(|r| state(r[0]) && kind(r[1], 1) && state(r[2]))
        && table.returns.iter().all(|r| state(r[0]) && kind(r[1], 2) && state(r[2]) && state(r[3]));
    if !fine {
        return Some(7);
    }
    let rising = table.internals.windows(2).all(|w| w[0] < w[1])
        && table.calls.windows(2).all(|w| w[0] < w[1])
        && table.returns.windows(2).all(|w| w[0] < w[1]);
    if !rising {
        return Some(8);
    }
    None
}

/// Reading: the table and the five starts, or the number of the first refusal that applies.
pub fn parse(l: Limits, b: &[u8]) -> Result<(Table, [usize; 5]), u8> {
    judged(l)?;
    if b.len() < 12 || b.len() > 22_540 + l.states + l.symbols {
        return Err(1);
    }
    let t = b.len() - 12;
    let word = |i: usize| u16::from_le_bytes([b[t + 2 * i], b[t + 2 * i + 1]]) as usize;
    let version = word(5) as u16;
    if version != 1 && version != 2 {
        return Err(2);
    }
    let d: Vec<usize> = (0..5).map(word).collect();
    if d[0] != t || d.windows(2).any(|w| w[1] > w[0]) {
        return Err(3);
    }
    if (d[2] - d[3]) % 3 != 0 || (d[3] - d[4]) % 3 != 0 || d[4] % 4 != 0 {
        return Err(3);
    }
    let at: Vec<usize> = d.iter().map(|x| t - x).collect();
    let table = Table {
        version,
        symbols: b[at[0]..at[1]].to_vec(),
        states: b[at[1]..at[2]].to_vec(),
        internals: triples(&b[at[2]..at[3]]),
        calls: triples(&b[at[3]..at[4]]),
        returns: quads(&b[at[4]..t]),
    };
    match fault(l, &table) {
        Some(number) => Err(number),
        None => Ok((table, [at[0], at[1], at[2], at[3], at[4]])),
    }
}

/// The operation read: the five starts.
pub fn read(l: Limits, b: &[u8]) -> Result<[usize; 5], u8> {
    parse(l, b).map(|x| x.1)
}
