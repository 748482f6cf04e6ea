//! The quotient.

use super::*;
use std::collections::BTreeSet;

/// The quotient under an accepted map.
pub fn quotient_table(t: &Table, map: &[u8]) -> Table {
    let classes = *map.iter().max().unwrap() as usize + 1;
    let tops = top_sets(t);
    let m = |q: u8| map[q as usize];
    let mut states = vec![0u8; classes];
    for q in 0..t.count() {
        states[map[q] as usize] |= t.states[q];
    }
    let internals: BTreeSet<[u8; 3]> = t.internals.iter().map(|r| [m(r[0]), r[1], m(r[2])]).collect();
    let calls: BTreeSet<[u8; 3]> = t.calls.iter().map(|r| [m(r[0]), r[1], m(r[2])]).collect();
    let returns: BTreeSet<[u8; 4]> = t
        .returns
        .iter()
        .filter(|r| tops[r[0] as usize].contains(&(r[2] as usize)))
        .map(|r| [m(r[0]), r[1], m(r[2]), m(r[3])])
        .collect();
    Table {
        version: t.version,
        symbols: t.symbols.clone(),
        states,
        internals: internals.into_iter().collect(),
        calls: calls.into_iter().collect(),
        returns: returns.into_iter().collect(),
    }
}

/// The operation quotient: the length.
pub fn quotient(l: Limits, b: &[u8], map: &[u8], out: &mut [u8]) -> Result<usize, u8> {
    check(l, b, map)?;
    let (t, _) = parse(l, b)?;
    let bytes = quotient_table(&t, map).bytes();
    if bytes.len() > out.len() {
        return Err(21);
    }
    out[..bytes.len()].copy_from_slice(&bytes);
    Ok(bytes.len())
}
