//! Where the records went.

use super::*;
use std::collections::BTreeSet;

/// Where each record of the input went: 0 kept, 1 folded, 2 dead, in file order.
pub fn fates(t: &Table, map: &[u8]) -> Vec<u8> {
    let tops = top_sets(t);
    let m = |q: u8| map[q as usize];
    let mut seen: BTreeSet<Vec<u8>> = BTreeSet::new();
    let mut images: Vec<Option<Vec<u8>>> = Vec::new();
    images.extend(t.internals.iter().map(|r| Some(vec![0, m(r[0]), r[1], m(r[2])])));
    images.extend(t.calls.iter().map(|r| Some(vec![1, m(r[0]), r[1], m(r[2])])));
    for r in &t.returns {
        let live = tops[r[0] as usize].contains(&(r[2] as usize));
        images.push(live.then(|| vec![2, m(r[0]), r[1], m(r[2]), m(r[3])]));
    }
    let fate = |image: Option<Vec<u8>>| match image {
        None => 2,
        Some(x) => !seen.insert(x) as u8,
    };
    images.into_iter().map(fate).collect()
}

/// The operation records: how many there are, how many are kept, folded and dead.
pub fn records(l: Limits, b: &[u8], map: &[u8], out: &mut [u8]) -> Result<[usize; 4], u8> {
    check(l, b, map)?;
    let t = parse(l, b)?.0;
    let fates = fates(&t, map);
    if out.len() < fates.len() {
        return Err(21);
    }
    out[..fates.len()].copy_from_slice(&fates);
    let count = |k: u8| fates.iter().filter(|&&x| x == k).count();
    let small = quotient_table(&t, map);
    assert_eq!(count(0), small.internals.len() + small.calls.len() + small.returns.len(), "kept are the quotient's records");
    Ok([fates.len(), count(0), count(1), count(2)])
}
