//! Two tables compared.

use super::*;
use std::collections::{BTreeMap, BTreeSet};

/// The one target of a move or return by its key, if there is one; the records ascend.
pub(super) fn target<const N: usize>(records: &[[u8; N]], key: &[u8]) -> Option<u8> {
    records.binary_search_by(|r| r[..N - 1].cmp(key)).ok().map(|i| records[i][N - 1])
}

/// A state of the first table and one of the second, or none where the second is stuck.
pub(super) type Both = (u8, Option<u8>);

/// The pairs that balanced words reach from each pair that is entered, by rounds until nothing is new.
pub(super) fn reached(s: &Table, t: &Table, starts: &BTreeSet<Both>) -> BTreeMap<Both, BTreeSet<Both>> {
    let mut pops: BTreeMap<(u8, u8), Vec<&[u8; 4]>> = BTreeMap::new();
    for r in &s.returns {
        pops.entry((r[0], r[2])).or_default().push(r);
    }
    let mut reach: BTreeMap<Both, BTreeSet<Both>> = starts.iter().map(|&x| (x, BTreeSet::from([x]))).collect();
    loop {
        let mut new: Vec<(Both, Both)> = Vec::new();
        for (&x, pairs) in &reach {
            for &(p, b) in pairs {
                for r in s.internals.iter().filter(|r| r[0] == p) {
                    new.push((x, (r[2], b.and_then(|b| target(&t.internals, &[b, r[1]])))));
                }
                for c in s.calls.iter().filter(|c| c[0] == p) {
                    let entered = (c[2], b.and_then(|b| target(&t.calls, &[b, c[1]])));
                    new.push((entered, entered));
                    for &(q, d) in reach.get(&entered).into_iter().flatten() {
                        for r in pops.get(&(q, p)).into_iter().flatten() {
                            let after = d.zip(b).and_then(|(d, b)| target(&t.returns, &[d, r[1], b]));
                            new.push((x, (r[3], after)));
                        }
                    }
                }
            }
        }
        let mut changed = false;
        for (x, y) in new {
            changed |= reach.entry(x).or_default().insert(y);
        }
        if !changed {
            return reach;
        }
    }
}

/// The operation fit: whether the second table accepts every word of the first.
pub fn fit(first: &[u8], second: &[u8]) -> Result<bool, u8> {
    let s = parse(STANDARD, first)?.0;
    let t = parse(STANDARD, second)?.0;
    if s.symbols != t.symbols {
        return Err(37);
    }
    let initial = |t: &Table| (0..t.count()).filter(|&q| t.initial(q)).map(|q| q as u8).collect::<Vec<u8>>();
    let choice = initial(&t).len() > 1
        || t.internals.windows(2).any(|w| w[0][..2] == w[1][..2])
        || t.calls.windows(2).any(|w| w[0][..2] == w[1][..2])
        || t.returns.windows(2).any(|w| w[0][..3] == w[1][..3]);
    if choice {
        return Err(38);
    }
    let starts: BTreeSet<Both> = initial(&s).iter().map(|&p| (p, Some(initial(&t)[0]))).collect();
    let reach = reached(&s, &t, &starts);
    let fits = |&(p, b): &Both| !s.accepting(p as usize) || b.is_some_and(|b| t.accepting(b as usize));
    Ok(starts.iter().all(|x| reach[x].iter().all(fits)))
}
