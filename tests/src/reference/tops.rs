//! The reachable stack tops.

use super::*;
use std::collections::{BTreeSet, VecDeque};

/// The reachable tops of each state, by a worklist over pairs of state and top.
pub fn top_sets(t: &Table) -> Vec<BTreeSet<usize>> {
    let n = t.count();
    let mut tops = vec![BTreeSet::new(); n];
    let mut work: VecDeque<(usize, usize)> = VecDeque::new();
    for q in 0..n {
        if t.initial(q) {
            work.push_back((q, BOTTOM));
        }
    }
    while let Some((q, x)) = work.pop_front() {
        if !tops[q].insert(x) {
            continue;
        }
        for r in &t.internals {
            if r[0] as usize == q {
                work.push_back((r[2] as usize, x));
            }
        }
        for r in &t.calls {
            if r[0] as usize == q {
                work.push_back((r[2] as usize, q));
            }
        }
        for r in &t.returns {
            let (p, s, e) = (r[0] as usize, r[2] as usize, r[3] as usize);
            // q just gained the top x: either x is what this return pops, or q is the state that is uncovered
            if p == q && s == x {
                for y in tops[s].clone() {
                    work.push_back((e, y));
                }
            }
            if s == q && tops[p].contains(&s) {
                work.push_back((e, x));
            }
        }
    }
    tops
}

/// The operation tops: 40 words, and the number of tops found.
pub fn tops(l: Limits, b: &[u8]) -> Result<([u64; 40], u32), u8> {
    let (t, _) = parse(l, b)?;
    let mut words = [0u64; 40];
    let mut found = 0;
    for (q, set) in top_sets(&t).iter().enumerate() {
        for &x in set {
            words[q] |= 1 << x;
            found += 1;
        }
    }
    Ok((words, found))
}
