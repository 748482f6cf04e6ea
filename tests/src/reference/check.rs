//! The map of an assignment, and the check: Definition 1 condition by condition.

use super::*;

/// The map of an assignment: each state gets the class of its first joined state, or a new one.
pub fn map_of(values: &[bool], n: usize) -> Vec<u8> {
    let mut map: Vec<u8> = Vec::new();
    let mut next = 0;
    for q in 0..n {
        match (0..q).find(|&p| values[variable(p, q) as usize]) {
            Some(p) => map.push(map[p]),
            None => {
                map.push(next);
                next += 1;
            }
        }
    }
    map
}

/// Whether each class number is at most one above the largest before it, the first 0.
pub fn proper(map: &[u8]) -> bool {
    let mut next = 0u16;
    for &c in map {
        if c as u16 > next {
            return false;
        }
        next = next.max(c as u16 + 1);
    }
    true
}

/// Definition 1, condition by condition over pairs of states: the number of the first broken one.
pub fn broken(t: &Table, map: &[u8]) -> Option<u8> {
    let n = t.count();
    let tops = top_sets(t);
    let joined = |p: usize, q: usize| map[p] == map[q];
    let pairs: Vec<(usize, usize)> = (0..n).flat_map(|p| (0..n).map(move |q| (p, q))).filter(|&(p, q)| joined(p, q)).collect();
    if pairs.iter().any(|&(p, q)| t.accepting(p) != t.accepting(q) || t.mark(p) != t.mark(q)) {
        return Some(17);
    }
    for (number, records) in [(18, &t.internals), (19, &t.calls)] {
        for &(p, q) in &pairs {
            for r in records.iter().filter(|r| r[0] as usize == p) {
                let matched = records.iter().any(|s| s[0] as usize == q && s[1] == r[1] && joined(r[2] as usize, s[2] as usize));
                if !matched {
                    return Some(number);
                }
            }
        }
    }
    for &(p, q) in &pairs {
        for &(s, u) in &pairs {
            if !tops[p].contains(&s) || !tops[q].contains(&u) {
                continue;
            }
            for r in t.returns.iter().filter(|r| r[0] as usize == p && r[2] as usize == s) {
                let matched = t
                    .returns
                    .iter()
                    .any(|x| x[0] as usize == q && x[1] == r[1] && x[2] as usize == u && joined(r[3] as usize, x[3] as usize));
                if !matched {
                    return Some(20);
                }
            }
        }
    }
    None
}

/// The operation check: the class count.
pub fn check(l: Limits, b: &[u8], map: &[u8]) -> Result<usize, u8> {
    let (t, _) = parse(l, b)?;
    if map.len() != t.count() {
        return Err(15);
    }
    if !proper(map) {
        return Err(16);
    }
    match broken(&t, map) {
        Some(k) => Err(k),
        None => Ok(*map.iter().max().unwrap() as usize + 1),
    }
}
