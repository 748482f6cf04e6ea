//! Configurations, runs, and reading a script.

use super::*;
use std::collections::BTreeSet;

/// A state and a stack, the topmost last.
pub type Configuration = (u8, Vec<u8>);

/// Where a symbol leads from a configuration.
pub(super) fn steps(t: &Table, (q, stack): &Configuration, a: u8) -> Vec<Configuration> {
    let mut next = Vec::new();
    for r in t.internals.iter().filter(|r| r[0] == *q && r[1] == a) {
        next.push((r[2], stack.clone()));
    }
    for r in t.calls.iter().filter(|r| r[0] == *q && r[1] == a) {
        next.push((r[2], [&stack[..], &[*q]].concat()));
    }
    for r in t.returns.iter().filter(|r| r[0] == *q && r[1] == a && stack.last() == Some(&r[2])) {
        next.push((r[3], stack[..stack.len() - 1].to_vec()));
    }
    next
}

/// Where runs start.
pub fn starts(t: &Table) -> BTreeSet<Configuration> {
    (0..t.count()).filter(|&q| t.initial(q)).map(|q| (q as u8, Vec::new())).collect()
}

/// Where runs are one symbol later: all configurations at once.
pub fn later(t: &Table, now: &BTreeSet<Configuration>, a: u8) -> BTreeSet<Configuration> {
    now.iter().flat_map(|c| steps(t, c, a)).collect()
}

/// Whether one of the configurations is an accepting state on the empty stack.
pub fn accepting(t: &Table, last: &BTreeSet<Configuration>) -> bool {
    last.iter().any(|(q, stack)| stack.is_empty() && t.accepting(*q as usize))
}

/// The marks of the states, accepting or not, among the configurations on the empty stack.
pub fn end_marks(t: &Table, last: &BTreeSet<Configuration>) -> BTreeSet<u8> {
    last.iter().filter(|(_, stack)| stack.is_empty()).map(|(q, _)| t.mark(*q as usize)).collect()
}

/// Whether a run over the whole word ends in an accepting state on the empty stack.
pub fn accepts(t: &Table, word: &[u8]) -> bool {
    accepting(t, &word.iter().fold(starts(t), |now, &a| later(t, &now, a)))
}

/// The same by summaries, for words of any length: at each level the pairs of the state in which it was entered and the state now.
pub fn accepts_long(t: &Table, word: &[u8]) -> bool {
    let mut level: BTreeSet<(u8, u8)> = (0..t.count() as u8).filter(|&q| t.initial(q as usize)).map(|q| (q, q)).collect();
    let mut below: Vec<(BTreeSet<(u8, u8)>, u8)> = Vec::new();
    for &a in word {
        match t.symbols[a as usize] {
            0 => level = level.iter().flat_map(|&(x, q)| t.internals.iter().filter(move |r| r[0] == q && r[1] == a).map(move |r| (x, r[2]))).collect(),
            1 => {
                let entered = level.iter().flat_map(|&(_, q)| t.calls.iter().filter(move |r| r[0] == q && r[1] == a).map(|r| (r[2], r[2]))).collect();
                below.push((std::mem::replace(&mut level, entered), a));
            }
            _ => {
                let Some((outer, call)) = below.pop() else {
                    return false;
                };
                let mut after = BTreeSet::new();
                for &(x, p) in &outer {
                    for c in t.calls.iter().filter(|c| c[0] == p && c[1] == call) {
                        for &(_, q) in level.iter().filter(|y| y.0 == c[2]) {
                            after.extend(t.returns.iter().filter(|r| r[0] == q && r[1] == a && r[2] == p).map(|r| (x, r[3])));
                        }
                    }
                }
                level = after;
            }
        }
    }
    below.is_empty() && level.iter().any(|&(_, q)| t.accepting(q as usize))
}

/// The operation script: whether the table accepts it.
pub fn script(l: Limits, b: &[u8], script: &[u8]) -> Result<bool, u8> {
    let t = parse(l, b)?.0;
    if script.iter().any(|&a| a as usize >= t.symbols.len()) {
        return Err(30);
    }
    let mut open = 0;
    for &a in script {
        match t.symbols[a as usize] {
            1 if open == 64 => return Err(31),
            1 => open += 1,
            2 if open == 0 => return Ok(false),
            2 => open -= 1,
            _ => {}
        }
    }
    Ok(accepts_long(&t, script))
}

/// Every run over the whole word, configuration by configuration, accepted or not.
pub fn runs(t: &Table, word: &[u8]) -> BTreeSet<Vec<Configuration>> {
    let first = starts(t).into_iter().map(|c| vec![c]).collect();
    word.iter().fold(first, |now: BTreeSet<Vec<Configuration>>, &a| {
        now.iter().flat_map(|run| steps(t, run.last().unwrap(), a).into_iter().map(|c| [&run[..], &[c]].concat())).collect()
    })
}

/// The classes of a run, state and whole stack at every step.
pub fn classes_of(map: &[u8], run: &[Configuration]) -> Vec<Configuration> {
    run.iter().map(|(q, stack)| (map[*q as usize], stack.iter().map(|&s| map[s as usize]).collect())).collect()
}
