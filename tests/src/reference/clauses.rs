//! The clause list, group by group.

use super::*;
use std::collections::BTreeMap;

/// The variable of two different states.
pub(super) fn variable(p: usize, q: usize) -> u16 {
    let (p, q) = if p < q { (p, q) } else { (q, p) };
    (q * (q - 1) / 2 + p) as u16
}

/// The literal that says that two states are joined.
pub(super) fn yes(p: usize, q: usize) -> u16 {
    2 * variable(p, q)
}

/// The literal that says that they are not.
pub(super) fn no(p: usize, q: usize) -> u16 {
    2 * variable(p, q) + 1
}

/// Repeated literals once, clauses with a variable both ways not at all.
pub(super) fn push(list: &mut Vec<Vec<u16>>, literals: Vec<u16>) {
    let mut clause: Vec<u16> = Vec::new();
    for l in literals {
        if clause.contains(&(l ^ 1)) {
            return;
        }
        if !clause.contains(&l) {
            clause.push(l);
        }
    }
    list.push(clause);
}

/// Group 1: pairs that differ in accepting or in their mark.
pub(super) fn look_clauses(t: &Table, list: &mut Vec<Vec<u16>>) {
    for q in 0..t.count() {
        for p in 0..q {
            if t.accepting(p) != t.accepting(q) || t.mark(p) != t.mark(q) {
                list.push(vec![no(p, q)]);
            }
        }
    }
}

/// Group 2: transitivity.
pub(super) fn transitivity(n: usize, list: &mut Vec<Vec<u16>>) {
    for p in 0..n {
        for q in p + 1..n {
            for s in q + 1..n {
                list.push(vec![no(p, q), no(q, s), yes(p, s)]);
                list.push(vec![no(p, q), no(p, s), yes(q, s)]);
                list.push(vec![no(p, s), no(q, s), yes(p, q)]);
            }
        }
    }
}

/// Groups 3 and 4, each over its own records.
pub(super) fn move_clauses(n: usize, records: &[[u8; 3]], list: &mut Vec<Vec<u16>>) {
    let mut moves: BTreeMap<(usize, u8), Vec<usize>> = BTreeMap::new();
    for r in records {
        moves.entry((r[0] as usize, r[1])).or_default().push(r[2] as usize);
    }
    for r in records {
        let (p, a, e) = (r[0] as usize, r[1], r[2] as usize);
        for q in (0..n).filter(|&q| q != p) {
            let targets = moves.get(&(q, a)).cloned().unwrap_or_default();
            if targets.contains(&e) {
                continue;
            }
            let mut literals = vec![no(p, q)];
            literals.extend(targets.iter().map(|&x| yes(e, x)));
            push(list, literals);
        }
    }
}

/// Group 5.
pub(super) fn return_clauses(t: &Table, list: &mut Vec<Vec<u16>>) {
    let tops = top_sets(t);
    let mut pops: BTreeMap<(usize, u8, usize), Vec<usize>> = BTreeMap::new();
    for r in &t.returns {
        pops.entry((r[0] as usize, r[1], r[2] as usize)).or_default().push(r[3] as usize);
    }
    for r in &t.returns {
        let (p, a, s, e) = (r[0] as usize, r[1], r[2] as usize, r[3] as usize);
        if !tops[p].contains(&s) {
            continue;
        }
        for q in 0..t.count() {
            for &u in tops[q].iter().filter(|&&u| u != BOTTOM) {
                if q == p && u == s {
                    continue;
                }
                let targets = pops.get(&(q, a, u)).cloned().unwrap_or_default();
                if targets.contains(&e) {
                    continue;
                }
                let mut literals = Vec::new();
                if p != q {
                    literals.push(no(p, q));
                }
                if s != u {
                    literals.push(no(s, u));
                }
                literals.extend(targets.iter().map(|&x| yes(e, x)));
                push(list, literals);
            }
        }
    }
}

/// The list of a table, group by group.
pub fn clause_list(t: &Table) -> Vec<Vec<u16>> {
    let mut list = Vec::new();
    look_clauses(t, &mut list);
    transitivity(t.count(), &mut list);
    move_clauses(t.count(), &t.internals, &mut list);
    move_clauses(t.count(), &t.calls, &mut list);
    return_clauses(t, &mut list);
    list
}

/// The list that reduce writes: groups 1, 3, 4 and 5.
pub fn short_list(t: &Table) -> Vec<Vec<u16>> {
    let mut list = Vec::new();
    look_clauses(t, &mut list);
    move_clauses(t.count(), &t.internals, &mut list);
    move_clauses(t.count(), &t.calls, &mut list);
    return_clauses(t, &mut list);
    list
}

/// A list as words: each clause's literal count, then its literals.
pub fn words_of(list: &[Vec<u16>]) -> Vec<u16> {
    let mut words = Vec::new();
    for c in list {
        words.push(c.len() as u16);
        words.extend_from_slice(c);
    }
    words
}

/// The operation clauses: the clause count and the word count.
pub fn clauses(l: Limits, b: &[u8], list: &mut [u16]) -> Result<(usize, usize), u8> {
    let (t, _) = parse(l, b)?;
    let all = clause_list(&t);
    let words = words_of(&all);
    if words.len() > list.len() {
        return Err(10);
    }
    list[..words.len()].copy_from_slice(&words);
    Ok((all.len(), words.len()))
}
