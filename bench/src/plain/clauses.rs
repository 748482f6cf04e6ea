//! The clause list of a table: measured, then written where it fits.

use super::table::{parse, Table};
use super::tops::{has_top, words_of, Words};
use basilvault_tests::reference::Limits;

/// The list as far as it was counted, and whether it is written too.
struct List<'a> {
    words: &'a mut [u16],
    write: bool,
    clauses: usize,
    length: usize,
}

impl List<'_> {
    /// One clause more.
    fn put(&mut self, literals: &[u16]) {
        let end = self.length + 1 + literals.len();
        if self.write {
            self.words[self.length] = literals.len() as u16;
            self.words[self.length + 1..end].copy_from_slice(literals);
        }
        self.clauses += 1;
        self.length = end;
    }

    /// Whether there are more words than room.
    fn over(&self) -> bool {
        self.length > self.words.len()
    }
}

/// The literals of a clause; it has at most 42.
struct Clause {
    literals: [u16; 42],
    count: usize,
}

impl Clause {
    /// A clause without literals.
    fn new() -> Self {
        Clause { literals: [0; 42], count: 0 }
    }

    /// The literals so far.
    fn literals(&self) -> &[u16] {
        &self.literals[..self.count]
    }

    /// One literal more, unless it is there.
    fn add(&mut self, l: u16) {
        if !self.literals().contains(&l) {
            self.literals[self.count] = l;
            self.count += 1;
        }
    }

    /// "{p,q} false unless p = q"
    fn premise(&mut self, p: u8, q: u8) {
        if p != q {
            self.add(parted(p, q));
        }
    }

    /// "{p',q'} true for each" target q'; false where the clause is left out.
    fn conclude(&mut self, target: u8, targets: impl Iterator<Item = u8>) -> bool {
        for q in targets {
            if q == target {
                return false;
            }
            let l = joined(target, q);
            if self.literals().contains(&(l ^ 1)) {
                return false;
            }
            self.add(l);
        }
        true
    }
}

/// The literal that two different states are joined.
fn joined(p: u8, q: u8) -> u16 {
    let (low, high) = if p < q { (p as u16, q as u16) } else { (q as u16, p as u16) };
    high * (high - 1) + 2 * low
}

/// The literal that they are not.
fn parted(p: u8, q: u8) -> u16 {
    joined(p, q) + 1
}

/// The targets of the records that start with a key of K bytes, found through the section's order.
pub fn targets<'a, const K: usize, const W: usize>(section: &'a [[u8; W]], key: [u8; K]) -> impl Iterator<Item = u8> + 'a {
    let from = section.partition_point(|r| r[..K] < key[..]);
    section[from..].iter().take_while(move |r| r[..K] == key).map(|r| r[W - 1])
}

/// Group 1: states of which exactly one is accepting.
fn looks_apart(states: &[u8], list: &mut List) {
    for q in 0..states.len() {
        for p in 0..q {
            if states[p] / 2 != states[q] / 2 {
                list.put(&[parted(p as u8, q as u8)]);
            }
        }
    }
}

/// Group 2: transitivity.
fn transitive(count: u8, list: &mut List) {
    for p in 0..count {
        for q in p + 1..count {
            for s in q + 1..count {
                list.put(&[parted(p, q), parted(q, s), joined(p, s)]);
                list.put(&[parted(p, q), parted(p, s), joined(q, s)]);
                list.put(&[parted(p, s), parted(q, s), joined(p, q)]);
            }
        }
    }
}

/// Groups 3 and 4: internals and calls.
fn moves(section: &[[u8; 3]], count: u8, list: &mut List) {
    for &[p, a, target] in section {
        if list.over() {
            return;
        }
        for q in (0..count).filter(|&q| q != p) {
            let mut clause = Clause::new();
            clause.premise(p, q);
            if clause.conclude(target, targets(section, [q, a])) {
                list.put(clause.literals());
            }
        }
    }
}

/// Group 5: live returns.
fn live_returns(section: &[[u8; 4]], tops: &Words, count: u8, list: &mut List) {
    for &[p, a, s, target] in section {
        if list.over() {
            return;
        }
        if !has_top(tops, p, s) {
            continue;
        }
        for q in 0..count {
            for u in states_in(tops[q as usize], count).filter(|&u| (q, u) != (p, s)) {
                let mut clause = Clause::new();
                clause.premise(p, q);
                clause.premise(s, u);
                if clause.conclude(target, targets(section, [q, a, u])) {
                    list.put(clause.literals());
                }
            }
        }
    }
}

/// The states in a word of tops, ascending.
fn states_in(word: u64, count: u8) -> impl Iterator<Item = u8> {
    let mut rest = word & ((1 << count) - 1);
    std::iter::from_fn(move || {
        let u = rest.trailing_zeros() as u8;
        if u == 64 {
            return None;
        }
        rest &= rest - 1;
        Some(u)
    })
}

/// All five groups, or all but the second: clauses and words.
fn groups(t: &Table, tops: &Words, words: &mut [u16], whole: bool, write: bool) -> (usize, usize) {
    let count = t.count() as u8;
    let mut list = List { words, write, clauses: 0, length: 0 };
    looks_apart(t.states, &mut list);
    if whole {
        transitive(count, &mut list);
    }
    moves(t.internals, count, &mut list);
    moves(t.calls, count, &mut list);
    live_returns(t.returns, tops, count, &mut list);
    (list.clauses, list.length)
}

/// The list of a table that was read: clauses and words, or 10.
pub fn list_of(t: &Table, tops: &Words, words: &mut [u16], whole: bool) -> Result<(usize, usize), u8> {
    let (_, length) = groups(t, tops, words, whole, false);
    if length > words.len() {
        return Err(10);
    }
    Ok(groups(t, tops, words, whole, true))
}

/// Clauses and words; the list.
pub fn clauses(l: Limits, bytes: &[u8], list: &mut [u16]) -> Result<[u64; 2], u8> {
    let (t, _) = parse(l, bytes)?;
    let (clauses, words) = list_of(&t, &words_of(&t), list, true)?;
    Ok([clauses as u64, words as u64])
}
