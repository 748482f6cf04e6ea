//! Clauses with the record that each says something about. `docs/SCOPE.md` has the list.

use crate::model::Table;
use basilvault::Tops;

/// The variable of two different states: true means joined.
pub fn variable(p: u8, q: u8) -> u16 {
    let (low, high) = (u16::from(p.min(q)), u16::from(p.max(q)));
    high * (high - 1) / 2 + low
}

/// The two states of a variable, the lower first.
pub fn pair(variable: u16) -> (u8, u8) {
    let high = (1..).take_while(|high| high * (high - 1) / 2 <= variable).last().expect("variable 0 has the states 0 and 1");
    ((variable - high * (high - 1) / 2) as u8, high as u8)
}

/// What a clause comes from: a record of a state, and the state that it is compared with.
#[derive(Clone, Copy, Debug, PartialEq, Eq)]
pub enum Source {
    /// The two differ in accepting or in their mark.
    Differ { p: u8, q: u8 },
    /// Two pairs of three states give the third.
    Transitive { joined: [(u8, u8); 2], third: (u8, u8) },
    /// An internal or a call of one state.
    Move { record: [u8; 3], q: u8 },
    /// A live return of one state, and a top of the other.
    Return { record: [u8; 4], q: u8, u: u8 },
}

/// A table and its reachable tops, to find sources in.
pub struct Sources<'a> {
    pub table: &'a Table,
    pub tops: &'a Tops,
}

impl Sources<'_> {
    /// Whether a state is a reachable top of another.
    pub fn top(&self, q: u8, u: u8) -> bool {
        self.tops.words[usize::from(q)] >> u & 1 != 0
    }

    /// The records by which a state may go like this move, by their targets.
    pub fn targets(&self, q: u8, symbol: u8) -> Vec<u8> {
        let moves = self.table.internals.iter().chain(&self.table.calls);
        moves.filter(|record| record[..2] == [q, symbol]).map(|record| record[2]).collect()
    }

    /// The targets of a state's returns by a symbol over a stack state.
    pub fn targets_over(&self, q: u8, symbol: u8, u: u8) -> Vec<u8> {
        self.table.returns.iter().filter(|record| record[..3] == [q, symbol, u]).map(|record| record[3]).collect()
    }

    /// The clause of a source, where it is not left out.
    fn clause(&self, source: Source) -> Option<Vec<u16>> {
        match source {
            Source::Differ { p, q } => Some(vec![2 * variable(p, q) + 1]),
            Source::Transitive { joined: [(p, q), (r, s)], third } => {
                Some(vec![2 * variable(p, q) + 1, 2 * variable(r, s) + 1, 2 * variable(third.0, third.1)])
            }
            Source::Move { record: [p, symbol, target], q } => literals(&[(p, q)], target, &self.targets(q, symbol)),
            Source::Return { record: [p, symbol, s, target], q, u } => literals(&[(p, q), (s, u)], target, &self.targets_over(q, symbol, u)),
        }
    }

    /// What a clause of the written list comes from.
    pub fn source(&self, clause: &[u16]) -> Option<Source> {
        let same = |source: &Source| self.clause(*source).is_some_and(|literals| same_literals(&literals, clause));
        self.differing(clause).or_else(|| self.moving(clause).find(same)).or_else(|| transitive(clause)).or_else(|| self.returning(clause).find(same))
    }

    /// A clause of one pair whose states differ in accepting or mark.
    fn differing(&self, clause: &[u16]) -> Option<Source> {
        let &[literal] = clause else { return None };
        let (p, q) = pair(literal / 2);
        let state = |q: u8| self.table.states[usize::from(q)];
        let differ = state(p).accepting != state(q).accepting || state(p).mark != state(q).mark;
        (literal % 2 == 1 && differ).then_some(Source::Differ { p, q })
    }

    /// The internals and calls of the states of a clause's first pair, each with the other.
    fn moving(&self, clause: &[u16]) -> impl Iterator<Item = Source> {
        let (p, q) = pair(clause[0] / 2);
        let moves = self.table.internals.iter().chain(&self.table.calls).copied();
        moves.filter(move |record| record[0] == p || record[0] == q).map(move |record| Source::Move { record, q: p ^ q ^ record[0] })
    }

    /// The live returns that may have made a clause, with state and top of the other.
    fn returning(&self, clause: &[u16]) -> impl Iterator<Item = Source> {
        let states = 0..self.table.states.len() as u8;
        let apart: Vec<u16> = clause.iter().filter(|literal| *literal % 2 == 1).map(|literal| literal / 2).collect();
        let others = move |p: u8| {
            let apart = apart.clone();
            states.clone().filter(move |&q| p == q || apart.contains(&variable(p, q)))
        };
        let live = self.table.returns.iter().copied().filter(|record| self.top(record[0], record[2]));
        live.flat_map(move |record| {
            let others = others.clone();
            let tops = others.clone();
            others(record[0]).flat_map(move |q| tops(record[2]).map(move |u| Source::Return { record, q, u }))
        })
        .filter(|source| matches!(source, Source::Return { record, q, u } if self.top(*q, *u) && (*q, *u) != (record[0], record[2])))
    }
}

/// The clause "pairs false, or a target joined with one of the others", where it is not left out.
fn literals(pairs: &[(u8, u8)], target: u8, others: &[u8]) -> Option<Vec<u16>> {
    let apart = pairs.iter().filter(|(p, q)| p != q).map(|&(p, q)| 2 * variable(p, q) + 1);
    let joined = others.iter().filter(|other| **other != target).map(|&other| 2 * variable(target, other));
    (!others.contains(&target)).then(|| apart.chain(joined).collect())
}

/// Three pairs of three states, of which two give the third.
fn transitive(clause: &[u16]) -> Option<Source> {
    let &[first, second, third] = clause else { return None };
    let mut states: Vec<u8> = clause.iter().flat_map(|literal| [pair(literal / 2).0, pair(literal / 2).1]).collect();
    states.sort_unstable();
    states.dedup();
    let shape = states.len() == 3 && first % 2 == 1 && second % 2 == 1 && third % 2 == 0;
    shape.then(|| Source::Transitive { joined: [pair(first / 2), pair(second / 2)], third: pair(third / 2) })
}

/// Whether two clauses have the same literals.
fn same_literals(one: &[u16], other: &[u16]) -> bool {
    one.iter().all(|literal| other.contains(literal)) && other.iter().all(|literal| one.contains(literal))
}
