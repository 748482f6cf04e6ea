//! What breaks a map: the states, the symbol and the targets. The library has refused it; this finds the place and says it.

use crate::input::Input;
use crate::model::Table;
use crate::names::Names;
use basilvault::{Refusal, Tops};

/// A table and a map of its states.
struct Told<'a> {
    table: &'a Table,
    names: &'a Names,
    tops: Tops,
    map: &'a [u8],
}

/// What breaks a map: in words, and the joined states.
#[derive(Default)]
pub struct Broken {
    pub text: String,
    pub states: Vec<u8>,
}

/// What breaks the condition that the library names; nothing where no place is found.
pub fn found(input: &Input, table: &Table, names: &Names, map: &[u8], refusal: Refusal) -> Broken {
    let plain = |text: String| Broken { text, states: Vec::new() };
    if refusal == Refusal::MapLength {
        return plain(format!("it has {} states, and {} has {}", map.len(), input.file.display(), table.states.len()));
    }
    if refusal == Refusal::Numbering {
        return plain(numbering(names, map));
    }
    let Ok(tops) = input.tops() else { return Broken::default() };
    let told = Told { table, names, tops, map };
    let found = match refusal {
        Refusal::Agreement => told.agreement(),
        Refusal::Internals => told.moves(&table.internals, ""),
        Refusal::Calls => told.moves(&table.calls, "the call "),
        Refusal::Returns => told.returns(),
        _ => None,
    };
    found.unwrap_or_default()
}

/// The first class number that is more than one above those before it.
fn numbering(names: &Names, map: &[u8]) -> String {
    let mut next = 0;
    for (class, name) in map.iter().zip(&names.states) {
        if *class > next {
            return format!("{name} has class {class}, where at most {next} can come");
        }
        next = next.max(class + 1);
    }
    String::new()
}

impl Told<'_> {
    /// Whether the map joins two states.
    fn joined(&self, p: u8, q: u8) -> bool {
        self.map[usize::from(p)] == self.map[usize::from(q)]
    }

    /// The states joined with one, itself included.
    fn class(&self, p: u8) -> impl Iterator<Item = u8> {
        (0..self.map.len() as u8).filter(move |&q| self.joined(p, q))
    }

    /// Whether t is a top of q.
    fn top(&self, q: u8, t: u8) -> bool {
        self.tops.words[usize::from(q)] >> t & 1 == 1
    }

    /// The name of a state.
    fn name(&self, q: u8) -> &str {
        self.names.state(q)
    }

    /// Names with "or" between them.
    fn list(&self, states: &[u8]) -> String {
        states.iter().map(|q| self.name(*q)).collect::<Vec<_>>().join(" or ")
    }

    /// Two joined states that differ in accepting or mark.
    fn agreement(&self) -> Option<Broken> {
        let states = || 0..self.map.len() as u8;
        let look = |q: u8| self.table.states[usize::from(q)];
        let differ = |p: u8, q: u8| look(p).accepting != look(q).accepting || look(p).mark != look(q).mark;
        let (p, q) = states().flat_map(|q| (0..q).map(move |p| (p, q))).find(|&(p, q)| self.joined(p, q) && differ(p, q))?;
        let [one, other] = [p, q].map(|q| self.name(q));
        if look(p).accepting != look(q).accepting {
            let (yes, no) = if look(p).accepting { (one, other) } else { (other, one) };
            return Some(Broken { text: format!("it joins {one} and {other}, but {yes} is accepting and {no} is not"), states: vec![p, q] });
        }
        let [first, second] = [p, q].map(|q| self.names.mark(look(q).mark));
        let text = format!("it joins {one} and {other}, but {one} has mark {first} and {other} has mark {second}");
        Some(Broken { text, states: vec![p, q] })
    }

    /// A move that a joined state does not match.
    fn moves(&self, records: &[[u8; 3]], kind: &str) -> Option<Broken> {
        records.iter().find_map(|&[p, symbol, target]| {
            let others = |q: u8| records.iter().filter(move |r| r[0] == q && r[1] == symbol).map(|r| r[2]).collect::<Vec<_>>();
            let q = self.class(p).find(|&q| !others(q).iter().any(|&other| self.joined(target, other)))?;
            let [one, other, by, to] = [self.name(p), self.name(q), self.names.symbol(symbol), self.name(target)];
            let found = self.found(&others(q), target, &format!("has no {by}"), "goes to");
            let text = format!("it joins {one} and {other}, but {one} takes {kind}{by} to {to}, and {other} {found}");
            Some(Broken { text, states: vec![p, q] })
        })
    }

    /// A live return that a joined state does not match over a joined top.
    fn returns(&self) -> Option<Broken> {
        let live = self.table.returns.iter().filter(|record| self.top(record[0], record[2]));
        live.copied().find_map(|[p, symbol, s, target]| {
            let others = |q: u8, u: u8| {
                let over = self.table.returns.iter().filter(move |r| r[..3] == [q, symbol, u]);
                over.map(|r| r[3]).collect::<Vec<_>>()
            };
            let places = self.class(p).flat_map(|q| self.class(s).filter(move |&u| self.top(q, u)).map(move |u| (q, u)));
            let (q, u) = places.into_iter().find(|&(q, u)| !others(q, u).iter().any(|&other| self.joined(target, other)))?;
            let [one, other, by, to, stack, top] = [self.name(p), self.name(q), self.names.symbol(symbol), self.name(target), self.name(s), self.name(u)];
            let joined: Vec<(u8, u8)> = [(p, q), (s, u)].into_iter().filter(|(a, b)| a != b).collect();
            let pairs: Vec<String> = joined.iter().map(|&(a, b)| format!("{} and {}", self.name(a), self.name(b))).collect();
            let found = self.found(&others(q, u), target, &format!("has no {by} over {top}"), &format!("takes it over {top} to"));
            let text = format!("it joins {}, but {one} takes the return {by} over {stack} to {to}, and {other} {found}", pairs.join(", and "));
            Some(Broken { text, states: joined.iter().flat_map(|&(a, b)| [a, b]).collect() })
        })
    }

    /// What a joined state has in place of a match.
    fn found(&self, others: &[u8], target: u8, none: &str, some: &str) -> String {
        match others {
            [] => none.into(),
            _ => format!("{some} {}, which it does not join with {}", self.list(others), self.name(target)),
        }
    }
}
