//! A reduction with all that the page tells of it, as the library answers.

use crate::maps;
use crate::model::Table;
use crate::names::Names;
use basilvault::{Limits, Recorded, Reduced, Refusal, Tops};

/// Who proposed the map that the check has accepted.
#[derive(Clone, Debug, PartialEq, Eq)]
pub enum Proposer {
    /// The library's search.
    Search,
    /// The library's search, whose map is no worse than that of this solver.
    SearchAgainst(String),
    /// A solver, by its command line.
    Solver(String),
    /// Whoever wrote this file.
    File(String),
}

impl Proposer {
    /// Who it was, in words.
    pub fn said(&self) -> String {
        match self {
            Proposer::Search => "proposed by the library's search".into(),
            Proposer::SearchAgainst(solver) => format!("proposed by the library's search; what {solver} proposed is no better"),
            Proposer::Solver(solver) => format!("proposed by {solver}"),
            Proposer::File(file) => format!("proposed in {file}"),
        }
    }

    /// Whether it was the library's search.
    pub fn is_search(&self) -> bool {
        matches!(self, Proposer::Search | Proposer::SearchAgainst(_))
    }
}

/// A table before and after.
pub struct Reduction<'a> {
    pub names: &'a Names,
    pub before: Table,
    pub tops: Tops,
    pub map: Vec<u8>,
    pub fates: Vec<u8>,
    pub recorded: Recorded,
    /// what the map comes to
    pub reduced: Reduced,
    /// what the library's search came to
    pub search: Reduced,
    pub proposer: Proposer,
    pub after: Table,
    pub after_tops: Tops,
    pub after_names: Names,
    pub budget: u64,
    pub room: usize,
    pub bytes: usize,
}

impl<'a> Reduction<'a> {
    /// Reduces a table, and asks for its records and tops.
    pub fn new(limits: Limits, bytes: &[u8], names: &'a Names, budget: u64, room: usize) -> Result<Reduction<'a>, Refusal> {
        let before = Table::from_bytes(limits, bytes)?;
        let (mut list, mut map, mut out) = (vec![0; room], vec![0; before.states.len()], vec![0; bytes.len()]);
        let reduced = basilvault::reduce_within(limits, bytes, budget, &mut list, &mut map, &mut out)?;
        let mut fates = vec![0; before.internals.len() + before.calls.len() + before.returns.len()];
        let recorded = basilvault::records_within(limits, bytes, &map, &mut fates)?;
        let small = &out[..reduced.length];
        let after = Table::from_bytes(limits, small)?;
        let after_names = class_names(names, &map, reduced.classes);
        let (tops, after_tops) = (basilvault::tops_within(limits, bytes)?, basilvault::tops_within(limits, small)?);
        let (proposer, search, bytes) = (Proposer::Search, reduced, bytes.len());
        Ok(Reduction { names, before, tops, map, fates, recorded, reduced, search, proposer, after, after_tops, after_names, budget, room, bytes })
    }

    /// The same table under another map, where the check accepts it.
    pub fn under(self, limits: Limits, bytes: &[u8], map: &[u8], proposer: Proposer) -> Result<Reduction<'a>, Refusal> {
        let classes = basilvault::check_within(limits, bytes, map)?;
        let mut out = vec![0; bytes.len()];
        let length = basilvault::quotient_within(limits, bytes, map, &mut out)?;
        let mut fates = vec![0; self.fates.len()];
        let recorded = basilvault::records_within(limits, bytes, map, &mut fates)?;
        let after = Table::from_bytes(limits, &out[..length])?;
        let (after_tops, after_names) = (basilvault::tops_within(limits, &out[..length])?, class_names(self.names, map, classes));
        let reduced = Reduced { classes, length, joined: maps::joined(map), ..self.search };
        Ok(Reduction { map: map.to_vec(), fates, recorded, reduced, proposer, after, after_tops, after_names, ..self })
    }

    /// Whether the map is the search's, and the search was cut short.
    pub fn spent(&self) -> bool {
        self.search.spent && self.proposer.is_search()
    }

    /// The states of a class.
    pub fn members(&self, class: u8) -> Vec<u8> {
        (0..self.map.len() as u8).filter(|q| self.class(*q) == class).collect()
    }

    /// The class of a state.
    pub fn class(&self, q: u8) -> u8 {
        self.map[usize::from(q)]
    }

    /// Whether as many pairs are joined as can be.
    pub fn all_joined(&self) -> bool {
        self.reduced.joined == self.reduced.ceiling
    }

    /// The classes of more than one state.
    pub fn joined(&self) -> Vec<Vec<u8>> {
        (0..self.reduced.classes as u8).map(|class| self.members(class)).filter(|members| members.len() > 1).collect()
    }
}

/// The names of the table that goes out: a class has the names of its states, or the first and how many more.
fn class_names(names: &Names, map: &[u8], classes: usize) -> Names {
    let name = |class: usize| {
        let members: Vec<&str> = (0..map.len()).filter(|q| usize::from(map[*q]) == class).map(|q| names.state(q as u8)).collect();
        match members[..] {
            [first, _, _, _, ..] => format!("{first} + {} more", members.len() - 1),
            _ => members.join(" + "),
        }
    };
    Names { symbols: names.symbols.clone(), states: (0..classes).map(name).collect(), marks: names.marks.clone() }
}
