//! Which of the answers it is: a chain, cases, or that the two may be joined.

use super::chain::{Chain, Clauses};
use super::clause::{Sources, pair, variable};
use super::{Answer, Of, moves, text};
use crate::model::Table;
use crate::names::Names;
use basilvault::{Limits, Refusal, Tops};

/// A table with its clause list.
pub struct Asked<'a> {
    limits: Limits,
    bytes: &'a [u8],
    pub names: &'a Names,
    pub table: Table,
    pub tops: Tops,
    pub budget: u64,
    /// Who joins: `reduce`, or a map by its name.
    pub who: &'a str,
    given: Option<&'a [u8]>,
    words: Vec<u16>,
}

impl<'a> Asked<'a> {
    /// Reads a table and has the library write the whole list.
    pub fn new(limits: Limits, bytes: &'a [u8], names: &'a Names, budget: u64, of: Of<'a>) -> Result<Asked<'a>, Refusal> {
        let counts = basilvault::read_within(limits, bytes)?.counts(bytes.len());
        let mut words = vec![0; counts.most_words()];
        let listed = basilvault::clauses_within(limits, bytes, &mut words)?;
        words.truncate(listed.words);
        words.shrink_to_fit();
        let tops = basilvault::tops_within(limits, bytes)?;
        let (who, given) = match of {
            Of::Reduce => ("reduce", None),
            Of::Map(name, map) => (name, Some(map)),
        };
        Ok(Asked { limits, bytes, names, table: Table::from_bytes(limits, bytes)?, tops, budget, who, given, words })
    }

    /// What clauses are looked up in.
    pub fn sources(&self) -> Sources<'_> {
        Sources { table: &self.table, tops: &self.tops }
    }

    /// One variable for each pair of states.
    fn variables(&self) -> usize {
        self.table.states.len() * self.table.states.len().saturating_sub(1) / 2
    }

    /// Values that satisfy the list and make these literals right, by the library's search.
    fn search(&self, right: &[u16]) -> Result<Vec<u8>, Refusal> {
        let units: Vec<u16> = right.iter().flat_map(|&literal| [1, literal]).collect();
        let words = [&self.words[..], &units].concat();
        let mut values = vec![0; self.variables()];
        basilvault::search_within(self.limits, &words, self.variables(), self.budget, &mut values)?;
        Ok(values)
    }

    /// The map that is asked about, and whether the budget of its reduction was spent.
    fn map(&self) -> Result<(Vec<u8>, bool), Refusal> {
        if let Some(map) = self.given {
            return Ok((map.to_vec(), false));
        }
        let counts = basilvault::read_within(self.limits, self.bytes)?.counts(self.bytes.len());
        let (mut map, mut out) = (vec![0; counts.states], vec![0; self.bytes.len()]);
        let mut list = vec![0; counts.most_short_words()];
        let reduced = basilvault::reduce_within(self.limits, self.bytes, self.budget, &mut list, &mut map, &mut out)?;
        Ok((map, reduced.spent))
    }
}

/// What is said of two different states.
pub fn answer(asked: &Asked, p: u8, q: u8) -> Result<Answer, Refusal> {
    let clauses = Clauses::new(&asked.words, asked.variables());
    let goal = variable(p, q);
    let (map, spent) = asked.map()?;
    if map[usize::from(p)] == map[usize::from(q)] {
        return Ok(Answer { joined: true, text: text::joined(asked, p, q) + &moves::matching(asked, p, q, &map), chains: Vec::new() });
    }
    if let Some(chain) = clauses.refute(&[2 * goal]) {
        return Ok(apart(text::chain(asked, (p, q), &chain), vec![chain]));
    }
    let searched = asked.search(&[2 * goal]);
    match searched {
        Err(Refusal::NoAssignment | Refusal::Spent) => {
            let chains = cases(&clauses, goal, asked.variables());
            let open = chains.is_empty() && searched == Err(Refusal::Spent);
            Ok(apart(if open { text::open(asked, p, q) } else { text::cases(asked, (p, q), &chains) }, chains))
        }
        Err(refusal) => Err(refusal),
        Ok(values) => Ok(alone(asked, &clauses, (p, q), &map, spent, &values)),
    }
}

/// The answer for two states that the map has apart.
fn apart(text: String, chains: Vec<Chain>) -> Answer {
    Answer { joined: false, text, chains }
}

/// The answer for two states that some map joins, though this one does not.
fn alone(asked: &Asked, clauses: &Clauses, (p, q): (u8, u8), map: &[u8], spent: bool, values: &[u8]) -> Answer {
    let there = |variable: &u16| map[usize::from(pair(*variable).0)] == map[usize::from(pair(*variable).1)];
    let others = (0..values.len() as u16).filter(there).map(|variable| 2 * variable);
    let assumed: Vec<u16> = std::iter::once(2 * variable(p, q)).chain(others).collect();
    let chain = clauses.refute(&assumed);
    let beside = chain.is_none() && asked.search(&assumed).is_ok();
    let text = text::alone(asked, (p, q), chain.as_ref(), spent, beside) + &moves::matching(asked, p, q, &map_of(values, map.len()));
    apart(text, chain.into_iter().collect())
}

/// The classes of an assignment: each state has the number of its first joined one.
fn map_of(values: &[u8], states: usize) -> Vec<u8> {
    let first = |q: u8| (0..q).find(|&p| values[usize::from(variable(p, q))] == 1).unwrap_or(q);
    (0..states as u8).map(first).collect()
}

/// How many clauses may be looked at for cases.
const PATIENCE: usize = 100_000_000;

/// Chains for cases: each but the last shows that one more pair cannot be joined beside the goal, the last that the goal cannot be then. None where one
/// case inside another would be needed, or the list is too long to try.
fn cases(clauses: &Clauses, goal: u16, variables: usize) -> Vec<Chain> {
    let mut known = vec![2 * goal];
    let mut lemmas: Vec<Chain> = Vec::new();
    while 2 * variables * clauses.count() <= PATIENCE {
        let mut found = Vec::new();
        let mut best: Option<(Chain, Chain)> = None;
        for tried in (0..variables as u16).filter(|v| !known.contains(&(2 * v)) && !known.contains(&(2 * v + 1))) {
            let with = |literal: u16| clauses.refute(&[&known[..], &[literal]].concat());
            let Some(chain) = with(2 * tried) else { continue };
            if let Some(last) = with(2 * tried + 1).filter(|last| best.as_ref().is_none_or(|best| steps(&chain, last) < steps(&best.0, &best.1))) {
                best = Some((chain.clone(), last));
            }
            found.push((2 * tried + 1, chain));
        }
        if let Some((chain, last)) = best {
            lemmas.extend([chain, last]);
            return needed(lemmas);
        }
        if found.is_empty() {
            break;
        }
        known.extend(found.iter().map(|(literal, _)| *literal));
        lemmas.extend(found.into_iter().map(|(_, chain)| chain));
    }
    Vec::new()
}

/// The steps of two chains.
fn steps(one: &Chain, other: &Chain) -> usize {
    one.steps.len() + other.steps.len()
}

/// Those chains that a later one uses, and the last.
fn needed(chains: Vec<Chain>) -> Vec<Chain> {
    let mut used: Vec<Chain> = Vec::new();
    for chain in chains.into_iter().rev() {
        let lemma = chain.assumed.iter().any(|literal| used.iter().any(|later| later.assumed.contains(&(literal ^ 1))));
        if used.is_empty() || lemma {
            used.push(chain);
        }
    }
    used.reverse();
    used
}
