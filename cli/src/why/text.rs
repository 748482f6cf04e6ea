//! Chains in words.

use super::chain::Chain;
use super::clause::{Source, pair};
use super::decide::Asked;
use std::collections::HashMap;

/// That two states are one in the reduced table.
pub fn joined(asked: &Asked, p: u8, q: u8) -> String {
    format!("{} and {} are joined by {}. Their moves match:\n", asked.names.state(p), asked.names.state(q), asked.who)
}

/// That two states cannot be joined, by one chain.
pub fn chain(asked: &Asked, (p, q): (u8, u8), chain: &Chain) -> String {
    let head = format!("{} and {} cannot be joined:\n", asked.names.state(p), asked.names.state(q));
    Telling::new(asked, (p, q), SUPPOSED).tell(head, chain)
}

/// That two states cannot be joined, by cases, or by the search alone where there are none.
pub fn cases(asked: &Asked, (p, q): (u8, u8), chains: &[Chain]) -> String {
    let [first, second] = [p, q].map(|q| asked.names.state(q));
    let Some((last, lemmas)) = chains.split_last() else {
        return format!(
            "{first} and {second} cannot be joined: the search has tried every way and found none. No chain of single steps shows it, only cases \
             inside cases.\n"
        );
    };
    let mut text = format!("{first} and {second} cannot be joined, but no single chain shows it. Suppose that they are joined.\n");
    let mut telling = Telling::new(asked, (p, q), SUPPOSED);
    for lemma in lemmas {
        let more = lemma.assumed.iter().copied().rfind(|literal| literal % 2 == 0 && pair(literal / 2) != (p.min(q), p.max(q)));
        let (x, y) = more.map_or((p, q), |literal| pair(literal / 2));
        let [x, y] = [x, y].map(|q| asked.names.state(q));
        text = telling.tell(format!("{text}Were {x} and {y} joined as well:\n"), lemma);
        text += &format!("So {x} and {y} are apart then.\n");
    }
    telling.tell(text + "And with that:\n", last)
}

/// That the search did not decide.
pub fn open(asked: &Asked, p: u8, q: u8) -> String {
    let [first, second] = [p, q].map(|q| asked.names.state(q));
    format!(
        "{first} and {second} are not joined by {}. Whether they could be is open: no chain was found that forbids it, and {} guesses did not decide \
         it.\n",
        asked.who, asked.budget
    )
}

/// That two states could be joined, and why the map does not.
pub fn alone(asked: &Asked, (p, q): (u8, u8), chain: Option<&Chain>, spent: bool, beside: bool) -> String {
    let [first, second] = [p, q].map(|q| asked.names.state(q));
    let head = format!("{first} and {second} could be joined, but {} joins others in their place", asked.who);
    let why = match chain {
        Some(chain) => {
            Telling::new(asked, (p, q), &format!(" by {}", asked.who)).tell(format!("{head}. With those joined and these two as well:\n"), chain)
        }
        None if beside && !spent => format!("{first} and {second} could be joined beside all that {} joins.\n", asked.who),
        None if spent => format!("{first} and {second} could be joined, but the guesses were spent before the search came to them.\n"),
        None => format!("{head}: the search has found no way to join all of them, though no single chain shows it.\n"),
    };
    format!("{why}In a map that joins {first} and {second} their moves would match:\n")
}

/// What is said of a pair that counts as joined because it is asked for.
const SUPPOSED: &str = ", as supposed";

/// A chain on its way into words.
struct Telling<'a> {
    asked: &'a Asked<'a>,
    main: (u8, u8),
    assumed: String,
    text: String,
    number: usize,
    told: HashMap<u16, usize>,
}

impl<'a> Telling<'a> {
    /// Nothing told yet; what is said of pairs that are assumed to be joined, beside the one that is asked for.
    fn new(asked: &'a Asked<'a>, (p, q): (u8, u8), assumed: &str) -> Telling<'a> {
        Telling { asked, main: (p.min(q), p.max(q)), assumed: assumed.into(), text: String::new(), number: 0, told: HashMap::new() }
    }

    /// The text so far and the whole chain behind it: what would be joined, in order, then what cannot be.
    fn tell(&mut self, text: String, chain: &Chain) -> String {
        self.text = text;
        self.told.clear();
        for (place, (_, forces)) in chain.steps.iter().enumerate() {
            if forces.is_none_or(|literal| literal % 2 == 0) {
                self.step(chain, place, 1, String::new());
            }
        }
        std::mem::take(&mut self.text)
    }

    /// One step after its head, then what it leaves open.
    fn step(&mut self, chain: &Chain, place: usize, depth: usize, head: String) {
        let (clause, forces) = &chain.steps[place];
        self.number += 1;
        if let Some(forced) = forces {
            self.told.insert(*forced, self.number);
        }
        let sentence = self.sentence(clause, *forces);
        self.text += &format!("{}{}. {head}{sentence}\n", "  ".repeat(depth), self.number);
        let refuted: Vec<u16> = clause.iter().copied().filter(|literal| literal % 2 == 0 && Some(*literal) != *forces).collect();
        let alone = refuted.len() == 1 && forces.is_none_or(|literal| literal % 2 == 1);
        refuted.iter().for_each(|literal| self.refuted(chain, *literal, depth, alone));
        if let Some(forced) = forces.filter(|literal| literal % 2 == 0 && !refuted.is_empty()) {
            self.text += &format!("{}So {} would be joined.\n", "  ".repeat(depth + 1), self.both(forced / 2));
        }
    }

    /// Why a pair that would have to be joined cannot be: in line where it is the only one, else under its own head.
    fn refuted(&mut self, chain: &Chain, literal: u16, depth: usize, alone: bool) {
        let place = chain.steps.iter().position(|(_, forces)| *forces == Some(literal ^ 1));
        let pad = "  ".repeat(depth + usize::from(!alone));
        match (place, self.told.get(&(literal ^ 1))) {
            (None, _) => self.text += &format!("{pad}But {} are apart, as shown above.\n", self.both(literal / 2)),
            (_, Some(step)) => self.text += &format!("{pad}But {} cannot be joined: step {step}.\n", self.both(literal / 2)),
            (Some(place), None) if alone => self.step(chain, place, depth, String::new()),
            (Some(place), None) => self.step(chain, place, depth + 1, format!("{} cannot be joined: ", self.both(literal / 2))),
        }
    }

    /// The names of a pair.
    fn both(&self, variable: u16) -> String {
        let (p, q) = pair(variable);
        format!("{} and {}", self.name(p), self.name(q))
    }

    /// The name of a state.
    fn name(&self, q: u8) -> &'a str {
        self.asked.names.state(q)
    }

    /// A clause in words, with what it leaves to be joined.
    fn sentence(&self, clause: &[u16], forces: Option<u16>) -> String {
        let here = forces.filter(|literal| literal % 2 == 1).map_or(self.main, |literal| pair(literal / 2));
        let given = clause.iter().filter(|literal| *literal % 2 == 1 && pair(*literal / 2) != here);
        let given: String = given.map(|literal| format!("{} are joined{}. ", self.both(literal / 2), self.standing(literal ^ 1))).collect();
        match self.asked.sources().source(clause) {
            Some(Source::Differ { p, q }) => self.differing(p, q),
            Some(Source::Transitive { third, .. }) => {
                format!("{given}With that {} and {} would be joined too.", self.name(third.0), self.name(third.1))
            }
            Some(Source::Move { record, q }) => given + &self.moving(record, q, forces),
            Some(Source::Return { record, q, u }) => given + &self.returning(record, q, u, forces),
            None => format!("{given}A clause of the list says so: {clause:?}."),
        }
    }

    /// Why a pair counts as joined.
    fn standing(&self, literal: u16) -> String {
        match self.told.get(&literal) {
            Some(step) => format!(" by step {step}"),
            None if pair(literal / 2) == self.main => SUPPOSED.into(),
            None => self.assumed.clone(),
        }
    }

    /// That two states differ in accepting or in their mark.
    fn differing(&self, p: u8, q: u8) -> String {
        let [one, other] = [p, q].map(|q| self.asked.table.states[usize::from(q)]);
        if one.accepting != other.accepting {
            let (yes, no) = if one.accepting { (p, q) } else { (q, p) };
            return format!("{} is accepting, {} is not.", self.name(yes), self.name(no));
        }
        let [first, second] = [one, other].map(|state| self.asked.names.mark(state.mark));
        format!("{} has mark {first}, {} has mark {second}.", self.name(p), self.name(q))
    }

    /// An internal or call of one state, and what the other has.
    fn moving(&self, [p, symbol, target]: [u8; 3], q: u8, forces: Option<u16>) -> String {
        let kind = if self.asked.table.calls.contains(&[p, symbol, target]) { "the call " } else { "" };
        let by = self.asked.names.symbol(symbol);
        let others = self.asked.sources().targets(q, symbol);
        let [one, other] = [p, q].map(|q| self.name(q));
        if others.is_empty() {
            return format!("{one} takes {kind}{by} to {}, {other} has no {}{by}.", self.name(target), kind.trim_start_matches("the "));
        }
        let open = self.open(target, &others, forces);
        format!("{one} takes {kind}{by} to {}, {other} to {}: {open}", self.name(target), self.list(&others))
    }

    /// A live return of one state, and what the other has over its top.
    fn returning(&self, [p, symbol, s, target]: [u8; 4], q: u8, u: u8, forces: Option<u16>) -> String {
        let by = self.asked.names.symbol(symbol);
        let others = self.asked.sources().targets_over(q, symbol, u);
        let [one, other, stack, top] = [p, q, s, u].map(|q| self.name(q));
        let head = format!("{one} takes the return {by} over {stack} to {}", self.name(target));
        let place = match (p == q, s == u) {
            (true, _) => format!("over {top}, which it can be above too, it"),
            (_, true) => format!("{other}, which can be above {top} too,"),
            _ => format!("{other}, which can be above {top},"),
        };
        if others.is_empty() {
            let over = if p == q { String::new() } else { format!(" over {top}") };
            return format!("{head}; {place} has no return {by}{over}.");
        }
        let over = if p == q || s == u { String::new() } else { format!(" over {top}") };
        format!("{head}; {place} takes it{over} to {}: {}", self.list(&others), self.open(target, &others, forces))
    }

    /// What would have to be joined, or would be.
    fn open(&self, target: u8, others: &[u8], forces: Option<u16>) -> String {
        let (target, list) = (self.name(target), self.list(others));
        match (others.len(), forces.filter(|literal| literal % 2 == 0)) {
            (1, None) => format!("{target} and {list} would have to be joined."),
            (1, Some(_)) => format!("so {target} and {list} would be joined too."),
            _ => format!("{target} would have to be joined with one of these."),
        }
    }

    /// Names with "or" between them.
    fn list(&self, states: &[u8]) -> String {
        states.iter().map(|q| self.name(*q)).collect::<Vec<_>>().join(" or ")
    }
}
