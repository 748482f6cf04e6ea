//! The search, (a) to (e), and its trials.

use super::*;
use std::collections::BTreeSet;

/// The clauses that words hold, or nothing where one goes past the end.
pub(super) fn clauses_in(words: &[u16]) -> Option<Vec<Vec<u16>>> {
    let mut list = Vec::new();
    let mut at = 0;
    while at < words.len() {
        let k = words[at] as usize;
        at += 1;
        if words.len() - at < k {
            return None;
        }
        list.push(words[at..at + k].to_vec());
        at += k;
    }
    Some(list)
}

/// How a search ends: solved, with the values and the guesses made; by (a); by (d).
pub enum Outcome {
    Solved(Vec<bool>, u64),
    None,
    Spent(u64),
}

/// What a search has tried at its rests: the satisfying trial with the most pairs, the first among equals, and the ceiling.
pub struct Trials {
    pub held: Vec<bool>,
    pub ceiling: Option<usize>,
}

impl Trials {
    /// A rest: the variables true so far, with all others false, are tried against the list; the first one gives the ceiling.
    fn rest(&mut self, list: &[Vec<u16>], values: &[Option<bool>]) {
        let trial: Vec<bool> = values.iter().map(|v| *v == Some(true)).collect();
        let satisfies = list.iter().all(|c| c.iter().any(|&l| trial[(l / 2) as usize] == (l % 2 == 0)));
        let pairs = |a: &[bool]| a.iter().filter(|&&x| x).count();
        if satisfies && pairs(&trial) > pairs(&self.held) {
            self.held = trial;
        }
        let not_false = values.iter().filter(|v| **v != Some(false)).count();
        self.ceiling.get_or_insert(not_false);
    }
}

/// What a literal is worth: true, false or unset.
pub(super) fn value(values: &[Option<bool>], l: u16) -> Option<bool> {
    values[(l / 2) as usize].map(|x| x == (l % 2 == 0))
}

/// The literal that a clause forces: no literal is true, and this one alone is unset.
pub(super) fn forces(values: &[Option<bool>], clause: &[u16]) -> Option<u16> {
    if clause.iter().any(|&l| value(values, l) == Some(true)) {
        return None;
    }
    let mut open = clause.iter().copied().filter(|&l| value(values, l).is_none());
    let first = open.next();
    if open.next().is_none() { first } else { None }
}

/// (a) and (b), one step after the other; whether (a) did not apply.
pub(super) fn stepped(list: &[Vec<u16>], values: &mut [Option<bool>]) -> bool {
    loop {
        if list.iter().any(|c| c.iter().all(|&l| value(values, l) == Some(false))) {
            return false;
        }
        match list.iter().find_map(|c| forces(values, c)) {
            None => return true,
            Some(l) => values[(l / 2) as usize] = Some(l % 2 == 0),
        }
    }
}

/// The same by scans of the list, until one sets nothing.
pub(super) fn scanned(list: &[Vec<u16>], values: &mut [Option<bool>]) -> bool {
    loop {
        let mut forced = false;
        for c in list {
            if c.iter().all(|&l| value(values, l) == Some(false)) {
                return false;
            }
            if let Some(l) = forces(values, c) {
                values[(l / 2) as usize] = Some(l % 2 == 0);
                forced = true;
            }
        }
        if !forced {
            return true;
        }
    }
}

/// (a) and (b) until neither applies, or (a) does. "The choice among several clauses changes neither answer nor count": so by scans, which short lists are seen to bear out.
pub(super) fn settles(list: &[Vec<u16>], values: &mut [Option<bool>]) -> bool {
    let mut before = values.to_vec();
    let settled = scanned(list, values);
    if list.len() <= 500 {
        assert_eq!(settled, stepped(list, &mut before), "scans and steps end alike");
        assert!(!settled || before == values, "scans and steps set the same");
    }
    settled
}

/// The search, (a) to (e), with a copy of the values at each guess.
pub fn run_search(list: &[Vec<u16>], variables: usize, budget: u64) -> Outcome {
    search_trying(list, variables, budget, None)
}

/// The same, with its trials where they are asked for.
pub fn search_trying(list: &[Vec<u16>], variables: usize, budget: u64, mut trials: Option<&mut Trials>) -> Outcome {
    let mut values: Vec<Option<bool>> = vec![None; variables];
    let mut guesses: Vec<(usize, Vec<Option<bool>>)> = Vec::new();
    let mut made = 0u64;
    loop {
        if !settles(list, &mut values) {
            match guesses.pop() {
                None => return Outcome::None,
                Some((x, before)) => {
                    values = before;
                    values[x] = Some(false);
                }
            }
            continue;
        }
        if let Some(t) = trials.as_mut() {
            t.rest(list, &values);
        }
        match values.iter().position(|v| v.is_none()) {
            None => return Outcome::Solved(values.iter().map(|v| v.unwrap()).collect(), made),
            Some(x) => {
                if made == budget {
                    return Outcome::Spent(made);
                }
                guesses.push((x, values.clone()));
                values[x] = Some(true);
                made += 1;
            }
        }
    }
}

/// The operation search: the guesses made.
pub fn search(l: Limits, list: &[u16], variables: usize, budget: u64, answer: &mut [u8]) -> Result<u64, u8> {
    judged(l)?;
    if variables > l.states * (l.states - 1) / 2 {
        return Err(11);
    }
    let all = clauses_in(list).ok_or(11)?;
    for c in &all {
        let mut seen = BTreeSet::new();
        for literal in c {
            let v = (literal / 2) as usize;
            if v >= variables || !seen.insert(v) {
                return Err(11);
            }
        }
    }
    if answer.len() < variables {
        return Err(14);
    }
    match run_search(&all, variables, budget) {
        Outcome::None => Err(12),
        Outcome::Spent(_) => Err(13),
        Outcome::Solved(values, made) => {
            for (x, v) in values.iter().enumerate() {
                answer[x] = *v as u8;
            }
            Ok(made)
        }
    }
}
