//! What a table is worth: states that no run reaches, states from which nothing is accepted, and whether anything is accepted at all. Which tops a state has
//! the library says; the rest is a plain search. Nothing is removed from a table for it.

use crate::model::Table;
use crate::names::Names;
use basilvault::{BOTTOM, Tops};

/// The states of a table that serve no accepted script.
pub struct Facts {
    /// Those that no run reaches.
    pub unreached: Vec<u8>,
    /// Those that runs reach, and from which nothing is accepted.
    pub stuck: Vec<u8>,
    /// Whether some script is accepted.
    pub accepts: bool,
}

/// Sets of states, a word each: by a state and a top of it, or by two states.
type Words = Vec<u64>;

impl Facts {
    /// Those of a table with these tops.
    pub fn of(table: &Table, tops: &Tops) -> Facts {
        let states = 0..table.states.len() as u8;
        let good = good(table, tops);
        let reached = |q: &u8| tops.words[usize::from(*q)] != 0;
        let initial = |q: u8| table.states[usize::from(q)].initial;
        Facts {
            unreached: states.clone().filter(|q| !reached(q)).collect(),
            stuck: states.clone().filter(|q| reached(q) && good[usize::from(*q)] == 0).collect(),
            accepts: states.clone().any(|q| initial(q) && good[usize::from(q)] >> BOTTOM & 1 == 1),
        }
    }

    /// Sentences, by the states' names; none where every state serves.
    pub fn told(&self, names: &Names) -> Vec<String> {
        let list = |states: &[u8]| states.iter().map(|q| names.state(*q)).collect::<Vec<_>>().join(", ");
        let mut told = Vec::new();
        if !self.accepts {
            told.push("it accepts no script at all".into());
        }
        if !self.unreached.is_empty() {
            told.push(format!("no run reaches {}", list(&self.unreached)));
        }
        if self.accepts && !self.stuck.is_empty() {
            told.push(format!("nothing is accepted from {}", list(&self.stuck)));
        }
        told
    }
}

/// Where a call from a state with all up to its return can lead, as a set of states by the state.
fn around(table: &Table) -> Words {
    let states = table.states.len();
    // what a balanced script leads to, from each state
    let mut led: Words = (0..states).map(|q| 1 << q).collect();
    let mut around: Words = vec![0; states];
    loop {
        let before = (led.clone(), around.clone());
        for &[p, _, target] in &table.internals {
            led[usize::from(p)] |= led[usize::from(target)];
        }
        for q in 0..states {
            for next in (0..states).filter(|next| around[q] >> next & 1 == 1) {
                led[q] |= led[next];
            }
        }
        for &[p, _, inside] in &table.calls {
            for &[last, _, stack, target] in &table.returns {
                if stack == p && led[usize::from(inside)] >> last & 1 == 1 {
                    around[usize::from(p)] |= 1 << target;
                }
            }
        }
        if before == (led.clone(), around.clone()) {
            return around;
        }
    }
}

/// For each state the tops of it with which some run goes on to acceptance on the empty stack.
fn good(table: &Table, tops: &Tops) -> Words {
    let around = around(table);
    let word = |q: u8| tops.words[usize::from(q)];
    let accepting = |q: usize| u64::from(table.states[q].accepting) << BOTTOM;
    let mut good: Words = (0..table.states.len()).map(|q| accepting(q) & tops.words[q]).collect();
    loop {
        let before = good.clone();
        for &[p, _, target] in &table.internals {
            good[usize::from(p)] |= good[usize::from(target)] & word(p);
        }
        for p in 0..good.len() {
            for target in (0..good.len()).filter(|target| around[p] >> target & 1 == 1) {
                good[p] |= good[target] & tops.words[p];
            }
        }
        for &[p, _, stack, target] in &table.returns {
            if word(p) >> stack & 1 == 1 && good[usize::from(target)] & word(stack) != 0 {
                good[usize::from(p)] |= 1 << stack;
            }
        }
        if good == before {
            return good;
        }
    }
}

#[cfg(test)]
mod tests {
    use super::*;
    use crate::samples::example;
    use basilvault::Limits;

    /// The facts of an example: states by their numbers.
    fn facts(name: &str) -> (Vec<u8>, Vec<u8>, bool) {
        let bytes = example(name);
        let table = Table::from_bytes(Limits::LARGEST, &bytes).expect("a readable table");
        let tops = basilvault::tops_within(Limits::LARGEST, &bytes).expect("a readable table");
        let Facts { unreached, stuck, accepts } = Facts::of(&table, &tops);
        (unreached, stuck, accepts)
    }

    #[test]
    fn of_table_t() {
        assert_eq!(facts("t"), (vec![], vec![2], true));
    }

    /// A state and a stack, its top last.
    type Configuration = (u8, Vec<u8>);

    /// Where a configuration goes in one step, with at most so many calls open.
    fn next(table: &Table, (q, stack): &Configuration, high: usize) -> Vec<Configuration> {
        let internals = table.internals.iter().filter(|r| r[0] == *q).map(|r| (r[2], stack.clone()));
        let calls = table.calls.iter().filter(|r| r[0] == *q && stack.len() < high).map(|r| (r[2], [&stack[..], &[*q]].concat()));
        let returns = table.returns.iter().filter(|r| r[0] == *q && stack.last() == Some(&r[2])).map(|r| (r[3], stack[..stack.len() - 1].to_vec()));
        internals.chain(calls).chain(returns).collect()
    }

    /// The states of a small table on an accepted run, by all configurations with few calls open.
    fn served(table: &Table, high: usize) -> std::collections::BTreeSet<u8> {
        let states = 0..table.states.len() as u8;
        let mut reached: Vec<Configuration> = states.filter(|q| table.states[usize::from(*q)].initial).map(|q| (q, Vec::new())).collect();
        let mut at = 0;
        while at < reached.len() {
            let more = next(table, &reached[at], high);
            at += 1;
            more.into_iter().for_each(|c| if !reached.contains(&c) { reached.push(c) });
        }
        let mut good: Vec<bool> = reached.iter().map(|(q, stack)| stack.is_empty() && table.states[usize::from(*q)].accepting).collect();
        loop {
            let before = good.clone();
            for (i, c) in reached.iter().enumerate() {
                good[i] |= next(table, c, high).iter().any(|d| reached.iter().position(|e| e == d).is_some_and(|j| before[j]));
            }
            if good == before {
                return reached.iter().zip(good).filter(|(_, good)| *good).map(|((q, _), _)| *q).collect();
            }
        }
    }

    #[test]
    fn of_random_tables() {
        for seed in 0..400 {
            let mut bytes = vec![0; 4000];
            let load = basilvault::Load { seed, states: 3, internals: 1, calls: 1, returns: 1, density: 4000 + 20 * seed };
            let length = basilvault::generate(load, &mut bytes).expect("few records");
            let table = Table::from_bytes(Limits::LARGEST, &bytes[..length]).expect("a readable table");
            let tops = basilvault::tops_within(Limits::LARGEST, &bytes[..length]).expect("a readable table");
            let Facts { unreached, stuck, accepts } = Facts::of(&table, &tops);
            let served = served(&table, 3);
            let without: Vec<u8> = (0..3).filter(|q| !served.contains(q)).collect();
            let mut told = [unreached, stuck].concat();
            told.sort_unstable();
            assert_eq!((told, accepts), (without, !served.is_empty()), "seed {seed}");
        }
    }
}
