//! Random automata after Tabakov and Vardi, as the source's Appendix D makes them: densities are numbers a state.

use basilvault_cli::facts::Facts;
use basilvault_cli::model::{Kind, State, Table};
use basilvault_tests::random::Random;
use basilvault_tests::reference::LARGEST;

/// The parameters: how many states, how many symbols of each kind, and densities in a hundred.
#[derive(Clone, Copy)]
pub struct Model {
    pub states: usize,
    pub symbols: usize,
    pub accepting: usize,
    pub transitions: usize,
    pub stacks: usize,
}

/// So many different numbers below another.
fn some(r: &mut Random, count: usize, below: usize) -> Vec<usize> {
    let mut all: Vec<usize> = (0..below).collect();
    (0..count.min(below)).map(|_| all.swap_remove(r.below(all.len()))).collect()
}

impl Model {
    /// How many a density comes to.
    fn of(&self, density: usize) -> usize {
        (density * self.states + 50) / 100
    }

    /// A table: for each symbol so many different pairs of a state and a target, and a return over so many different stack states each. State 0 is initial.
    pub fn table(&self, r: &mut Random) -> Table {
        let n = self.states;
        let kinds = [Kind::Internal, Kind::Call, Kind::Return];
        let mut table = Table { version: 1, states: vec![State::default(); n], ..Table::default() };
        some(r, self.of(self.accepting), n).into_iter().for_each(|q| table.states[q].accepting = true);
        table.states[0].initial = true;
        for kind in kinds.iter().flat_map(|kind| std::iter::repeat_n(*kind, self.symbols)) {
            let symbol = table.symbols.len() as u8;
            table.symbols.push(kind);
            for pair in some(r, self.of(self.transitions), n * n) {
                let [from, to] = [pair / n, pair % n].map(|q| q as u8);
                match kind {
                    Kind::Internal => table.internals.push([from, symbol, to]),
                    Kind::Call => table.calls.push([from, symbol, to]),
                    Kind::Return => table.returns.extend(some(r, self.of(self.stacks), n).into_iter().map(|stack| [from, symbol, stack as u8, to])),
                }
            }
        }
        table.internals.sort_unstable();
        table.calls.sort_unstable();
        table.returns.sort_unstable();
        table
    }
}

/// A table without the states that no accepted script uses; nothing where none is left, or no initial one.
pub fn trimmed(table: &Table) -> Option<Table> {
    let tops = basilvault::tops_within(LARGEST, &table.to_bytes()).expect("a readable table");
    let Facts { unreached, stuck, .. } = Facts::of(table, &tops);
    let left: Vec<u8> = (0..table.states.len() as u8).filter(|q| !unreached.contains(q) && !stuck.contains(q)).collect();
    let place = |q: u8| left.iter().position(|other| *other == q).map(|place| place as u8);
    let states: Vec<State> = left.iter().map(|q| table.states[usize::from(*q)]).collect();
    let moved = |&[p, a, t]: &[u8; 3]| Some([place(p)?, a, place(t)?]);
    let trimmed = Table {
        internals: table.internals.iter().filter_map(moved).collect(),
        calls: table.calls.iter().filter_map(moved).collect(),
        returns: table.returns.iter().filter_map(|&[p, a, s, t]| Some([place(p)?, a, place(s)?, place(t)?])).collect(),
        states,
        ..table.clone()
    };
    trimmed.states.iter().any(|state| state.initial).then_some(trimmed)
}
