//! Pairs of a state of the first table and one of the second, or the sink where the second has no move left.

use crate::model::Table;

/// The moves of the pairs. A pair is a number: the first table's state times the second's states and the sink, plus the second's state.
pub struct Product {
    wide: usize,
    first_states: usize,
    symbols: usize,
    starts: Vec<usize>,
    ends: Vec<bool>,
    internals: Vec<Vec<(u8, u8)>>,
    calls: Vec<Vec<(u8, u8)>>,
    returns: Vec<Vec<(u8, u8)>>,
    next: Vec<u8>,
    next_over: Vec<u8>,
}

impl Product {
    /// The pairs of two tables.
    pub fn new(first: &Table, second: &Table) -> Product {
        let (states, sink, symbols) = (first.states.len(), second.states.len(), first.symbols.len());
        let wide = sink + 1;
        let accepted = |b: usize| second.states.get(b).is_some_and(|state| state.accepting);
        let start = second.states.iter().position(|state| state.initial).unwrap_or(sink);
        let mut product = Product {
            wide,
            first_states: states,
            symbols,
            starts: (0..states).filter(|&a| first.states[a].initial).map(|a| a * wide + start).collect(),
            ends: (0..states * wide).map(|x| first.states[x / wide].accepting && !accepted(x % wide)).collect(),
            internals: vec![Vec::new(); states],
            calls: vec![Vec::new(); states],
            returns: vec![Vec::new(); states * states],
            next: vec![sink as u8; wide * symbols],
            next_over: vec![sink as u8; wide * symbols * wide],
        };
        product.take_first(first);
        product.take_second(second);
        product
    }

    /// The first table's records, by the state that they leave, and of returns also by the stack state.
    fn take_first(&mut self, first: &Table) {
        for &[a, symbol, target] in &first.internals {
            self.internals[usize::from(a)].push((symbol, target));
        }
        for &[a, symbol, target] in &first.calls {
            self.calls[usize::from(a)].push((symbol, target));
        }
        for &[a, symbol, stack, target] in &first.returns {
            self.returns[usize::from(a) * self.first_states + usize::from(stack)].push((symbol, target));
        }
    }

    /// Where the second table goes.
    fn take_second(&mut self, second: &Table) {
        for &[b, symbol, target] in second.internals.iter().chain(&second.calls) {
            self.next[usize::from(b) * self.symbols + usize::from(symbol)] = target;
        }
        for &[b, symbol, stack, target] in &second.returns {
            let place = (usize::from(b) * self.symbols + usize::from(symbol)) * self.wide + usize::from(stack);
            self.next_over[place] = target;
        }
    }

    /// How many pairs there are.
    pub fn size(&self) -> usize {
        self.ends.len()
    }

    /// The pairs that a script starts in.
    pub fn starts(&self) -> &[usize] {
        &self.starts
    }

    /// Whether a script that ends here is the first table's alone.
    pub fn ends(&self, x: usize) -> bool {
        self.ends[x]
    }

    /// A move of the second table and of the first, put together.
    fn moved(&self, b: usize, &(symbol, target): &(u8, u8)) -> (u8, usize) {
        let next = self.next[b * self.symbols + usize::from(symbol)];
        (symbol, usize::from(target) * self.wide + usize::from(next))
    }

    /// The internals of a pair: symbol and where it goes.
    pub fn internals(&self, x: usize) -> impl Iterator<Item = (u8, usize)> {
        self.internals[x / self.wide].iter().map(move |step| self.moved(x % self.wide, step))
    }

    /// The calls of a pair: symbol and where it goes.
    pub fn calls(&self, x: usize) -> impl Iterator<Item = (u8, usize)> {
        self.calls[x / self.wide].iter().map(move |step| self.moved(x % self.wide, step))
    }

    /// The returns of a pair over another: symbol and where it goes.
    pub fn returns(&self, x: usize, stack: usize) -> impl Iterator<Item = (u8, usize)> {
        let records = &self.returns[x / self.wide * self.first_states + stack / self.wide];
        records.iter().map(move |&(symbol, target)| {
            let place = (x % self.wide * self.symbols + usize::from(symbol)) * self.wide + stack % self.wide;
            (symbol, usize::from(target) * self.wide + usize::from(self.next_over[place]))
        })
    }
}
