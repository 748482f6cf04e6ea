//! Pseudo-random tables, clause lists and maps.

use crate::reference::{Limits, Load, Table};
use std::collections::BTreeSet;

/// xorshift64*.
pub struct Random(u64);

impl Random {
    /// The stream of a seed.
    pub fn new(seed: u64) -> Self {
        Random(seed.wrapping_mul(0x9e37_79b9_7f4a_7c15) | 1)
    }

    /// The next number.
    pub fn next(&mut self) -> u64 {
        self.0 ^= self.0 >> 12;
        self.0 ^= self.0 << 25;
        self.0 ^= self.0 >> 27;
        self.0.wrapping_mul(0x2545_f491_4f6c_dd1d)
    }

    /// A number below n, which is not 0.
    pub fn below(&mut self, n: usize) -> usize {
        ((self.next() >> 33) % n as u64) as usize
    }

    /// True in so many of a hundred cases.
    pub fn chance(&mut self, percent: usize) -> bool {
        self.below(100) < percent
    }
}

/// Up to 5 symbols of any kind, now and then up to 32.
fn symbols(r: &mut Random) -> Vec<u8> {
    let most = if r.chance(5) { 32 } else { 5 };
    let k = r.below(most + 1);
    (0..k).map(|_| r.below(3) as u8).collect()
}

/// A valid table of n states. With `one`, each move has at most one target.
pub fn table(r: &mut Random, n: usize, one: bool) -> Table {
    let symbols = symbols(r);
    let mut states: Vec<u8> = (0..n).map(|_| if r.chance(30) { 2 } else { 0 }).collect();
    for _ in 0..1 + r.below(2) {
        let q = r.below(n);
        states[q] |= 1;
    }
    let density = 1 + r.below(if one { 60 } else { 30 });
    let mut t = Table { version: 1, symbols, states, internals: vec![], calls: vec![], returns: vec![] };
    let kinds = t.symbols.clone();
    for q in 0..n as u8 {
        for (a, &kind) in kinds.iter().enumerate() {
            let stack: Vec<Option<u8>> = if kind == 2 { (0..n as u8).map(Some).collect() } else { vec![None] };
            for s in stack {
                let targets: BTreeSet<u8> = if one {
                    if r.chance(density) { BTreeSet::from([r.below(n) as u8]) } else { BTreeSet::new() }
                } else {
                    (0..n as u8).filter(|_| r.chance(density)).collect()
                };
                for e in targets {
                    match (kind, s) {
                        (0, _) if t.internals.len() < 1024 => t.internals.push([q, a as u8, e]),
                        (1, _) if t.calls.len() < 1024 => t.calls.push([q, a as u8, e]),
                        (2, Some(s)) if t.returns.len() < 4096 => t.returns.push([q, a as u8, s, e]),
                        _ => {}
                    }
                }
            }
        }
    }
    t
}

/// A table whose states are copies of a smaller one's, so that merging succeeds.
pub fn blown_up(r: &mut Random, n: usize, one: bool) -> Table {
    let small = table(r, 1 + n / 3, one);
    let m = small.count();
    let of: Vec<u8> = (0..n).map(|q| if q < m { q as u8 } else { r.below(m) as u8 }).collect();
    let copies = |p: u8| -> Vec<u8> { (0..n as u8).filter(|&q| of[q as usize] == p).collect() };
    let states = (0..n).map(|q| small.states[of[q] as usize]).collect();
    let mut t = Table { version: 1, symbols: small.symbols.clone(), states, internals: vec![], calls: vec![], returns: vec![] };
    let (mut internals, mut calls, mut returns) = (BTreeSet::new(), BTreeSet::new(), BTreeSet::new());
    for x in &small.internals {
        for p in copies(x[0]) {
            let e = copies(x[2]);
            internals.insert([p, x[1], e[r.below(e.len())]]);
        }
    }
    for x in &small.calls {
        for p in copies(x[0]) {
            let e = copies(x[2]);
            calls.insert([p, x[1], e[r.below(e.len())]]);
        }
    }
    for x in &small.returns {
        for p in copies(x[0]) {
            for s in copies(x[2]) {
                let e = copies(x[3]);
                returns.insert([p, x[1], s, e[r.below(e.len())]]);
            }
        }
    }
    t.internals = internals.into_iter().take(1024).collect();
    t.calls = calls.into_iter().take(1024).collect();
    t.returns = returns.into_iter().take(4096).collect();
    t
}

/// A table with `more` states behind its own that no run reaches: each has the moves of an earlier state, now and then to another target.
pub fn with_unreachable(r: &mut Random, t: &Table, more: usize) -> Table {
    let mut t = t.clone();
    for _ in 0..more {
        let n = t.count();
        let (p, q) = (r.below(n) as u8, n as u8);
        t.states.push(t.states[p as usize] & 2);
        let mut other = |e: u8| if r.chance(10) { r.below(n) as u8 } else { e };
        let internals: Vec<[u8; 3]> = t.internals.iter().filter(|x| x[0] == p).map(|x| [q, x[1], other(x[2])]).collect();
        let calls: Vec<[u8; 3]> = t.calls.iter().filter(|x| x[0] == p).map(|x| [q, x[1], other(x[2])]).collect();
        let returns: Vec<[u8; 4]> = t.returns.iter().filter(|x| x[0] == p).map(|x| [q, x[1], x[2], other(x[3])]).collect();
        t.internals.extend(internals.into_iter().collect::<BTreeSet<_>>());
        t.calls.extend(calls.into_iter().collect::<BTreeSet<_>>());
        t.returns.extend(returns.into_iter().collect::<BTreeSet<_>>());
    }
    t
}

/// The table in version 2, with marks: none, some that follow the states' own bytes, so that merging succeeds, or any.
pub fn marked(r: &mut Random, t: &Table) -> Table {
    let mut t = Table { version: 2, ..t.clone() };
    let kind = r.below(3);
    let by_byte: Vec<u8> = (0..4).map(|_| r.below(16) as u8).collect();
    for x in &mut t.states {
        *x += 4 * match kind {
            0 => 0,
            1 => by_byte[(*x & 2) as usize],
            _ => [0, 1, 15, r.below(16) as u8][r.below(4)],
        };
    }
    t
}

/// Any of the above.
pub fn any_table(r: &mut Random, most: usize) -> Table {
    let n = 1 + r.below(most);
    match r.below(4) {
        0 => table(r, n, false),
        1 => table(r, n, true),
        2 => blown_up(r, n, true),
        _ => blown_up(r, n, false),
    }
}

/// Bytes that are near a table's: some changed, some lost, some more.
pub fn damaged(r: &mut Random, bytes: &[u8]) -> Vec<u8> {
    let mut b = bytes.to_vec();
    match r.below(7) {
        0 => b.truncate(r.below(b.len() + 1)),
        1 => {
            let k = r.below(20);
            (0..k).for_each(|_| b.push(r.below(256) as u8));
        }
        2 => {
            let i = r.below(b.len());
            b.remove(i);
        }
        3 => {
            let t = b.len() - 12;
            let i = t + r.below(12);
            b[i] = b[i].wrapping_add(1 + r.below(4) as u8);
        }
        4 if b.len() > 16 => {
            let i = r.below(b.len() - 14);
            b.swap(i, i + 1);
        }
        _ => {
            for _ in 0..1 + r.below(3) {
                let i = r.below(b.len());
                b[i] = if r.chance(50) { r.below(6) as u8 } else { r.below(256) as u8 };
            }
        }
    }
    b
}

/// Clause words: mostly well formed.
pub fn clause_words(r: &mut Random, variables: usize) -> Vec<u16> {
    let mut words = Vec::new();
    for _ in 0..r.below(30) {
        let k = if r.chance(3) { 0 } else { 1 + r.below(4) };
        let mut clause: Vec<u16> = Vec::new();
        for _ in 0..k {
            let past = if r.chance(1) { 2 } else { 0 };
            let v = r.below(variables + past + (variables == 0) as usize);
            if r.chance(98) && clause.iter().any(|l| (l / 2) as usize == v) {
                continue;
            }
            clause.push((2 * v + r.below(2)) as u16);
        }
        words.push(clause.len() as u16);
        words.extend(clause);
    }
    if r.chance(3) {
        words.push(1 + r.below(5) as u16);
    }
    words
}

/// A list of over 32,768 words, of which nothing follows until a guess is made: clauses of two to six literals. Some lists have an assignment that was hidden in them.
pub fn long_list(r: &mut Random, variables: usize) -> Vec<u16> {
    let hidden: Option<Vec<usize>> = r.chance(70).then(|| (0..variables).map(|_| r.below(2)).collect());
    let (most, words_most) = (3 + r.below(4), 32_769 + r.below(20_000));
    let mut words = Vec::new();
    while words.len() < words_most {
        let first = r.below(variables);
        let mut clause: Vec<usize> = vec![2 * first + r.below(2)];
        for _ in 1..2 + r.below(most - 1) {
            let v = if r.chance(50) { r.below(variables) } else { (first + r.below(40)) % variables };
            if clause.iter().all(|l| l / 2 != v) {
                clause.push(2 * v + r.below(2));
            }
        }
        if clause.len() < 2 {
            continue;
        }
        if let Some(values) = &hidden
            && clause.iter().all(|l| values[l / 2] != 1 - l % 2)
        {
            let i = r.below(clause.len());
            clause[i] ^= 1;
        }
        words.push(clause.len() as u16);
        words.extend(clause.iter().map(|&l| l as u16));
    }
    words
}

/// A map for n states: mostly properly numbered and of the right length.
pub fn map(r: &mut Random, n: usize) -> Vec<u8> {
    let mut m = Vec::new();
    let mut next = 0;
    let k = if r.chance(5) { r.below(n + 3) } else { n };
    for _ in 0..k {
        let c = if r.chance(97) { r.below(next + 1) } else { r.below(next + 3) };
        next = next.max(c + 1);
        m.push(c as u8);
    }
    m
}

/// Lines of a state and a use count: mostly of the table's states, with a whole number of lines.
pub fn lines(r: &mut Random, n: usize) -> Vec<u8> {
    let mut lines = Vec::new();
    for _ in 0..r.below(20) {
        lines.push(if r.chance(99) { r.below(n) } else { n + r.below(3) } as u8);
        let most = [10, 1 << 16, 1 << 32][r.below(3)];
        lines.extend((r.below(most) as u32).to_le_bytes());
    }
    if r.chance(5) {
        lines.resize(lines.len() + 1 + r.below(4), 0);
    }
    lines
}

/// Two tables with mostly the same symbols: the second another one, or the first with records more or less; mostly without a choice.
pub fn two_tables(r: &mut Random, most: usize) -> (Table, Table) {
    let first = any_table(r, most);
    let mut second = match r.below(3) {
        0 => any_table(r, most),
        _ => first.clone(),
    };
    if r.chance(95) {
        let symbols = first.symbols.clone();
        let kind = |a: u8, k: u8| symbols.get(a as usize) == Some(&k);
        second.internals.retain(|x| kind(x[1], 0));
        second.calls.retain(|x| kind(x[1], 1));
        second.returns.retain(|x| kind(x[1], 2));
        second.symbols = symbols;
    }
    if r.chance(95) {
        let first = second.states.iter().position(|x| x % 2 == 1).unwrap();
        second.states.iter_mut().enumerate().for_each(|(q, x)| *x = *x & !1 | (q == first) as u8);
        second.internals.dedup_by_key(|x| [x[0], x[1]]);
        second.calls.dedup_by_key(|x| [x[0], x[1]]);
        second.returns.dedup_by_key(|x| [x[0], x[1], x[2]]);
    }
    for _ in 0..r.below(3) {
        match r.below(4) {
            0 if !second.internals.is_empty() => drop(second.internals.remove(r.below(second.internals.len()))),
            1 if !second.calls.is_empty() => drop(second.calls.remove(r.below(second.calls.len()))),
            2 if !second.returns.is_empty() => drop(second.returns.remove(r.below(second.returns.len()))),
            _ => {
                let q = r.below(second.count());
                second.states[q] ^= 2;
            }
        }
    }
    (first, second)
}

/// A script: any symbols, a walk of the table, or many calls and returns around the most that may be open; now and then a symbol past the count.
pub fn script(r: &mut Random, t: &Table) -> Vec<u8> {
    let k = t.symbols.len();
    if k == 0 {
        return vec![0; r.below(3)];
    }
    let of_kind = |kind: u8| (0..k as u8).filter(|&a| t.symbols[a as usize] == kind).collect::<Vec<u8>>();
    let (calls, returns) = (of_kind(1), of_kind(2));
    let mut script: Vec<u8> = match r.below(3) {
        0 => (0..r.below(10)).map(|_| r.below(k) as u8).collect(),
        1 if !calls.is_empty() && !returns.is_empty() => {
            let deep = [3, 62, 63, 64, 65, 66][r.below(6)];
            let mut script: Vec<u8> = (0..deep).map(|_| calls[r.below(calls.len())]).collect();
            let back = if r.chance(60) { deep } else { r.below(deep + 2) };
            script.extend((0..back).map(|_| returns[r.below(returns.len())]));
            if r.chance(40) {
                script.extend((0..r.below(4)).map(|_| r.below(k) as u8));
            }
            script
        }
        _ => walk(r, t),
    };
    if r.chance(3) {
        let i = r.below(script.len() + 1);
        script.insert(i, (k + r.below(3)) as u8);
    }
    script
}

/// The symbols of a run, as long as there is a move; it goes for the empty stack in the end.
fn walk(r: &mut Random, t: &Table) -> Vec<u8> {
    let starts: Vec<u8> = (0..t.count() as u8).filter(|&q| t.initial(q as usize)).collect();
    let mut q = starts[r.below(starts.len())];
    let (mut stack, mut script) = (Vec::new(), Vec::new());
    let long = r.below(60);
    for i in 0..long {
        let mut moves: Vec<(u8, u8, u8)> = Vec::new();
        let popped = stack.last().copied();
        moves.extend(t.returns.iter().filter(|x| x[0] == q && Some(x[2]) == popped).map(|x| (2, x[1], x[3])));
        if 2 * i < long || moves.is_empty() {
            moves.extend(t.internals.iter().filter(|x| x[0] == q).map(|x| (0, x[1], x[2])));
            moves.extend(t.calls.iter().filter(|x| x[0] == q).map(|x| (1, x[1], x[2])));
        }
        if moves.is_empty() || (stack.is_empty() && t.accepting(q as usize) && r.chance(30)) {
            break;
        }
        let (kind, a, e) = moves[r.below(moves.len())];
        match kind {
            1 => stack.push(q),
            2 => drop(stack.pop()),
            _ => {}
        }
        script.push(a);
        q = e;
    }
    script
}

/// What a random table is asked to be: mostly within the limits, now and then past one, or with more records than a file permits.
pub fn load(r: &mut Random, l: Limits) -> Load {
    let few = if r.chance(80) { 6 } else { 40 };
    let states = if r.chance(3) { [0, l.states + 1, usize::MAX][r.below(3)] } else { 1 + r.below(l.states.clamp(1, few)) };
    let mut counts = [0; 3].map(|_| r.below(l.symbols / 3 + 1).min(4));
    if r.chance(4) {
        counts[r.below(3)] = [l.symbols + 1, usize::MAX, usize::MAX - 1][r.below(3)];
    }
    let density = match r.below(20) {
        0 => [0, 65_536, 65_537, u32::MAX][r.below(4)],
        1..=4 => r.below(65_536) as u32,
        _ => r.below(15_000) as u32,
    };
    Load { seed: r.next() as u32, states, internals: counts[0], calls: counts[1], returns: counts[2], density }
}

/// Up to eight tables back to back with their lengths, some damaged; now and then lengths that do not add up.
pub fn season(r: &mut Random, most: usize) -> (Vec<u8>, Vec<u64>) {
    let (mut tables, mut lengths) = (Vec::new(), Vec::new());
    let most_tables = if r.chance(95) { 8 } else { 9 };
    for _ in 0..1 + r.below(most_tables) {
        let valid = any_table(r, most).bytes();
        let b = if r.chance(20) { damaged(r, &valid) } else { valid };
        lengths.push(b.len() as u64);
        tables.extend(b);
    }
    if r.chance(5) {
        let i = r.below(lengths.len());
        lengths[i] = [lengths[i] + 1, lengths[i].wrapping_sub(1), u64::MAX, u64::MAX / 2][r.below(4)];
    }
    (tables, lengths)
}
