//! Tables with a meaning: document 01's T and its faults, the paper's three observations, the merges that tempt.

use crate::reference::Table;

/// Table T of document 01.
pub fn t() -> Table {
    Table {
        version: 1,
        symbols: vec![0, 1, 2],
        states: vec![1, 0, 0, 2],
        internals: vec![[0, 0, 2], [1, 0, 1], [2, 0, 2]],
        calls: vec![[0, 1, 1]],
        returns: vec![[1, 2, 0, 3]],
    }
}

/// T as document 01 prints it.
pub const T: [u8; 35] = [
    0x00, 0x01, 0x02, 0x01, 0x00, 0x00, 0x02, 0x00, 0x00, 0x02, 0x01, 0x00, 0x01, 0x02, 0x00, 0x02, 0x00, 0x01, 0x01, 0x01, 0x02, 0x00, 0x03, 0x17,
    0x00, 0x14, 0x00, 0x10, 0x00, 0x07, 0x00, 0x04, 0x00, 0x01, 0x00,
];

/// T's quotient under 0 1 1 2 as document 01 prints it.
pub const T_REDUCED: [u8; 31] = [
    0x00, 0x01, 0x02, 0x01, 0x00, 0x02, 0x00, 0x00, 0x01, 0x01, 0x00, 0x01, 0x00, 0x01, 0x01, 0x01, 0x02, 0x00, 0x02, 0x13, 0x00, 0x10, 0x00, 0x0d,
    0x00, 0x07, 0x00, 0x04, 0x00, 0x01, 0x00,
];

/// T with one more call.
pub fn t_with_call(record: [u8; 3]) -> Table {
    let mut table = t();
    table.calls.push(record);
    table.calls.sort();
    table
}

/// T with one more return.
pub fn t_with_return(record: [u8; 4]) -> Table {
    let mut table = t();
    table.returns.push(record);
    table.returns.sort();
    table
}

/// Files that reading refuses, by the numbers 1 to 8 in this order: T with one fault, but for the fourth, a trailer alone.
pub fn faults() -> [Vec<u8>; 8] {
    let b = t().bytes();
    let with = |i: usize, x: u8| {
        let mut d = b.clone();
        d[i] = x;
        d
    };
    [
        b[..11].to_vec(),
        with(33, 3),
        with(23, 22),
        [vec![0u8; 10], vec![1, 0]].concat(),
        with(3, 4),
        with(3, 0),
        with(7, 9),
        [&b[..7], &b[10..13], &b[7..10], &b[13..]].concat(),
    ]
}

/// T with its trailer's byte at a place, from 0 to 11, changed.
fn trailer(place: usize, x: u8) -> Vec<u8> {
    let mut b = t().bytes();
    b[23 + place] = x;
    b
}

/// T with a change.
fn changed(change: impl Fn(&mut Table)) -> Vec<u8> {
    let mut table = t();
    change(&mut table);
    table.bytes()
}

/// More files with reading's refusals, 0 for none: distances and version; counts and bytes; records.
pub fn more_faults() -> Vec<(Vec<u8>, u8)> {
    let mut all = vec![(vec![], 1), ([vec![0; 11], vec![1]].concat(), 2), (trailer(10, 0), 2), (trailer(11, 1), 2)];
    // the first distance low, high, and by its second byte; then each distance above the one before it; then sections that are not whole
    let thirds = [(0, 22), (0, 24), (1, 1), (2, 24), (4, 21), (6, 17), (8, 8), (6, 8), (6, 6), (8, 5), (8, 7), (8, 1), (8, 0), (4, 20)];
    all.extend(thirds.map(|(place, x)| (trailer(place, x), 3)));
    // no calls, so that a call stands among the internals; no symbols, so that they stand among the states
    all.extend([(trailer(6, 4), 7), (trailer(2, 23), 7)]);
    all.extend([33, 32].map(|k| (changed(|x| x.symbols.resize(k, 2)), if k == 33 { 4 } else { 0 })));
    all.extend([25, 24].map(|k| (changed(|x| x.states.resize(k, 3)), if k == 25 { 4 } else { 0 })));
    all.push((changed(|x| x.symbols[2] = 3), 5));
    all.push((changed(|x| x.states[1] = 255), 5));
    all.push((changed(|x| x.states[0] = 2), 6));
    all.extend([[4, 0, 2], [0, 3, 2], [0, 1, 2], [0, 2, 2], [0, 0, 4]].map(|r| (changed(|x| x.internals[0] = r), 7)));
    all.extend([[4, 1, 1], [0, 3, 1], [0, 0, 1], [0, 2, 1], [0, 1, 4]].map(|r| (changed(|x| x.calls[0] = r), 7)));
    all.extend([[4, 2, 0, 3], [1, 3, 0, 3], [1, 0, 0, 3], [1, 1, 0, 3], [1, 2, 4, 3], [1, 2, 0, 4]].map(|r| (changed(|x| x.returns[0] = r), 7)));
    all.push((changed(|x| x.internals[2] = [1, 0, 1]), 8));
    all.extend([[0, 1, 1], [0, 1, 0]].map(|r| (changed(|x| x.calls.push(r)), 8)));
    all.extend([[1, 2, 0, 3], [1, 2, 0, 2], [0, 2, 0, 3]].map(|r| (changed(|x| x.returns.push(r)), 8)));
    all
}

/// The longest table, with the limits' numbers of symbols, states and records.
pub fn longest() -> Table {
    let mut symbols = vec![2; 32];
    symbols[..4].copy_from_slice(&[0, 0, 1, 1]);
    let moves = |first: u8| (0..24 * 2 * 24).map(move |i| [(i / 48) as u8, first + (i / 24 % 2) as u8, (i % 24) as u8]).take(1024).collect();
    let returns = (0..4096).map(|i| [(i / 576) as u8, 4, (i / 24 % 24) as u8, (i % 24) as u8]).collect();
    Table { version: 1, symbols, states: vec![1; 24], internals: moves(0), calls: moves(2), returns }
}

/// A series: countries that hold places, each place named and located once, in either order, and a country closed only when it holds a place.
/// Symbols: 0 name, 1 locate, 2 country, 3 place, 4 close. States 2 to 5 are a country's first place, 6 to 9 a later one.
pub fn atlas() -> Table {
    Table {
        version: 1,
        symbols: vec![0, 0, 1, 1, 2],
        states: vec![3, 0, 0, 0, 0, 0, 0, 0, 0, 0, 0],
        internals: vec![[2, 0, 3], [2, 1, 4], [3, 1, 5], [4, 0, 5], [6, 0, 7], [6, 1, 8], [7, 1, 9], [8, 0, 9]],
        calls: vec![[0, 2, 1], [1, 3, 2], [10, 3, 6]],
        returns: vec![[5, 4, 1, 10], [9, 4, 10, 10], [10, 4, 0, 0]],
    }
}

/// A place is named and located, again and again, until it is closed; what was said last is the state. Version 2: named has mark 1, located mark 2.
/// Symbols: 0 name, 1 locate, 2 place, 3 close.
pub fn named_located() -> Table {
    Table {
        version: 2,
        symbols: vec![0, 0, 1, 2],
        states: vec![3, 0, 2 + 4, 2 + 8],
        internals: vec![[1, 0, 2], [1, 1, 3], [2, 0, 2], [2, 1, 3], [3, 0, 2], [3, 1, 3]],
        calls: vec![[0, 2, 1]],
        returns: vec![[2, 3, 0, 0], [3, 3, 0, 0]],
    }
}

/// The paper's first observation: states 1 and 2 differ on a return that 2 cannot take, since its stack is always empty.
pub fn unreachable_stack() -> Table {
    t_with_return([2, 2, 0, 0])
}

/// The second: 1 and 2 may be joined, and 2 and 3, but not 1 and 3.
pub fn not_transitive() -> Table {
    Table {
        version: 1,
        symbols: vec![0, 1, 2, 1],
        states: vec![1, 0, 0, 0, 2],
        internals: vec![[0, 0, 2], [1, 0, 1], [2, 0, 2], [3, 0, 3]],
        calls: vec![[0, 1, 1], [0, 3, 3]],
        returns: vec![[1, 2, 0, 4]],
    }
}

/// As the second, with 4 a copy of 3: reduce joins 1 with 2 and 3 with 4, two pairs; 2, 3 and 4 would be three, in as many classes.
pub fn fewer_pairs() -> Table {
    Table {
        version: 1,
        symbols: vec![0, 1, 2, 1],
        states: vec![1, 0, 0, 0, 0, 2],
        internals: vec![[0, 0, 2], [1, 0, 1], [2, 0, 2], [3, 0, 3], [4, 0, 4]],
        calls: vec![[0, 1, 1], [0, 3, 3], [0, 3, 4]],
        returns: vec![[1, 2, 0, 5]],
    }
}

/// Only 1 and 2, 1 and 3, and 2 and 4 may be joined: reduce joins 1 with 2, and has one class more than 1 with 3 and 2 with 4.
pub fn more_classes() -> Table {
    Table {
        version: 1,
        symbols: vec![0, 0, 1, 1, 2],
        states: vec![1, 0, 0, 0, 0, 0, 0, 2],
        internals: vec![[0, 0, 5], [5, 1, 6]],
        calls: vec![[0, 2, 1], [0, 3, 4], [5, 2, 2], [5, 3, 3], [6, 2, 3], [6, 3, 4]],
        returns: vec![[1, 4, 0, 7], [2, 4, 5, 7], [3, 4, 6, 7]],
    }
}

/// The third: joining 1 and 2 joins the stack symbols that tell the two returns of 3 apart.
pub fn joined_stack_symbols() -> Table {
    Table {
        version: 1,
        symbols: vec![0, 0, 1, 2, 2],
        states: vec![1, 0, 0, 0, 2],
        internals: vec![[0, 0, 1], [0, 1, 2]],
        calls: vec![[1, 2, 3], [2, 2, 3]],
        returns: vec![[3, 3, 1, 4], [3, 4, 2, 4]],
    }
}

/// States 1 and 2, of which `few` has each move of one kind (0 internal, 1 call, 2 return) that the other has, and the other has one more, to
/// the accepting state 4.
pub fn one_way(kind: usize, few: u8) -> Table {
    let many = 3 - few;
    let mut triples = vec![[few, kind as u8, 3], [many, kind as u8, 3], [many, kind as u8, 4]];
    triples.sort();
    let mut table = Table { version: 1, symbols: vec![0, 1, 2], states: vec![1, 0, 0, 0, 2], internals: vec![], calls: vec![], returns: vec![] };
    match kind {
        0 => table.internals = triples,
        1 => table.calls = triples,
        _ => {
            table.calls = vec![[0, 1, 1], [0, 1, 2]];
            table.returns = triples.iter().map(|r| [r[0], 2, 0, r[2]]).collect();
        }
    }
    table
}

/// Each move has one target. Joining 0 and 1 joins 2 with 3 and 3 with 4, but 2 and 4 differ on a return: that guess is undone.
pub fn one_undone() -> Table {
    Table {
        version: 1,
        symbols: vec![0, 0, 1, 1, 2],
        states: vec![1, 1, 0, 0, 0, 2],
        internals: vec![[0, 0, 2], [0, 1, 3], [1, 0, 3], [1, 1, 4]],
        calls: vec![[0, 2, 2], [0, 3, 4], [1, 2, 2], [1, 3, 4]],
        returns: vec![[2, 4, 0, 5], [2, 4, 1, 5]],
    }
}

/// Joining 0 and 1 joins 2 with 3 or with 4, either joins 5 with 6 and 6 with 7, but 5 and 7 differ on a return: two guesses are undone in a row.
pub fn two_undone() -> Table {
    Table {
        version: 1,
        symbols: vec![0, 0, 0, 1, 1, 2],
        states: vec![1, 1, 0, 0, 0, 0, 0, 0],
        internals: vec![[0, 0, 2], [0, 0, 3], [0, 0, 4], [1, 0, 3], [1, 0, 4], [2, 1, 5], [2, 2, 6], [3, 1, 6], [3, 2, 7], [4, 1, 6], [4, 2, 7]],
        calls: vec![[0, 3, 5], [0, 4, 7], [1, 3, 5], [1, 4, 7]],
        returns: vec![[5, 5, 0, 0], [5, 5, 1, 0]],
    }
}

/// No symbols, and these states.
pub fn silent(states: &[u8]) -> Table {
    Table { version: 1, symbols: vec![], states: states.to_vec(), internals: vec![], calls: vec![], returns: vec![] }
}

/// One pigeon more than holes, where variable 0 is true: the search guesses it, undoes thousands of guesses, and finds it false.
pub fn pigeons(holes: usize) -> (Vec<u16>, usize) {
    let v = |p: usize, h: usize| 1 + p * holes + h;
    let mut words = Vec::new();
    for p in 0..=holes {
        words.extend([holes as u16 + 1, 1]);
        words.extend((0..holes).map(|h| 2 * v(p, h) as u16));
    }
    for h in 0..holes {
        for p in 0..=holes {
            for q in 0..p {
                words.extend([3, 1, 2 * v(q, h) as u16 + 1, 2 * v(p, h) as u16 + 1]);
            }
        }
    }
    (words, 1 + holes * (holes + 1))
}
