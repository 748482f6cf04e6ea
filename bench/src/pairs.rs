//! The comparison of two tables, on its own inputs: small ones, and such as make it slow within 24 states and 32 symbols.

use crate::instructions::of_calls;
use crate::report::{heading, heads};
use basilvault_bench::plain;
use basilvault_tests::flat;
use basilvault_tests::random::{self, Random};
use basilvault_tests::reference::Table;
use std::hint::black_box;
use std::path::Path;
use std::time::Instant;

/// Two tables and what they are.
struct Pair {
    label: String,
    first: Vec<u8>,
    second: Vec<u8>,
}

/// The symbols of the slow inputs: 8 internals, 8 calls, 16 returns.
fn symbols() -> Vec<u8> {
    (0..32).map(|a| [0, 1, 2, 2][a / 8]).collect()
}

/// The records in file order, each once, no more than a file permits.
fn sorted(mut t: Table) -> Table {
    t.internals.sort();
    t.internals.dedup();
    t.internals.truncate(1024);
    t.calls.sort();
    t.calls.dedup();
    t.calls.truncate(1024);
    t.returns.sort();
    t.returns.dedup();
    t.returns.truncate(4096);
    t
}

/// No records: state 0 is initial, and the last accepting or none.
fn bare(accepting: bool) -> Table {
    let mut states = vec![0; 24];
    states[0] = 1;
    states[23] = 2 * accepting as u8;
    Table { version: 1, symbols: symbols(), states, internals: vec![], calls: vec![], returns: vec![] }
}

/// Random records between the states from a first one on, by symbols from a first one of each kind on.
fn dense(r: &mut Random, t: &mut Table, from: usize, least: usize) {
    let n = 24 - from;
    let state = |r: &mut Random| (from + r.below(n)) as u8;
    for _ in 0..1000 {
        let a = least + r.below(8 - least);
        let [p, q] = [state(r), state(r)];
        t.internals.push([p, a as u8, q]);
        let [p, q] = [state(r), state(r)];
        t.calls.push([p, 8 + a as u8, q]);
        for _ in 0..4 {
            let a = 16 + 2 * least + r.below(16 - 2 * least);
            let [p, s, q] = [state(r), state(r), state(r)];
            t.returns.push([p, a as u8, s, q]);
        }
    }
}

/// A second table without a choice: the first internal goes round 23 states against their order, half of the returns are there.
fn second(r: &mut Random) -> Table {
    let mut t = bare(true);
    for q in 0..24u8 {
        t.internals.push([q, 0, (q + 22) % 23]);
        t.internals.extend((1..8).map(|a| [q, a, r.below(24) as u8]));
        t.calls.extend((8..16).map(|a| [q, a, r.below(24) as u8]));
        for (a, s) in (16..32).flat_map(|a| (0..24).map(move |s| (a, s))) {
            if r.chance(40) {
                t.returns.push([q, a, s, r.below(24) as u8]);
            }
        }
    }
    sorted(t)
}

/// States that go round against their order, one step a pass, beside a dense part into which each of them calls.
fn chained(r: &mut Random, chain: usize) -> Table {
    let mut t = bare(false);
    for p in 0..chain {
        t.internals.push([p as u8, 0, ((p + chain - 1) % chain) as u8]);
        t.calls.push([p as u8, 8, (chain + p % (24 - chain)) as u8]);
    }
    dense(r, &mut t, chain, 1);
    sorted(t)
}

/// A top goes down a chain before the next one is pushed, beside a dense part.
fn one_by_one(r: &mut Random, chain: usize, callers: usize) -> Table {
    let mut t = bare(false);
    t.states[0] = 0;
    t.states[chain] = 1;
    for p in 0..chain {
        t.internals.push([p as u8, 0, ((p + chain - 1) % chain) as u8]);
    }
    for q in 0..callers {
        t.calls.push([(chain + q) as u8, 8, chain as u8 - 1]);
        t.returns.push([0, 16, (chain + q) as u8, (chain + (q + callers - 1) % callers) as u8]);
    }
    t.calls.push([0, 9, (chain + callers) as u8]);
    dense(r, &mut t, chain + callers, 1);
    sorted(t)
}

/// The inputs.
fn pairs() -> Vec<Pair> {
    let mut r = Random::new(11);
    let mut all = Vec::new();
    let mut add = |label: &str, first: &Table, second: &Table| {
        all.push(Pair { label: label.to_string(), first: first.bytes(), second: second.bytes() });
    };
    for n in [4, 8, 16, 24] {
        let t = random::table(&mut r, n, true);
        let mut one = t.clone();
        let start = one.states.iter().position(|x| x % 2 == 1).unwrap();
        one.states.iter_mut().enumerate().for_each(|(q, x)| *x = *x & !1 | (q == start) as u8);
        add(&format!("random, {n} states"), &t, &one);
    }
    let mut all_dense = bare(true);
    dense(&mut r, &mut all_dense, 0, 0);
    add("dense", &sorted(all_dense), &second(&mut r));
    for chain in [4, 8, 12, 16] {
        let (first, second) = (chained(&mut r, chain), second(&mut r));
        add(&format!("chain of {chain}"), &first, &second);
    }
    for (chain, callers) in [(8, 8), (10, 10), (6, 6)] {
        let (first, second) = (one_by_one(&mut r, chain, callers), second(&mut r));
        add(&format!("one by one, {chain} and {callers}"), &first, &second);
    }
    all
}

/// The call that callgrind counts.
#[inline(never)]
fn counted(side: &str, pair: &Pair) -> Result<[u64; 1], u8> {
    match side {
        "library" => flat(basilvault::fit(black_box(&pair.first), black_box(&pair.second))),
        _ => plain::fit(black_box(&pair.first), black_box(&pair.second)),
    }
}

/// Every input once, by the library or in plain Rust.
pub fn one(side: &str) {
    for pair in pairs() {
        black_box(counted(side, &pair)).ok();
    }
}

/// Milliseconds of a call: the least of some.
fn milliseconds(side: &str, pair: &Pair) -> f64 {
    let once = || {
        let start = Instant::now();
        black_box(counted(side, pair)).ok();
        start.elapsed().as_secs_f64() * 1e3
    };
    (0..7).map(|_| once()).fold(f64::MAX, f64::min)
}

/// A line for each input: the answer, which both give, times and instructions.
pub fn print(folder: &str) {
    std::fs::create_dir_all(folder).expect("a folder for callgrind's files");
    let pairs = pairs();
    let [ours, theirs] = ["library", "plain"].map(|side| of_calls("*pairs::counted", &["fit-one", side], pairs.len(), &Path::new(folder).join(format!("fit.{side}"))));
    heading("fit");
    heads("tables; answer; library ms; plain ms; library Ir; plain Ir; ratio of Ir");
    for (pair, (library, plain)) in pairs.iter().zip(ours.into_iter().zip(theirs)) {
        let answers = ["library", "plain"].map(|side| counted(side, pair));
        assert_eq!(answers[0], answers[1], "{}", pair.label);
        let answer = match answers[0] {
            Ok([1]) => "yes".to_string(),
            Ok(_) => "no".to_string(),
            Err(k) => k.to_string(),
        };
        let [a, b] = ["library", "plain"].map(|side| milliseconds(side, pair));
        println!("| {} | {answer} | {a:.1} | {b:.1} | {library:.0} | {plain:.0} | {:.2} |", pair.label, library / plain);
    }
}
