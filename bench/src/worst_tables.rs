//! Inputs made to take long, in seconds, and by what law each grows: for the check, the clauses, the reduction and the public search.

use crate::inputs::{BUDGET, WORDS};
use crate::report::{heading, heads};
use crate::rest::left_at_rest;
use crate::times::on_processor;
use crate::worst::steady;
use basilvault::{Reduced, Refusal};
use basilvault_tests::random::Random;
use basilvault_tests::reference::{LARGEST, Table, parse};
use std::collections::BTreeSet;
use std::hint::black_box;
use std::time::Instant;

/// Room for the longest list.
const ROOM: usize = 40_000_000;

/// What an operation writes to.
struct Room {
    list: Vec<u16>,
    map: Vec<u8>,
    out: Vec<u8>,
}

/// One call of an operation on an input: what the input is, the number that the law says it grows with, and the call, which answers its guesses.
struct Case {
    input: String,
    size: f64,
    call: Box<dyn Fn(&mut Room) -> u64>,
}

/// How many records a table has.
fn records(t: &Table) -> usize {
    t.internals.len() + t.calls.len() + t.returns.len()
}

/// A table whose states are all one class: calls into the first five eighths of them, an internal into the others, and every return to the first.
fn one_class(n: u8) -> Table {
    let parted = 5 * n / 8;
    let moves = |symbol: u8, from: u8, to: u8| (0..n).flat_map(move |q| (from..to).map(move |e| [q, symbol, e])).collect();
    let returns = (0..n).flat_map(|q| (1..3).flat_map(move |a| (0..n).map(move |s| [q, a, s, 0]))).collect();
    Table { version: 1, symbols: vec![1, 2, 2, 0], states: vec![1; n as usize], internals: moves(3, parted, n), calls: moves(0, 0, parted), returns }
}

/// A table of 40 states with 1,000 calls and so many returns by one symbol: its clause list is the longest that was found. The returns are anywhere, and some state and stack
/// state have none, so that no states are joined; or, `even`, each of them has as many, so that all are.
fn dense(returns: usize, even: bool) -> Table {
    let mut r = Random::new(1);
    let calls = (0..40).flat_map(|q| (0..25).map(move |e| [q, 0, e])).collect();
    let mut all = BTreeSet::new();
    while all.len() < returns {
        let i = if even { all.len() % 1600 } else { r.below(1600) };
        all.insert([(i / 40) as u8, 1, (i % 40) as u8, r.below(40) as u8]);
    }
    Table { version: 1, symbols: vec![1, 2], states: [vec![1], vec![0; 39]].concat(), internals: vec![], calls, returns: all.into_iter().collect() }
}

/// A table on which all guesses are spent, beside nine states of another mark. These call each other, take every return and have so many internals, of up to three targets
/// each: they may all be joined, and until they are guessed their clauses wait.
fn spent(internals: u8) -> Table {
    let (mut t, _) = parse(LARGEST, include_bytes!("../../tables/spent-24.bin")).expect("a table");
    let (n, k, mut r) = (t.count() as u8, t.symbols.len() as u8, Random::new(1));
    t.version = 2;
    t.symbols.extend([1, 2].into_iter().chain((0..internals).map(|_| 0)));
    t.states.extend([5, 4, 4, 4, 4, 4, 4, 4, 4]);
    for q in n..n + 9 {
        t.calls.extend((n..n + 9).map(|e| [q, k, e]));
        t.returns.extend((n..n + 9).map(|s| [q, k + 1, s, n + r.below(9) as u8]));
        for symbol in k + 2..k + 2 + internals {
            let targets: BTreeSet<u8> = std::iter::repeat_with(|| n + r.below(9) as u8).take(3).collect();
            t.internals.extend(targets.into_iter().map(|e| [q, symbol, e]));
        }
    }
    t.calls.sort();
    t.returns.sort();
    t
}

/// A check of a map, which is accepted.
fn check(t: Table, what: &str, map: Vec<u8>) -> Case {
    let (bytes, n) = (t.bytes(), t.count());
    let input = format!("{n} states, {} records, {what}", records(&t));
    let call = move |_: &mut Room| {
        assert!(basilvault::check_within(LARGEST, black_box(&bytes), &map).is_ok());
        0
    };
    Case { input, size: (records(&t) * n) as f64, call: Box::new(call) }
}

/// The clauses of a table; they grow with their words.
fn clauses(t: Table, room: &mut Room) -> Case {
    let bytes = t.bytes();
    let words = basilvault::clauses_within(LARGEST, &bytes, &mut room.list).expect("the list has room").words;
    let call = move |room: &mut Room| {
        assert_eq!(basilvault::clauses_within(LARGEST, black_box(&bytes), &mut room.list).map(|listed| listed.words), Ok(words));
        0
    };
    Case { input: format!("{} states, {} records, {words} words", t.count(), records(&t)), size: words as f64, call: Box::new(call) }
}

/// A reduction with so many guesses at most; what it grows with is worked out of what it delivers.
fn reduce(t: Table, budget: u64, room: &mut Room, size: fn(&Table, &Reduced) -> f64) -> Case {
    let bytes = t.bytes();
    let once = move |room: &mut Room| {
        let answer = basilvault::reduce_within(LARGEST, black_box(&bytes), budget, &mut room.list, &mut room.map, &mut room.out);
        answer.expect("reduce delivers")
    };
    let done = once(room);
    let left = left_at_rest(&room.list[..done.words], t.count());
    let input = format!("{} states, {} records, {} words, {left} left at rest", t.count(), records(&t), done.words);
    Case { input, size: size(&t, &done), call: Box::new(move |room: &mut Room| once(room).guesses) }
}

/// How many words are left at rest of the list that reduce writes.
fn rest_of(t: &Table, room: &mut Room) -> usize {
    let done = basilvault::reduce_within(LARGEST, &t.bytes(), 1, &mut room.list, &mut room.map, &mut room.out).expect("reduce delivers");
    left_at_rest(&room.list[..done.words], t.count())
}

/// A search that spends so many guesses on a list of up to so many words, all of them left at rest; it grows with both.
fn search(words: usize, both: bool, wait: bool, budget: u64) -> Case {
    let list = steady(words, 3, both, wait);
    let ends = if both { "from both ends" } else { "in order" };
    let input = format!("{} words, a chain {ends}", list.words.len());
    let size = list.words.len() as f64 * budget as f64;
    let call = move |_: &mut Room| {
        let answer = basilvault::search_within(LARGEST, black_box(&list.words), list.variables, budget, &mut [0; 780]);
        assert_eq!(answer, Err(Refusal::Spent));
        budget
    };
    Case { input, size, call: Box::new(call) }
}

/// Seconds of a call, the least of up to nine that take two seconds together, and its guesses. From a twentieth of a second on they are processor time.
fn seconds(case: &Case, room: &mut Room) -> (f64, u64) {
    let (mut least, mut all, mut guesses) = (f64::MAX, 0.0, 0);
    for _ in 0..9 {
        let (start, before) = (Instant::now(), on_processor());
        guesses = (case.call)(room);
        let passed = start.elapsed().as_secs_f64();
        let taken = if passed < 0.05 { passed } else { on_processor() - before };
        (least, all) = (least.min(taken), all + taken);
        if all > 2.0 {
            break;
        }
    }
    (least, guesses)
}

/// The row of an input and a smaller one: how much smaller it is by the law, and how much less time it takes.
fn row(operation: &str, law: &str, [whole, part]: [Case; 2], room: &mut Room) {
    let [(long, guesses), (short, _)] = [&whole, &part].map(|case| seconds(case, room));
    let digits = if long < 0.01 { 5 } else { 3 };
    println!("| {operation} | {} | {guesses} | {long:.digits$} | {law} | {:.2} | {:.2} |", whole.input, part.size / whole.size, short / long);
}

/// The rows of tables.
fn of_tables(room: &mut Room) {
    row("check", "records × states", [40, 24].map(|n| check(one_class(n), "one class", vec![0; n as usize])), room);
    row("check", "records × states", [4096, 2048].map(|k| check(dense(k, false), "40 classes", (0..40).collect())), room);
    let cases = [4096, 2048].map(|k| clauses(dense(k, false), room));
    row("clauses", "words", cases, room);
    let cases = [4096, 2048].map(|k| reduce(dense(k, false), BUDGET, room, |_, done| done.words as f64));
    row("reduce", "words", cases, room);
    let cases = [4096, 3200].map(|k| reduce(dense(k, true), BUDGET, room, |_, done| done.words as f64 * done.guesses as f64));
    row("reduce", "words × guesses", cases, room);
    let cases = [40, 24].map(|n| reduce(one_class(n), BUDGET, room, |t, _| (records(t) * t.count() * t.count()) as f64));
    row("reduce", "records × states²", cases, room);
    let under = (0..).take_while(|&k| rest_of(&spent(k), room) <= WORDS).last().expect("without internals there is room");
    for internals in [under, under + 1] {
        let cases = [BUDGET, BUDGET / 2].map(|budget| reduce(spent(internals), budget, room, |_, done| done.guesses as f64));
        row("reduce", "guesses", cases, room);
    }
}

/// A row for each of them.
pub fn print() {
    let room = &mut Room { list: vec![0; ROOM], map: vec![0; 40], out: vec![0; 22_644] };
    heading("worst tables");
    heads("operation; input; guesses; seconds; grows with; a smaller one is; and takes");
    of_tables(room);
    row("search", "guesses × words", [BUDGET, BUDGET / 2].map(|budget| search(WORDS, true, false, budget)), room);
    row("search", "guesses × words", [BUDGET, BUDGET / 2].map(|budget| search(33_000, false, true, budget)), room);
    row("search", "guesses × words × links", [200, 100].map(|budget| search(33_000, true, true, budget)), room);
    println!();
}
