//! Against every script by ascending length, and against `fit`.

use super::*;
use crate::model::{Kind, State};
use crate::samples;
use basilvault::Load;

/// A random table with one symbol of each kind.
fn random(seed: u32, states: usize, density: u32) -> Table {
    samples::table(&samples::random(Load { seed, states, internals: 1, calls: 1, returns: 1, density }))
}

/// The table with the first target of each move alone, and more states that accept.
fn decided(mut table: Table, accepting: u32) -> Table {
    table.internals.dedup_by_key(|record| [record[0], record[1]]);
    table.calls.dedup_by_key(|record| [record[0], record[1]]);
    table.returns.dedup_by_key(|record| [record[0], record[1], record[2]]);
    table.states.iter_mut().enumerate().for_each(|(q, state)| state.accepting |= accepting >> q & 1 != 0);
    table
}

/// The length of the shortest script up to a length that the first table accepts and the second does not.
fn by_force(first: &[u8], second: &[u8], symbols: u8, most: usize) -> Option<usize> {
    let mut scripts = vec![Vec::new()];
    for length in 0..=most {
        let apart = |script: &Vec<u8>| basilvault::script(first, script) == Ok(true) && basilvault::script(second, script) == Ok(false);
        if scripts.iter().any(apart) {
            return Some(length);
        }
        scripts = scripts.iter().flat_map(|script| (0..symbols).map(move |symbol| [&script[..], &[symbol]].concat())).collect();
    }
    None
}

#[test]
fn random_tables_against_all_scripts() {
    let (mut shown, mut longest) = (0, 0);
    for seed in 0..400 {
        let first = random(seed, 2 + seed as usize % 3, 9_000 + 40 * seed);
        let second = decided(random(seed + 1_000, 2 + seed as usize / 3 % 3, 30_000), seed / 5);
        let (one, other) = (first.to_bytes(), second.to_bytes());
        let fits = basilvault::fit(&one, &other).expect("tables that are compared");
        let found = script(&first, &second);
        assert_eq!(fits, found == Found::None, "{seed}");
        let forced = by_force(&one, &other, 3, 7);
        match &found {
            Found::Script(script) => {
                assert_eq!(forced.unwrap_or(8), script.len().min(8), "{seed}");
                shown += 1;
                longest = longest.max(script.len());
            }
            _ => assert_eq!(forced, None, "{seed}"),
        }
    }
    assert!(shown > 50 && longest > 4, "{shown} shown, the longest of {longest}");
}

/// A table that opens n calls and closes them, where n leaves this rest by `every`, or with `but` where it does not.
fn counting(every: u8, rest: u8, but: bool) -> Table {
    let state = |q| State { initial: q == 0, accepting: q == every, mark: 0 };
    let closes = |q: u8| q == every || (q == rest) != but;
    Table {
        version: 1,
        symbols: vec![Kind::Call, Kind::Return],
        states: (0..=every).map(state).collect(),
        internals: Vec::new(),
        calls: (0..every).map(|q| [q, 0, (q + 1) % every]).collect(),
        returns: (0..=every).filter(|q| closes(*q)).flat_map(|q| (0..every).map(move |s| [q, 1, s, every])).collect(),
    }
}

#[test]
fn deep_scripts() {
    let open = |n| Found::Script([vec![0; n], vec![1; n]].concat());
    assert_eq!(script(&counting(8, 0, false), &counting(7, 0, true)), open(56));
    assert_eq!(script(&counting(8, 0, false), &counting(9, 1, true)), open(64));
    assert_eq!(script(&counting(5, 0, false), &counting(13, 0, true)), Found::Deeper);
    assert_eq!(script(&counting(8, 0, false), &counting(4, 0, false)), Found::None);
}

/// What opens n calls and closes them, and beside it, from an initial state of its own, what has n internals, each where n leaves a rest.
fn counting_both(calls: (u8, u8), internals: (u8, u8)) -> Table {
    let mut table = counting(calls.0, calls.1, false);
    let base = table.states.len() as u8;
    table.states.extend((0..internals.0).map(|q| State { initial: q == 0, accepting: q == internals.1, mark: 0 }));
    table.symbols.push(Kind::Internal);
    table.internals = (0..internals.0).map(|q| [base + q, 2, base + (q + 1) % internals.0]).collect();
    table
}

#[test]
fn a_longer_script_that_is_less_deep() {
    let first = counting_both((6, 5), (16, 15));
    let mut second = counting(13, 12, true);
    second.symbols.push(Kind::Internal);
    second.states.iter_mut().enumerate().for_each(|(q, state)| state.accepting = q != 12);
    second.internals = (0..13).map(|q| [q, 2, (q + 1) % 13]).collect();
    // 77 calls and their returns are shorter than 207 internals, but more than can be open
    assert_eq!(script(&first, &second), Found::Script(vec![2; 207]));
}

#[test]
fn refused_tables() {
    let choice = random(1, 4, 60_000);
    assert!(basilvault::fit(&choice.to_bytes(), &choice.to_bytes()).is_err());
    assert_eq!(script(&choice, &choice), Found::None);
}
