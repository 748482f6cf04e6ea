//! Library and plain Rust on random tables, damaged ones, lists and maps, with buffers of any length: the same answers and the same bytes.

use basilvault::How;
use basilvault_bench::plain;
use basilvault_tests::flat;
use basilvault_tests::random::{self, Random};
use basilvault_tests::reference::{LARGEST, Limits, STANDARD, Table};

/// A length around what is needed: shorter, equal, or longer.
fn around(r: &mut Random, need: usize) -> usize {
    match r.below(4) {
        0 => r.below(need + 1),
        1 => need,
        _ => need + r.below(20),
    }
}

/// The operations on a table alone.
fn compare_table(r: &mut Random, l: Limits, table: &[u8]) {
    assert_eq!(flat(basilvault::read_within(l, table)), plain::read(l, table), "{table:02x?}");
    assert_eq!(flat(basilvault::tops_within(l, table)), plain::tops(l, table), "{table:02x?}");
    let need = basilvault::clauses_within(l, table, &mut vec![0; 400_000]).map_or(9, |listed| listed.words);
    let mut ours = vec![7; around(r, need)];
    let mut theirs = ours.clone();
    assert_eq!(flat(basilvault::clauses_within(l, table, &mut ours)), plain::clauses(l, table, &mut theirs), "{table:02x?}");
    assert!(ours == theirs, "{table:02x?}");
}

/// Scripts on a table.
fn compare_script(r: &mut Random, l: Limits, valid: &Table, table: &[u8]) {
    let script = random::script(r, valid);
    assert_eq!(flat(basilvault::script_within(l, table, &script)), plain::script(l, table, &script), "{table:02x?} {script:?}");
}

/// Reduce; the map that it delivers, or none, as where a damaged table has fewer states.
fn compare_reduce(r: &mut Random, l: Limits, table: &[u8], states: usize) -> Option<Vec<u8>> {
    let budget = if r.chance(20) { r.below(3) as u64 } else { 100_000 };
    let length = [32_768, 32_768, 300][r.below(3)];
    let mut ours = (vec![7; length], vec![7; around(r, states)], vec![7; around(r, table.len())]);
    let mut theirs = ours.clone();
    let a = flat(basilvault::reduce_within(l, table, budget, &mut ours.0, &mut ours.1, &mut ours.2));
    let b = plain::reduce(l, table, budget, &mut theirs.0, &mut theirs.1, &mut theirs.2);
    assert_eq!(a, b, "{table:02x?}");
    assert!(ours == theirs, "{table:02x?}");
    a.ok().and_then(|_| Some(ours.1.get(..states)?.to_vec()))
}

/// Check and quotient under a map.
fn compare_map(r: &mut Random, l: Limits, table: &[u8], map: &[u8]) {
    assert_eq!(flat(basilvault::check_within(l, table, map)), plain::check(l, table, map), "{table:02x?} {map:?}");
    let mut ours = vec![7; around(r, table.len())];
    let mut theirs = ours.clone();
    assert_eq!(flat(basilvault::quotient_within(l, table, map, &mut ours)), plain::quotient(l, table, map, &mut theirs), "{table:02x?} {map:?}");
    assert!(ours == theirs, "{table:02x?} {map:?}");
}

/// The search over a list, well formed or not.
fn compare_search(r: &mut Random, l: Limits) {
    let variables = if r.chance(4) { [270, 775][r.below(2)] + r.below(10) } else { r.below(16) };
    let list = random::clause_words(r, variables);
    let budget = if r.chance(30) { r.below(5) as u64 } else { 10_000 };
    let mut ours = vec![7; around(r, variables)];
    let mut theirs = ours.clone();
    assert_eq!(flat(basilvault::search_within(l, &list, variables, budget, &mut ours)), plain::search(l, &list, variables, budget, &mut theirs), "{list:?}");
    assert!(ours == theirs, "{list:?}");
}

/// A random table from a seed.
fn compare_generate(r: &mut Random, l: Limits) {
    let load = random::load(r, l);
    let need = basilvault::generate_within(l, load, &mut vec![0; 22_644]).unwrap_or(9);
    let mut ours = vec![7; around(r, need)];
    let mut theirs = ours.clone();
    assert_eq!(flat(basilvault::generate_within(l, load, &mut ours)), plain::generate(l, load, &mut theirs), "{load:?}");
    assert!(ours == theirs, "{load:?}");
}

/// Two tables, one of them damaged now and then.
fn compare_pair(r: &mut Random) {
    let (first, second) = random::two_tables(r, 7);
    let mut bytes = [first.bytes(), second.bytes()];
    if r.chance(8) {
        let i = r.below(2);
        bytes[i] = random::damaged(r, &bytes[i]);
    }
    assert_eq!(flat(basilvault::fit(&bytes[0], &bytes[1])), plain::fit(&bytes[0], &bytes[1]), "{bytes:02x?}");
    for how in [How::Intersection, How::Union] {
        let need = basilvault::combine_within(LARGEST, &bytes[0], &bytes[1], how, &mut vec![0; 22_644]).unwrap_or(9);
        let mut ours = vec![7; around(r, need)];
        let mut theirs = ours.clone();
        let answer = flat(basilvault::combine_within(LARGEST, &bytes[0], &bytes[1], how, &mut ours));
        assert_eq!(answer, plain::combine(LARGEST, &bytes[0], &bytes[1], how, &mut theirs), "{how:?} {bytes:02x?}");
        assert!(ours == theirs, "{how:?} {bytes:02x?}");
    }
}

/// So many cases; stops the program at the first difference.
pub fn compare(cases: usize) {
    let mut r = Random::new(1);
    for i in 0..cases {
        let l = [STANDARD, LARGEST, Limits { states: r.below(43), symbols: r.below(67) }][i % 3];
        let most = if i % 50 == 0 { 40 } else { 8 };
        compare_generate(&mut r, l);
        let plain = random::any_table(&mut r, most);
        let valid = if r.chance(30) { random::marked(&mut r, &plain) } else { plain };
        let bytes = valid.bytes();
        let table = if r.chance(30) { random::damaged(&mut r, &bytes) } else { bytes };
        compare_table(&mut r, l, &table);
        compare_script(&mut r, l, &valid, &table);
        let states = valid.count();
        let map = compare_reduce(&mut r, l, &table, states).filter(|_| i % 2 == 0);
        let map = map.unwrap_or_else(|| random::map(&mut r, states));
        compare_map(&mut r, l, &table, &map);
        compare_search(&mut r, l);
        if i % 4 == 0 {
            compare_pair(&mut r);
        }
    }
    println!("library and plain Rust agree on {cases} random tables, scripts, maps and lists, and pairs of tables\n");
}
