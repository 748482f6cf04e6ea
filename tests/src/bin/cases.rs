//! Writes the cases that the program `cases` is run on and the output that it must give: `cases ROOT` writes crates/cases/stdin and
//! crates/cases/stdout below ROOT. The answers are the plain implementation's. What document 01 says of a named case is asserted.

use basilvault::How;
use basilvault_tests::frames::{Cases, Room};
use basilvault_tests::named::{faults, fewer_pairs, joined_stack_symbols, longest, more_classes, more_faults, named_located, not_transitive, one_undone, one_way, pigeons};
use basilvault_tests::named::{self, silent, t, t_with_call, t_with_return, two_undone, unreachable_stack};
use basilvault_tests::random::{self, Random};
use basilvault_tests::reference::{self, Delivery, LARGEST, Limits, Load, STANDARD, Table};

/// The words of the list that reduce writes.
fn short_words(table: &Table) -> usize {
    reference::words_of(&reference::short_list(table)).len()
}

/// The words of a table's clause list.
fn words_needed(table: &Table) -> usize {
    reference::words_of(&reference::clause_list(table)).len()
}

/// How many returns are live.
fn live_returns(table: &Table) -> usize {
    let tops = reference::top_sets(table);
    table.returns.iter().filter(|x| tops[x[0] as usize].contains(&(x[2] as usize))).count()
}

/// Reading, tops and clauses of some tables, every refusal of reading, and damaged tables.
fn reading(c: &mut Cases, r: &mut Random) {
    let mut tables = vec![t(), unreachable_stack(), not_transitive(), joined_stack_symbols()];
    tables.push(random::table(r, 6, false));
    tables.push(random::table(r, 9, true));
    tables.push(random::blown_up(r, 12, true));
    for table in &tables {
        let b = table.bytes();
        c.read(&b).unwrap();
        c.tops(&b).unwrap();
        let words = words_needed(table);
        if words < 4000 {
            c.clauses(&b, words + 3).unwrap();
            assert_eq!(c.clauses(&b, words - 1), Err(10));
        }
    }
    for (f, k) in faults().iter().zip(1..) {
        assert_eq!(c.read(f), Err(k));
        assert_eq!(c.tops(f), Err(k));
        assert_eq!(c.clauses(f, 5), Err(k));
    }
    for _ in 0..60 {
        let bytes = random::any_table(r, 7).bytes();
        c.read(&random::damaged(r, &bytes)).ok();
        c.tops(&bytes).unwrap();
    }
}

/// More refusals of reading, and the limits of its counts: the longest table, one byte more, one record more of a kind.
fn reading_limits(c: &mut Cases) {
    for (b, number) in more_faults() {
        assert_eq!(c.read(&b).err().unwrap_or(0), number, "{b:?}");
    }
    let long = longest().bytes();
    assert_eq!(long.len(), 22_596);
    assert_eq!(c.read(&long), Ok([0, 32, 56, 56 + 3 * 1024, 56 + 6 * 1024]));
    assert_eq!(c.read(&[&[0][..], &long].concat()), Err(1));
    let few = Table { calls: vec![], returns: vec![], ..longest() };
    let mut internals = few.clone();
    internals.internals.push([21, 0, 16]);
    assert_eq!(c.read(&internals.bytes()), Err(4));
    let mut calls = Table { internals: vec![], calls: longest().calls, ..few.clone() };
    calls.calls.push([21, 2, 16]);
    assert_eq!(c.read(&calls.bytes()), Err(4));
    let mut returns = Table { internals: vec![], returns: longest().returns, ..few };
    returns.returns.push([7, 4, 2, 16]);
    assert_eq!(c.read(&returns.bytes()), Err(4));
}

/// M10 to M12, the refusals of the search, a hard instance, the same with its budget spent, and pseudo-random lists.
fn searching(c: &mut Cases, r: &mut Random) {
    assert_eq!(c.search(&[2, 0, 2], 2, 9, 2), Ok((2, vec![1, 1])));
    assert_eq!(c.search(&[2, 0, 2, 2, 1, 3], 2, 9, 3), Ok((1, vec![1, 0, 7])));
    assert_eq!(c.search(&[0], 0, 9, 0), Err(12));
    assert_eq!(c.search(&[], 277, 9, 300), Err(11));
    assert_eq!(c.search(&[2, 0], 1, 9, 1), Err(11));
    assert_eq!(c.search(&[1, 4], 2, 9, 2), Err(11));
    assert_eq!(c.search(&[2, 0, 1], 2, 9, 2), Err(11));
    assert_eq!(c.search(&[1, 0], 1, 9, 0), Err(14));
    let (words, variables) = pigeons(6);
    c.search(&words, variables, 60000, variables + 2).unwrap();
    assert_eq!(c.search(&words, variables, 1000, variables), Err(13));
    for _ in 0..150 {
        let variables = r.below(20);
        let words = random::clause_words(r, variables);
        let budget = r.below(30) as u16;
        c.search(&words, variables, budget, variables + r.below(3)).ok();
    }
}

/// M1 to M9, M13 and M14; T and its quotient as document 01 prints them.
fn marked(c: &mut Cases) {
    let b = t().bytes();
    assert_eq!(b, named::T);
    let bottom = 1u64 << reference::BOTTOM;
    let (words, found) = c.tops(&b).unwrap();
    assert_eq!((&words[..5], found), (&[bottom, 1, bottom, bottom, 0][..], 4));
    assert_eq!(c.clauses(&b, 72), Ok((23, 72)));
    assert_eq!(c.check(&b, &[0, 1, 1, 2]), Ok(3));
    assert_eq!(c.check(&b, &[0, 1, 1, 1]), Err(17));
    assert_eq!(c.check(&b, &[0, 0, 1, 2]), Err(18));
    assert_eq!(c.check(&b, &[0, 1, 0, 2]), Err(19));
    assert_eq!(c.check(&b, &[0, 2, 1, 1]), Err(16));
    assert_eq!(c.check(&b, &[0, 1, 1]), Err(15));
    assert_eq!(c.check(&t_with_call([0, 1, 2]).bytes(), &[0, 1, 1, 2]), Err(20));
    let (answer, map, out) = c.reduce(&b, 0, Room { list: 100, map: 9, out: 50 });
    assert_eq!(answer.map(|x| x.values()), Ok([4, 0, 24, 35, 0, 1, 1]));
    assert_eq!((&map[..4], &out[..35]), (&[0, 1, 2, 3][..], &named::T[..]));
    assert_eq!(c.quotient(&b, &[0, 1, 2, 3], 40), Ok(b.clone()));
    assert_eq!(c.quotient(&t_with_return([2, 2, 0, 3]).bytes(), &[0, 1, 2, 3], 35), Ok(b.clone()));
    assert_eq!(c.quotient(&b, &[0, 1, 1, 2], 31), Ok(named::T_REDUCED.to_vec()));
}

/// The edges of document 01, and the order of reduce's refusals, by two faults at once.
fn edges(c: &mut Cases) {
    let b = t().bytes();
    let just = Room { list: 24, map: 4, out: 31 };
    let wide = Room { list: 80, map: 24, out: 64 };
    for room in [just, wide] {
        let (answer, map, out) = c.reduce(&b, 1, room);
        assert_eq!(answer.map(|x| x.values()), Ok([3, 1, 24, 31, 1, 1, 0]));
        assert_eq!((&map[..4], &out[..31]), (&[0, 1, 1, 2][..], &named::T_REDUCED[..]));
    }
    let (few_words, few_states, few_bytes) = (Room { list: 23, ..just }, Room { map: 3, ..just }, Room { out: 30, ..just });
    assert_eq!(c.reduce(&b, 1, few_words).0, Err(10));
    assert_eq!(c.reduce(&b, 1, few_bytes).0, Err(21));
    assert_eq!(c.reduce(&b, 1, few_states).0, Err(22));
    assert_eq!(c.reduce(&b, 1, Room { map: 3, ..few_words }).0, Err(22));
    assert_eq!(c.reduce(&b, 0, few_words).0, Err(10));
    // 21 is judged on the map delivered: with no guess it is 0 1 2 3, whose quotient is T itself
    assert_eq!(c.reduce(&b, 0, just).0, Err(21));
    assert_eq!(c.reduce(&b, 0, Room { out: 34, ..just }).0, Err(21));
    assert_eq!(c.reduce(&b, 0, Room { out: 35, ..just }).0.map(|x| x.length), Ok(35));
    assert_eq!(c.reduce(&b, 0, few_states).0, Err(22));
    let none = Room { list: 0, map: 0, out: 0 };
    assert_eq!(c.reduce(&b, 0, none).0, Err(22));
    assert_eq!(c.reduce(&b, 0, Room { map: 4, ..none }).0, Err(10));
    assert_eq!(c.reduce(&b, 1, Room { out: 0, ..just }).0, Err(21));
    for (f, k) in faults().iter().zip(1..) {
        assert_eq!(c.reduce(f, 1, wide).0, Err(k));
        assert_eq!(c.reduce(f, 0, none).0, Err(k));
    }
}

/// Refused maps, under check and under quotient, many with two faults at once; and every number of a table's refusal.
fn refused_maps(c: &mut Cases) {
    let b = t().bytes();
    let long = [vec![0, 1, 1, 2], vec![3; 296]].concat();
    let cases: [(&[u8], u8); 16] = [
        (&[], 15),
        (&[0, 1, 1, 2, 2], 15),
        (&[0, 1, 1, 2, 9], 15),
        (&[9, 1, 1], 15),
        (&long, 15),
        (&[1, 1, 1, 1], 16),
        (&[0, 0, 2, 3], 16),
        (&[0, 1, 3, 2], 16),
        (&[0, 1, 1, 255], 16),
        (&[0, 0, 0, 2], 16),
        (&[0, 0, 0, 0], 17),
        (&[0, 1, 2, 0], 17),
        (&[0, 1, 2, 2], 17),
        (&[0, 0, 1, 2], 18),
        (&[0, 0, 0, 1], 19),
        (&[0, 1, 0, 2], 19),
    ];
    for (map, number) in cases {
        assert_eq!(c.check(&b, map), Err(number), "{map:?}");
        assert_eq!(c.quotient(&b, map, 9), Err(number), "{map:?}");
    }
    let mut two_calls = t_with_call([0, 1, 2]);
    two_calls.calls.push([1, 1, 1]);
    assert_eq!(c.check(&two_calls.bytes(), &[0, 1, 1, 2]), Err(19));
    assert_eq!(c.quotient(&t_with_call([0, 1, 2]).bytes(), &[0, 1, 1, 2], 0), Err(20));
    assert_eq!(c.quotient(&b, &[0, 1, 1, 2], 30), Err(21));
    assert_eq!(c.quotient(&b, &[0, 1, 1, 2], 0), Err(21));
    for (f, k) in faults().iter().zip(1..) {
        assert_eq!(c.check(f, &[0, 1, 1, 2]), Err(k));
        assert_eq!(c.check(f, &[9]), Err(k));
        assert_eq!(c.quotient(f, &[0, 1, 1, 2], 12), Err(k));
        assert_eq!(c.quotient(f, &[], 0), Err(k));
    }
}

/// The merges that tempt, each as a map.
fn tempting(c: &mut Cases) {
    let dead = unreachable_stack();
    assert_eq!(c.check(&dead.bytes(), &[0, 1, 1, 2]), Ok(3));
    assert_eq!(c.quotient(&dead.bytes(), &[0, 1, 1, 2], 40), Ok(named::T_REDUCED.to_vec()));
    let mut kept = reference::parse(STANDARD, &named::T_REDUCED).unwrap().0;
    kept.returns.insert(0, [1, 2, 0, 0]);
    let word = [1, 2, 1, 2];
    assert!(reference::accepts(&kept, &word) && !reference::accepts(&dead, &word) && !reference::accepts(&t(), &word));
    let b = not_transitive().bytes();
    assert_eq!(c.check(&b, &[0, 1, 1, 2, 3]), Ok(4));
    assert_eq!(c.check(&b, &[0, 1, 2, 2, 3]), Ok(4));
    assert_eq!(c.check(&b, &[0, 1, 2, 1, 3]), Err(20));
    assert_eq!(c.check(&b, &[0, 1, 1, 1, 2]), Err(20));
    c.quotient(&b, &[0, 1, 1, 2, 3], 60).unwrap();
    c.quotient(&b, &[0, 1, 2, 2, 3], 60).unwrap();
    assert_eq!(c.quotient(&b, &[0, 1, 1, 1, 2], 60), Err(20));
    let b = joined_stack_symbols().bytes();
    assert_eq!(c.check(&b, &[0, 1, 1, 2, 3]), Err(20));
    assert_eq!(c.quotient(&b, &[0, 1, 1, 2, 3], 60), Err(20));
    let (answer, map, out) = c.reduce(&dead.bytes(), 9, Room { list: 80, map: 4, out: 31 });
    assert_eq!((answer.map(|x| x.classes), &map[..], &out[..]), (Ok(3), &[0, 1, 1, 2][..], &named::T_REDUCED[..]));
    for table in [not_transitive(), joined_stack_symbols()] {
        let (answer, map, _) = c.reduce(&table.bytes(), 9, Room { list: 250, map: 5, out: 60 });
        assert!(answer.is_ok() && (map[1] != map[2] || map[2] != map[3]));
    }
    one_way_only(c);
}

/// Moves matched one way only.
fn one_way_only(c: &mut Cases) {
    for (kind, number) in [(0, 18), (1, 19), (2, 20)] {
        for few in [1, 2] {
            let b = one_way(kind, few).bytes();
            assert_eq!(c.check(&b, &[0, 1, 1, 2, 3]), Err(number));
            assert_eq!(c.quotient(&b, &[0, 1, 1, 2, 3], 60), Err(number));
            let (answer, map, _) = c.reduce(&b, 90, Room { list: 300, map: 5, out: 60 });
            assert!(answer.is_ok() && map[1] != map[2]);
        }
    }
}

/// One state, no symbols, unreachable states, budget 0 with nothing to guess, buffers of length 0.
fn corners(c: &mut Cases) {
    for states in [1, 3] {
        let b = silent(&[states]).bytes();
        assert_eq!(c.check(&b, &[0]), Ok(1));
        assert_eq!(c.check(&b, &[]), Err(15));
        assert_eq!(c.check(&b, &[1]), Err(16));
        assert_eq!(c.quotient(&b, &[0], 13), Ok(b.clone()));
        assert_eq!(c.quotient(&b, &[0], 12), Err(21));
        let just = Room { list: 0, map: 1, out: 13 };
        assert_eq!(c.reduce(&b, 0, just).0.map(|x| x.values()), Ok([1, 0, 0, 13, 0, 0, 0]));
        assert_eq!(c.reduce(&b, 0, Room { map: 0, ..just }).0, Err(22));
        assert_eq!(c.reduce(&b, 0, Room { out: 12, ..just }).0, Err(21));
    }
    let b = silent(&[1, 2]).bytes();
    assert_eq!(c.reduce(&b, 0, Room { list: 2, map: 2, out: 14 }).0.map(|x| x.values()), Ok([2, 0, 2, 14, 0, 0, 0]));
    let b = silent(&[0, 2, 1, 3, 0]).bytes();
    let (answer, map, out) = c.reduce(&b, 9, Room { list: 140, map: 6, out: 20 });
    assert_eq!(answer.map(|x| (x.classes, x.length)), Ok((2, 14)));
    assert_eq!((&map[..], &out[..2]), (&[0, 1, 0, 1, 0, 7][..], &[1, 3][..]));
    // state 2 is never reached: its return is dead, and it may be joined with 1, which has another return
    let mut lonely = t();
    lonely.internals.remove(0);
    lonely.returns.push([2, 2, 0, 2]);
    assert_eq!(c.tops(&lonely.bytes()).unwrap().0[2], 0);
    assert_eq!(c.check(&lonely.bytes(), &[0, 1, 1, 2]), Ok(3));
    assert_eq!(c.quotient(&lonely.bytes(), &[0, 1, 2, 3], 40).map(|x| x.len()), Ok(32));
    assert_eq!(c.reduce(&lonely.bytes(), 9, Room { list: 90, map: 4, out: 40 }).0.map(|x| x.classes), Ok(3));
}

/// Undone guesses stay counted: the guess {0, 1} and then {2, 3}; and {0, 1}, {2, 3}, again {2, 3}, {2, 4}, {3, 4}, {5, 6}.
fn undone_guesses(c: &mut Cases) {
    let (answer, map, _) = c.reduce(&one_undone().bytes(), 9, Room { list: 400, map: 6, out: 80 });
    assert_eq!((answer.map(|x| (x.classes, x.guesses)), &map[..]), (Ok((5, 2)), &[0, 1, 2, 2, 3, 4][..]));
    let b = two_undone().bytes();
    let room = Room { list: 1100, map: 8, out: 90 };
    let (answer, map, _) = c.reduce(&b, 6, room);
    assert_eq!((answer.map(|x| (x.classes, x.guesses)), &map[..]), (Ok((6, 6)), &[0, 1, 2, 3, 3, 4, 4, 5][..]));
}

/// Spent budgets: the trial at the spent rest is held where it satisfies (three states that nothing tells apart, budget 1), else an earlier one.
fn spent_budgets(c: &mut Cases) {
    let b = silent(&[1, 0, 0]).bytes();
    let room = Room { list: 0, map: 3, out: 15 };
    for (budget, map, values) in [(0, [0, 1, 2], [3, 0, 0, 15, 0, 3, 1]), (1, [0, 0, 1], [2, 1, 0, 14, 1, 3, 1]), (2, [0, 0, 0], [1, 2, 0, 13, 3, 3, 0])] {
        let (answer, found, _) = c.reduce(&b, budget, room);
        assert_eq!((answer.map(|x| x.values()), &found[..]), (Ok(values), &map[..]));
    }
    for (table, solved) in [(one_undone(), 2), (two_undone(), 6), (not_transitive(), 1), (joined_stack_symbols(), 0)] {
        let b = table.bytes();
        for budget in 0..=solved {
            let (answer, _, _) = c.reduce(&b, budget, Room { list: short_words(&table), map: 8, out: b.len() });
            let answer = answer.unwrap();
            assert_eq!((answer.spent, answer.guesses), (budget < solved, budget));
        }
    }
    // the guess made last contradicts nothing, but the pairs true so far break a clause: what is delivered was tried before
    let b = two_undone().bytes();
    let (answer, map, _) = c.reduce(&b, 1, Room { list: 1100, map: 8, out: 90 });
    assert_eq!((answer.map(|x| (x.joined, x.spent)), &map[..]), (Ok((0, true)), &[0, 1, 2, 3, 4, 5, 6, 7][..]));
}

/// Solved maps have none coarser, but need not have the most pairs or the fewest classes.
fn not_the_most(c: &mut Cases) {
    for (table, delivered, other) in [
        (fewer_pairs(), vec![0, 1, 1, 2, 2, 3], vec![0, 1, 2, 2, 2, 3]),
        (more_classes(), vec![0, 1, 1, 2, 3, 4, 5, 6], vec![0, 1, 2, 1, 2, 3, 4, 5]),
    ] {
        let b = table.bytes();
        let (answer, map, _) = c.reduce(&b, 9, Room { list: short_words(&table), map: delivered.len(), out: b.len() });
        let answer = answer.unwrap();
        assert_eq!((answer.spent, &map), (false, &delivered));
        assert!(answer.joined < reference::joined_pairs(&other));
        assert!(c.check(&b, &other).unwrap() <= answer.classes);
    }
    assert_eq!(reference::joined_pairs(&[0, 1, 1, 0, 1]), 4);
}

/// Reduced with more room than needed, with just enough, and with too little of one thing; the quotient under the map delivered, which comes back.
fn around_needs(c: &mut Cases, table: &Table, turn: usize) -> Vec<u8> {
    let (b, n, need) = (table.bytes(), table.count(), short_words(table));
    let (answer, map, out) = c.reduce(&b, 2000, Room { list: need + 3, map: n + 2, out: b.len() + 5 });
    let Delivery { classes, guesses, words, length, spent, .. } = answer.expect("buffers are ample");
    assert!(!spent, "the budget is enough");
    let just = Room { list: words, map: n, out: length };
    let again = c.reduce(&b, guesses, just);
    assert_eq!((again.0, &again.1[..], &again.2[..]), (answer, &map[..n], &out[..length]));
    let (short, number) = match turn % 4 {
        0 => (Room { map: n - 1, ..just }, 22),
        1 if words > 0 => (Room { list: words - 1, ..just }, 10),
        _ => (Room { out: length - 1, ..just }, 21),
    };
    assert_eq!(c.reduce(&b, guesses, short).0, Err(number));
    if guesses > 0 && turn % 4 == 2 {
        let (answer, _, _) = c.reduce(&b, guesses - 1, Room { out: b.len(), ..just });
        assert_eq!(answer.map(|x| (x.spent, x.guesses, x.joined <= x.ceiling)), Ok((true, guesses - 1, true)));
    }
    assert_eq!(c.check(&b, &map[..n]), Ok(classes));
    assert_eq!(c.quotient(&b, &map[..n], length + turn % 3), Ok(out[..length].to_vec()));
    assert_eq!(c.quotient(&b, &map[..n], length - 1 - turn % 3), Err(21));
    c.read(&out[..length]).expect("the quotient is a table");
    map[..n].to_vec()
}

/// Every map that joins two classes of a map, and what refuses it.
fn coarser(table: &Table, map: &[u8]) -> Vec<(u8, Vec<u8>)> {
    let classes = map.iter().max().unwrap() + 1;
    let pairs = (0..classes).flat_map(|a| (a + 1..classes).map(move |b| (a, b)));
    let joined = |a: u8, b: u8| map.iter().map(|&x| if x == b { a } else { x - (x > b) as u8 }).collect();
    let refused = |map: &Vec<u8>| reference::broken(table, map).expect("none coarser is accepted");
    pairs.map(|(a, b)| joined(a, b)).map(|m| (refused(&m), m)).collect()
}

/// A pseudo-random table of one of five kinds, small enough for its list to be stored; mostly one in which some return is live.
fn small_table(r: &mut Random, turn: usize) -> Table {
    loop {
        let n = 3 + r.below(4);
        let table = match turn % 5 {
            0 => random::table(r, n, false),
            1 => random::table(r, n, true),
            2 => random::blown_up(r, n, true),
            3 => random::blown_up(r, n, false),
            _ => {
                let some = random::any_table(r, 4);
                random::with_unreachable(r, &some, 1 + n / 2)
            }
        };
        let records = table.internals.len() + table.calls.len() + table.returns.len();
        if records > 3 && words_needed(&table) < 400 && (live_returns(&table) > 0 || turn % 4 == 0) {
            return table;
        }
    }
}

/// Pseudo-random tables: reduced, and checked and quotiented under other maps; then damaged ones.
fn random_tables(c: &mut Cases, r: &mut Random) {
    for turn in 0..60 {
        let table = small_table(r, turn);
        let (b, n) = (table.bytes(), table.count());
        let delivered = around_needs(c, &table, turn);
        let more = coarser(&table, &delivered);
        if let Some((number, map)) = more.iter().max() {
            let (other, fewer) = &more[r.below(more.len())];
            assert_eq!(c.check(&b, map), Err(*number));
            assert_eq!(c.quotient(&b, fewer, r.below(9)), Err(*other));
        }
        let map = random::map(r, n);
        c.check(&b, &map).ok();
        c.quotient(&b, &map, b.len() - r.below(4)).ok();
        let d = random::damaged(r, &b);
        let number = match turn % 3 {
            0 => c.check(&d, &delivered).err(),
            1 => c.quotient(&d, &delivered, r.below(40)).err(),
            _ => c.reduce(&d, 9, Room { list: r.below(90), map: 7, out: r.below(60) }).0.err(),
        };
        assert!(reference::read(STANDARD, &d).is_ok() || reference::read(STANDARD, &d).err() == number);
    }
}

/// A pseudo-random table of n states of which several may be joined, with live returns, and up to some bytes long.
fn large_table(r: &mut Random, n: usize, one: bool, most: usize) -> Table {
    loop {
        let table = random::blown_up(r, n, one);
        if live_returns(&table) > n / 2 && table.bytes().len() < most {
            return table;
        }
    }
}

/// Tables of 10 states, reduced once; then of 24 states, whose list is too long to be stored: the map that leaves all apart, and the one that
/// reduce delivers.
fn large_tables(c: &mut Cases, r: &mut Random) {
    for one in [true, false] {
        let table = large_table(r, 10, one, 300);
        let room = Room { list: short_words(&table), map: 10, out: table.bytes().len() };
        c.reduce(&table.bytes(), 1000, room).0.unwrap();
    }
    for one in [true, false] {
        let b = large_table(r, 24, one, 1500).bytes();
        let (mut map, mut out) = ([0; 24], [0; 1500]);
        let length = reference::reduce(STANDARD, &b, 100_000, &mut vec![0; 1_000_000], &mut map, &mut out).unwrap().length;
        c.check(&b, &map).unwrap();
        assert_eq!(c.quotient(&b, &map, length), Ok(out[..length].to_vec()));
        let apart: Vec<u8> = (0..24).collect();
        assert_eq!(c.check(&b, &apart), Ok(24));
        c.quotient(&b, &apart, b.len()).unwrap();
        assert_eq!(c.reduce(&b, 9, Room { list: 60, map: 24, out: 12 }).0, Err(10));
    }
}

/// A table from the text of its bytes.
fn from_text(text: &str) -> Vec<u8> {
    text.split_whitespace().map(|x| u8::from_str_radix(x, 16).unwrap()).collect()
}

/// Reduce leaves group 2 out: a clause forces where one variable is unset, not one pair of classes (two guesses); the classes conclude both ways, p = q
/// and p ≠ s give q ≠ s (one guess). And 40 states, whose group 2 alone would have 118,560 words.
fn without_transitivity(c: &mut Cases) {
    let one_variable = from_text("01 02 00 01 00 00 00 01 00 00 02 01 00 00 01 00 01 02 00 01 00 01 00 00 18 00 16 00 13 00 13 00 04 00 01 00");
    let both_ways = from_text("01 02 00 00 01 00 00 01 01 00 01 02 00 01 01 01 02 01 12 00 10 00 0d 00 0d 00 04 00 01 00");
    for (b, guesses) in [(one_variable, 2), (both_ways, 1)] {
        let (answer, _, _) = c.reduce(&b, 9, Room { list: 300, map: 5, out: 60 });
        assert_eq!(answer.map(|x| (x.guesses, x.spent)), Ok((guesses, false)));
        let (answer, _, _) = c.reduce(&b, guesses - 1, Room { list: 300, map: 5, out: 60 });
        assert_eq!(answer.map(|x| (x.guesses, x.spent)), Ok((guesses - 1, true)));
    }
    c.limits = LARGEST;
    for n in [27, 40] {
        // every second state moves to the first, and the others have no move
        let mut table = silent(&[vec![1], vec![0; n - 2], vec![2]].concat());
        table.symbols = vec![0];
        table.internals = (0..n as u8).step_by(2).map(|q| [q, 0, 0]).collect();
        let room = Room { list: short_words(&table), map: n, out: table.bytes().len() };
        c.reduce(&table.bytes(), 1000, room).0.unwrap();
    }
    c.limits = STANDARD;
}

/// A table of so many states and symbols, none of them with a record.
fn bare(states: usize, symbols: usize) -> Vec<u8> {
    let mut table = silent(&[vec![1], vec![2; states - 1]].concat());
    table.symbols = vec![2; symbols];
    table.bytes()
}

/// 39 before every other number of every operation; zero, and one past its maximum, of each limit.
fn no_limits(c: &mut Cases) {
    for (states, symbols) in [(0, 32), (24, 0), (41, 64), (40, 65), (0, 0), (255, 255)] {
        c.limits = Limits { states, symbols };
        for b in [&[][..], &named::T, &bare(41, 65)] {
            assert_eq!(c.read(b), Err(39));
            assert_eq!(c.tops(b), Err(39));
            assert_eq!(c.clauses(b, 3), Err(39));
            assert_eq!(c.check(b, &[9]), Err(39));
            assert_eq!(c.quotient(b, &[0, 1, 1, 2], 9), Err(39));
            assert_eq!(c.reduce(b, 1, Room { list: 2, map: 1, out: 3 }).0, Err(39));
        }
        assert_eq!(c.search(&[2, 0], 900, 9, 0), Err(39));
        assert_eq!(c.search(&[0], 0, 9, 2), Err(39));
    }
}

/// Counts, lengths and variables at the limits in force, and one past them.
fn at_limits(c: &mut Cases) {
    for (states, symbols) in [(1, 1), (24, 32), (25, 33), (24, 64), (40, 32), (40, 64)] {
        c.limits = Limits { states, symbols };
        assert!(c.read(&bare(states, symbols)).is_ok());
        assert_eq!(c.read(&bare(states + 1, symbols)), Err(4));
        assert_eq!(c.read(&bare(states, symbols + 1)), Err(4));
        assert_eq!(c.tops(&bare(states, symbols)).unwrap().1, 1);
        assert_eq!(c.check(&bare(states + 1, 0), &[0]), Err(4));
        if (states, symbols) == (1, 1) || c.limits == LARGEST {
            let longest = states + symbols + 22_540;
            assert_eq!(c.read(&vec![0; longest]), Err(2));
            assert_eq!(c.read(&vec![0; longest + 1]), Err(1));
        }
        let variables = states * (states - 1) / 2;
        assert_eq!(c.search(&[], variables, 900, variables).unwrap().0, variables as u64);
        assert_eq!(c.search(&[], variables + 1, 900, variables + 1), Err(11));
        let last: Vec<u8> = (0..states as u8).collect();
        assert_eq!(c.check(&bare(states, symbols), &last), Ok(states));
        assert_eq!(c.quotient(&bare(states, symbols), &last, 200), Ok(bare(states, symbols)));
    }
}

/// Bottom is bit 40 whatever the limits: state 24 is a state, and a return over it on the empty stack is dead.
fn state_24(c: &mut Cases) {
    let mut table = silent(&[vec![1], vec![2; 24]].concat());
    table.symbols = vec![1, 2];
    table.returns = vec![[0, 1, 24, 1]];
    let apart: Vec<u8> = (0..25).collect();
    for limits in [Limits { states: 25, symbols: 2 }, LARGEST] {
        c.limits = limits;
        let (words, found) = c.tops(&table.bytes()).unwrap();
        assert_eq!((words[0], found), (1 << 40, 1));
        let dropped = Table { returns: vec![], ..table.clone() };
        assert_eq!(c.quotient(&table.bytes(), &apart, 60), Ok(dropped.bytes()));
        let mut called = table.clone();
        called.states[24] = 1;
        called.calls = vec![[24, 0, 0]];
        assert_eq!(c.tops(&called.bytes()).unwrap().0[0], (1 << 40) + (1 << 24));
        assert_eq!(c.quotient(&called.bytes(), &apart, 60), Ok(called.bytes()));
    }
    c.limits = STANDARD;
    assert_eq!(c.tops(&table.bytes()), Err(4));
}

/// Reductions at other limits: T at its own counts and at the largest, and 30 states whose list is too long for the buffer.
fn reduced_within(c: &mut Cases, r: &mut Random) {
    for limits in [Limits { states: 4, symbols: 3 }, LARGEST] {
        c.limits = limits;
        let (answer, map, out) = c.reduce(&named::T, 1, Room { list: 24, map: 4, out: 31 });
        assert_eq!(answer.map(|x| x.values()), Ok([3, 1, 24, 31, 1, 1, 0]));
        assert_eq!((&map[..], &out[..]), (&[0, 1, 1, 2][..], &named::T_REDUCED[..]));
        assert_eq!(c.clauses(&named::T, 72), Ok((23, 72)));
    }
    for limits in [Limits { states: 3, symbols: 3 }, Limits { states: 4, symbols: 2 }] {
        c.limits = limits;
        assert_eq!(c.reduce(&named::T, 1, Room { list: 24, map: 4, out: 31 }).0, Err(4));
        assert_eq!(c.clauses(&named::T, 72), Err(4));
    }
    c.limits = LARGEST;
    let b = large_table(r, 30, false, 2500).bytes();
    assert_eq!(c.reduce(&b, 9, Room { list: 60, map: 30, out: 12 }).0, Err(10));
    assert_eq!(c.reduce(&b, 9, Room { list: 60, map: 29, out: 12 }).0, Err(22));
    c.limits = STANDARD;
}

/// Version 2: its limits, marks that forbid and marks that do not, the quotient's version and marks.
fn marks(c: &mut Cases, r: &mut Random) {
    let table = named_located();
    let (b, n) = (table.bytes(), table.count());
    c.read(&b).unwrap();
    assert_eq!(c.check(&b, &[0, 1, 2, 2]), Err(17));
    assert_eq!(c.quotient(&b, &[0, 1, 2, 2], 90), Err(17));
    assert_eq!(c.reduce(&b, 9, Room { list: short_words(&table), map: n, out: b.len() }).0.map(|x| x.classes), Ok(4));
    c.clauses(&b, words_needed(&table)).unwrap();
    // without the marks both are one state; version 2 stays version 2
    let plain = Table { states: table.states.iter().map(|x| x % 4).collect(), ..table.clone() };
    for version in [1, 2] {
        let b = Table { version, ..plain.clone() }.bytes();
        let (answer, map, out) = c.reduce(&b, 9, Room { list: short_words(&plain), map: n, out: b.len() });
        let length = answer.unwrap().length;
        assert_eq!((&map[..], &out[length - 2..length]), (&[0, 1, 2, 2][..], &[version as u8, 0][..]));
    }
    // the same mark on both: joined, and the class has it; marks of joined states that are not accepting; initial is not compared
    let both = Table { states: vec![3, 0, 2 + 4 * 15, 2 + 4 * 15], ..table.clone() };
    let (_, _, out) = c.reduce(&both.bytes(), 9, Room { list: short_words(&both), map: n, out: 90 });
    assert_eq!(out[4..7], [3, 0, 62]);
    let silent = |states: &[u8]| Table { version: 2, ..silent(states) };
    for (states, map, answer) in [(&[5, 4][..], &[0, 0][..], Ok(1)), (&[5, 0], &[0, 0], Err(17)), (&[5, 8], &[0, 0], Err(17)), (&[7, 4], &[0, 0], Err(17)), (&[63, 62], &[0, 0], Ok(1))] {
        let b = silent(states).bytes();
        assert_eq!(c.check(&b, map), answer);
        c.quotient(&b, map, 14).ok();
        c.clauses(&b, 4).ok();
    }
    // 2 by the whole number; 5 by the version's limit
    let file = |version: u16, state: u8| Table { version, ..silent(&[1, state]) }.bytes();
    for version in [0, 3, 4, 256, 257, 258, 512, 65_535] {
        assert_eq!(c.read(&file(version, 0)), Err(2));
    }
    for (version, state, answer) in [(1, 3, 0), (1, 4, 5), (1, 63, 5), (1, 64, 5), (2, 4, 0), (2, 63, 0), (2, 64, 5), (2, 255, 5)] {
        assert_eq!(c.read(&file(version, state)).err().unwrap_or(0), answer, "{version} {state}");
        assert_eq!(c.tops(&file(version, state)).err().unwrap_or(0), answer);
    }
    assert_eq!(c.read(&silent(&[4, 8]).bytes()), Err(6));
    for turn in 0..30 {
        let some = small_table(r, turn);
        let table = random::marked(r, &some);
        let map = around_needs(c, &table, turn);
        for (number, map) in coarser(&table, &map).into_iter().take(2) {
            assert_eq!(c.check(&table.bytes(), &map), Err(number));
        }
    }
}

/// A line: a state, and its uses as 32 bits.
fn line(state: u8, uses: u32) -> Vec<u8> {
    [&[state][..], &uses.to_le_bytes()].concat()
}

/// Use counts: sums by class, the refusals in their order, and pseudo-random lines.
fn using(c: &mut Cases, r: &mut Random) {
    let b = t().bytes();
    let map = [0, 1, 1, 2];
    let lines = [line(1, 5), line(3, 0x0102_0304), line(2, u32::MAX), line(1, u32::MAX), line(0, 0)].concat();
    let (sums, total) = c.uses(&b, &map, &lines).unwrap();
    assert_eq!((&sums[..4], total), (&[0, 5 + 2 * u64::from(u32::MAX), 0x0102_0304, 0][..], 5 + 2 * u64::from(u32::MAX) + 0x0102_0304));
    let other = [line(0, 0), line(1, u32::MAX), line(1, 5), line(2, u32::MAX), line(3, 0x0102_0304)].concat();
    assert_eq!(c.uses(&b, &map, &other), Ok((sums, total)));
    assert_eq!(c.uses(&b, &map, &[]), Ok(([0; 40], 0)));
    assert_eq!(c.uses(&b, &map, &lines[1..]), Err(32));
    assert_eq!(c.uses(&b, &map, &line(4, 1)), Err(33));
    // state 3 is past the class count but not past the state count
    assert_eq!(c.uses(&b, &map, &line(3, 1)).unwrap().0[2], 1);
    assert_eq!(c.uses(&b, &map, &[line(4, 1), vec![0]].concat()), Err(32));
    assert_eq!(c.uses(&b, &[0, 1, 1, 1], &[9]), Err(17));
    assert_eq!(c.uses(&b, &[0, 1, 1], &line(9, 1)), Err(15));
    for (f, k) in faults().iter().zip(1..) {
        assert_eq!(c.uses(f, &map, &[9]), Err(k));
    }
    c.limits = Limits { states: 41, symbols: 1 };
    assert_eq!(c.uses(&[], &[9], &[9]), Err(39));
    c.limits = LARGEST;
    let (b, last) = (bare(40, 2), (0..40).collect::<Vec<u8>>());
    let all: Vec<u8> = (0..40).flat_map(|q| line(q, 1 << (q % 32))).collect();
    c.uses(&b, &last, &all).unwrap();
    c.limits = STANDARD;
    for turn in 0..40 {
        let table = small_table(r, turn);
        let (b, n) = (table.bytes(), table.count());
        let map = if turn % 4 == 0 { random::map(r, n) } else { (0..n as u8).collect() };
        c.uses(&b, &map, &random::lines(r, n)).ok();
    }
}

/// Two maps: one accepted, both, neither; fewer classes, the first when equal; the refusals in their order.
fn choosing(c: &mut Cases, r: &mut Random) {
    let b = t().bytes();
    let (good, apart, bad): ([u8; 4], [u8; 4], [u8; 4]) = ([0, 1, 1, 2], [0, 1, 2, 3], [0, 1, 1, 1]);
    let cases: [(&[u8], &[u8], Result<u8, u8>); 12] = [
        (&good, &bad, Ok(1)),
        (&bad, &good, Ok(2)),
        (&good, &apart, Ok(1)),
        (&apart, &good, Ok(2)),
        (&good, &good, Ok(1)),
        (&apart, &apart, Ok(1)),
        (&bad, &bad, Err(40)),
        (&[0, 1, 1, 2, 2], &apart, Ok(2)),
        (&[0, 1, 1, 2, 2], &[0, 1, 1], Err(40)),
        (&[], &good, Ok(2)),
        (&apart, &[], Ok(1)),
        (&[], &[], Err(40)),
    ];
    for (first, second, answer) in cases {
        assert_eq!(c.choose(&b, first, second), answer);
    }
    // equal classes, other maps: the first
    let b = not_transitive().bytes();
    assert_eq!(c.choose(&b, &[0, 1, 1, 2, 3], &[0, 1, 2, 2, 3]), Ok(1));
    assert_eq!(c.choose(&b, &[0, 1, 2, 2, 3], &[0, 1, 1, 2, 3]), Ok(1));
    for (f, k) in faults().iter().zip(1..) {
        assert_eq!(c.choose(f, &good, &apart), Err(k));
        assert_eq!(c.choose(f, &[], &[]), Err(k));
    }
    c.limits = Limits { states: 24, symbols: 0 };
    assert_eq!(c.choose(&[], &[], &[]), Err(39));
    assert_eq!(c.choose(&named::T, &good, &apart), Err(39));
    c.limits = STANDARD;
    for turn in 0..40 {
        let table = small_table(r, turn);
        let n = table.count();
        let maps = [random::map(r, n), random::map(r, n)];
        let apart: Vec<u8> = (0..n as u8).collect();
        c.choose(&table.bytes(), &maps[0], if turn % 2 == 0 { &maps[1] } else { &apart }).ok();
    }
}

/// Random tables from a seed: six loads stored whole, the edges of every count, the refusals in their order.
fn generating(c: &mut Cases, r: &mut Random) {
    let load = Load { seed: 1, states: 3, internals: 1, calls: 1, returns: 1, density: 20_000 };
    for (turn, seed) in [0, 1, 2, 77_777, 0x8000_0000, u32::MAX].into_iter().enumerate() {
        let b = c.generate(Load { seed, states: 2 + turn, ..load }, 600).unwrap();
        c.read(&b).unwrap();
        assert_eq!(c.generate(Load { seed, states: 2 + turn, ..load }, b.len()), Ok(b.clone()));
        assert_eq!(c.generate(Load { seed, states: 2 + turn, ..load }, b.len() - 1), Err(21));
    }
    let bare = Load { internals: 0, calls: 0, returns: 0, ..load };
    assert_eq!(c.generate(Load { states: 1, ..bare }, 13), Ok(silent(&[3]).bytes()));
    assert_eq!(c.generate(Load { states: 24, ..bare }, 40).map(|x| x.len()), Ok(36));
    // nothing is drawn with density 0, everything with 65,536
    assert_eq!(c.generate(Load { density: 0, ..load }, 40).map(|x| x.len()), Ok(18));
    assert_eq!(c.generate(Load { density: 65_536, ..load }, 200).map(|x| x.len()), Ok(18 + 27 + 27 + 108));
    for bad in [
        Load { states: 0, ..load },
        Load { states: 25, ..load },
        Load { internals: 31, ..load },
        Load { calls: 65_535, returns: 65_535, ..load },
        Load { density: 65_537, ..load },
        Load { density: u32::MAX, states: 0, ..load },
    ] {
        assert_eq!(c.generate(bad, 0), Err(35));
    }
    assert_eq!(c.generate(Load { internals: 30, density: 0, ..load }, 60).map(|x| x.len()), Ok(32 + 3 + 12));
    // 36 by the records that are present, before 21: 24 states make 576 possible internals a symbol
    let dense = Load { states: 24, internals: 2, calls: 0, returns: 0, ..load };
    assert_eq!(c.generate(Load { density: 65_536, ..dense }, 0), Err(36));
    assert_eq!(c.generate(Load { density: 40_000, ..dense }, 0), Err(21));
    assert_eq!(c.generate(Load { density: 65_536, internals: 0, calls: 2, ..dense }, 0), Err(36));
    assert_eq!(c.generate(Load { density: 65_536, internals: 0, returns: 1, ..dense }, 0), Err(36));
    c.limits = Limits { states: 0, symbols: 64 };
    assert_eq!(c.generate(Load { states: 0, ..load }, 0), Err(39));
    c.limits = LARGEST;
    c.generate(Load { states: 40, internals: 20, calls: 22, returns: 22, density: 2, ..load }, 500).unwrap();
    assert_eq!(c.generate(Load { states: 40, internals: 20, calls: 22, returns: 23, density: 2, ..load }, 500), Err(35));
    assert_eq!(c.generate(Load { states: 41, ..load }, 400), Err(35));
    c.limits = STANDARD;
    for _ in 0..40 {
        let mut load = random::load(r, STANDARD);
        for x in [&mut load.states, &mut load.internals, &mut load.calls, &mut load.returns] {
            *x = (*x).min(65_535);
        }
        c.generate(load, r.below(700)).ok();
    }
}

/// Scripts: T's, 64 and 65 open calls, a return on the empty stack before and behind other faults, one word a level instead of a set.
fn scripts(c: &mut Cases, r: &mut Random) {
    let b = t().bytes();
    let cases: [(&[u8], Result<bool, u8>); 10] = [
        (&[], Ok(false)),
        (&[1, 2], Ok(true)),
        (&[1, 0, 0, 2], Ok(true)),
        (&[1], Ok(false)),
        (&[0, 1, 2], Ok(false)),
        (&[1, 2, 1, 2], Ok(false)),
        (&[2], Ok(false)),
        (&[2, 3], Err(30)),
        (&[2, 0, 0, 255], Err(30)),
        (&[3], Err(30)),
    ];
    for (script, answer) in cases {
        assert_eq!(c.script(&b, script), answer, "{script:?}");
    }
    // the stack tells two runs apart that end in one state
    let apart = from_text("00 01 02 03 00 00 00 00 00 00 01 01 01 00 00 02 00 00 12 00 0f 00 0d 00 07 00 04 00 01 00");
    assert_eq!(c.script(&apart, &[0, 1, 2]), Ok(false));
    // one state that calls and returns: open as often as there are calls
    let nest = Table { version: 1, symbols: vec![1, 2, 0], states: vec![3], internals: vec![], calls: vec![[0, 0, 0]], returns: vec![[0, 1, 0, 0]] };
    let b = nest.bytes();
    let deep = |calls: usize, returns: usize| [vec![0; calls], vec![1; returns]].concat();
    assert_eq!(c.script(&b, &deep(64, 64)), Ok(true));
    assert_eq!(c.script(&b, &deep(64, 63)), Ok(false));
    assert_eq!(c.script(&b, &deep(65, 65)), Err(31));
    assert_eq!(c.script(&b, &[deep(64, 1), deep(1, 64)].concat()), Ok(true));
    assert_eq!(c.script(&b, &[deep(64, 1), deep(2, 65)].concat()), Err(31));
    assert_eq!(c.script(&b, &[vec![1], deep(65, 0)].concat()), Ok(false));
    assert_eq!(c.script(&b, &[deep(65, 0), vec![9]].concat()), Err(30));
    // 31 is judged by the kinds, whether or not a run is left
    assert_eq!(c.script(&b, &[vec![2], deep(65, 0)].concat()), Err(31));
    for (f, k) in faults().iter().zip(1..) {
        assert_eq!(c.script(f, &[9]), Err(k));
    }
    c.limits = Limits { states: 41, symbols: 64 };
    assert_eq!(c.script(&b, &[9]), Err(39));
    c.limits = STANDARD;
    let mut yes = 0;
    for turn in 0..200 {
        let table = small_table(r, turn % 5);
        let script = random::script(r, &table);
        yes += (c.script(&table.bytes(), &script) == Ok(true)) as usize;
    }
    assert!(yes > 10, "{yes} scripts accepted");
}

/// Where the records went: T, dead records that fold nothing, the refusals in their order.
fn going(c: &mut Cases, r: &mut Random) {
    let b = t().bytes();
    let map = [0, 1, 1, 2];
    assert_eq!(c.records(&b, &map, 5), Ok([5, 4, 1, 0]));
    assert_eq!(c.records(&b, &[0, 1, 2, 3], 7), Ok([5, 5, 0, 0]));
    assert_eq!(c.records(&b, &map, 4), Err(21));
    assert_eq!(c.records(&b, &[0, 1, 1, 1], 0), Err(17));
    assert_eq!(c.records(&b, &[0, 1, 1], 0), Err(15));
    // 20 before 21
    assert_eq!(c.records(&t_with_call([0, 1, 2]).bytes(), &map, 0), Err(20));
    // a dead return with the image of a later live one: dead, and the later one is kept
    let mut dead_first = t();
    dead_first.calls = vec![[0, 1, 2]];
    dead_first.returns = vec![[1, 2, 0, 3], [2, 2, 0, 3]];
    dead_first.internals = vec![];
    assert_eq!(c.records(&dead_first.bytes(), &map, 9), Ok([3, 2, 0, 1]));
    // a dead return behind a live one
    let b = unreachable_stack().bytes();
    assert_eq!(c.records(&b, &map, 9), Ok([6, 4, 1, 1]));
    for (f, k) in faults().iter().zip(1..) {
        assert_eq!(c.records(f, &map, 0), Err(k));
    }
    c.limits = Limits { states: 41, symbols: 64 };
    assert_eq!(c.records(&b, &map, 0), Err(39));
    c.limits = STANDARD;
    for turn in 0..40 {
        let table = small_table(r, turn);
        let (b, n) = (table.bytes(), table.count());
        let (mut map, mut out) = (vec![0; n], vec![0; b.len()]);
        reference::reduce(STANDARD, &b, 2000, &mut vec![0; 1_000_000], &mut map, &mut out).unwrap();
        let all = table.internals.len() + table.calls.len() + table.returns.len();
        c.records(&b, &map, all + turn % 3).unwrap();
        assert_eq!(c.records(&b, &map, all - 1), Err(21));
    }
}

/// Combinations: a table with itself, the refusals in their order, pseudo-random ones.
fn combining(c: &mut Cases, r: &mut Random) {
    let b = t().bytes();
    for (how, length, states) in [(How::Intersection, 65, 16), (How::Union, 55, 8)] {
        assert_eq!(c.combine(&b, &b, how, length + 3).map(|x| x.len()), Ok(length));
        assert_eq!(c.combine(&b, &b, how, length - 1), Err(21));
        for (f, k) in faults().iter().zip(1..) {
            assert_eq!(c.combine(f, &faults()[0], how, 0), Err(k));
            assert_eq!(c.combine(&b, f, how, 0), Err(k));
        }
        let mut other = t();
        other.symbols.push(0);
        assert_eq!(c.combine(&b, &other.bytes(), how, 0), Err(37));
        c.limits = Limits { states: states - 1, symbols: 64 };
        assert_eq!(c.combine(&b, &b, how, 0), Err(35));
        c.limits = Limits { states, symbols: 64 };
        assert_eq!(c.combine(&b, &b, how, length).map(|x| x.len()), Ok(length));
        c.limits = Limits { states: 41, symbols: 64 };
        assert_eq!(c.combine(&b, &b, how, 0), Err(39));
        c.limits = STANDARD;
        for _ in 0..20 {
            let (first, second) = random::two_tables(r, 4);
            c.combine(&first.bytes(), &second.bytes(), how, 900).ok();
        }
    }
    // one symbol that goes from everywhere to everywhere: 36 before 21
    let load = Load { seed: 1, states: 6, internals: 0, calls: 0, returns: 1, density: 65_536 };
    let all = reference::generated(STANDARD, load).unwrap().bytes();
    c.limits = Limits { states: 36, symbols: 64 };
    assert_eq!(c.combine(&all, &all, How::Intersection, 0), Err(36));
    c.limits = STANDARD;
}

/// Comparisons: a table with itself and with its quotient, the sink that no return leaves, the refusals in their order, pseudo-random ones.
fn fitting(c: &mut Cases, r: &mut Random) {
    let b = t().bytes();
    assert_eq!(c.fit(&b, &b), Ok(true));
    assert_eq!(c.fit(&b, &named::T_REDUCED), Ok(true));
    assert_eq!(c.fit(&named::T_REDUCED, &b), Ok(true));
    // every word of T is one of the table that accepts everything balanced, and not the other way round
    let all = Table { version: 1, symbols: vec![0, 1, 2], states: vec![3], internals: vec![[0, 0, 0]], calls: vec![[0, 1, 0]], returns: vec![[0, 2, 0, 0]] }.bytes();
    assert_eq!(c.fit(&b, &all), Ok(true));
    assert_eq!(c.fit(&all, &b), Ok(false));
    // stuck inside a call, the second does not come back with the return
    let mut stuck = reference::parse(STANDARD, &all).unwrap().0;
    stuck.internals.clear();
    assert_eq!(c.fit(&all, &stuck.bytes()), Ok(false));
    assert_eq!(c.fit(&stuck.bytes(), &all), Ok(true));
    let inside = Table { version: 1, symbols: vec![0, 1, 2], states: vec![3, 0], internals: vec![[1, 0, 1]], calls: vec![[0, 1, 1]], returns: vec![[1, 2, 0, 0]] };
    let mut none = inside.clone();
    none.internals.clear();
    assert_eq!(c.fit(&inside.bytes(), &none.bytes()), Ok(false));
    assert_eq!(c.fit(&none.bytes(), &inside.bytes()), Ok(true));
    // an open call is no word
    let mut open = t();
    open.states[1] = 2;
    assert_eq!(c.fit(&open.bytes(), &b), Ok(true));
    // 37, 38: two initial states, two targets, a dead record among them
    let mut other = t();
    other.symbols.push(0);
    assert_eq!(c.fit(&b, &other.bytes()), Err(37));
    let mut swapped = t();
    swapped.symbols = vec![0, 0, 2];
    swapped.calls.clear();
    assert_eq!(c.fit(&b, &swapped.bytes()), Err(37));
    let mut two = t();
    two.states[1] = 1;
    assert_eq!(c.fit(&b, &two.bytes()), Err(38));
    assert_eq!(c.fit(&two.bytes(), &b), Ok(true));
    assert_eq!(c.fit(&b, &t_with_call([0, 1, 2]).bytes()), Err(38));
    assert_eq!(c.fit(&t_with_call([0, 1, 2]).bytes(), &b), Ok(true));
    let mut dead = t_with_return([2, 2, 0, 0]);
    dead.returns.push([2, 2, 0, 1]);
    assert_eq!(c.fit(&b, &dead.bytes()), Err(38));
    for (f, k) in faults().iter().zip(1..) {
        assert_eq!(c.fit(f, &dead.bytes()), Err(k));
        assert_eq!(c.fit(f, &faults()[0]), Err(k));
        assert_eq!(c.fit(&b, f), Err(k));
    }
    // always at 24 and 32
    c.limits = LARGEST;
    assert_eq!(c.fit(&bare(25, 1), &b), Err(4));
    assert_eq!(c.fit(&b, &bare(3, 33)), Err(4));
    c.limits = STANDARD;
    for _ in 0..80 {
        let (first, second) = random::two_tables(r, 4);
        c.fit(&first.bytes(), &second.bytes()).ok();
    }
}

/// Seasons: shared guesses, refused tables in every place, short buffers, lengths that do not add up.
fn seasons(c: &mut Cases, r: &mut Random) {
    let b = t().bytes();
    let three = [&b[..], &b, &b].concat();
    let ample = Room { list: 30, map: 14, out: 110 };
    let answer = c.season(&three, &[35, 35, 35], 3, ample).unwrap();
    assert_eq!(answer[2], [0, 3, 1, 24, 31, 1, 1, 0]);
    assert_eq!(answer[3], [0; 8]);
    // the remainder of the division is nobody's: two guesses among three tables are none each
    let answer = c.season(&three, &[35, 35, 35], 2, ample).unwrap();
    assert_eq!(answer[0], [0, 4, 0, 24, 35, 0, 1, 1]);
    // what the first leaves, the second may use
    let mut plain = silent(&[1, 2]).bytes();
    let two = [&plain[..], &two_undone().bytes()].concat();
    let lengths = [plain.len() as u64, (two.len() - plain.len()) as u64];
    let room = Room { list: short_words(&two_undone()), map: 10, out: 120 };
    for (guesses, spent) in [(6, 0), (5, 1), (7, 0)] {
        assert_eq!(c.season(&two, &lengths, guesses, room).unwrap()[1][7], spent);
    }
    // a refused table writes nothing, counts as no guesses, and the rest go on at its place
    plain[0] = 9;
    let refused = [&plain[..], &b, &b[..20], &b].concat();
    let answer = c.season(&refused, &[plain.len() as u64, 35, 20, 35], 4, ample).unwrap();
    assert_eq!([0, 1, 2, 3].map(|i| answer[i][0]), [5, 0, 2, 0]);
    // buffers that the first uses up: 22, 21, 10
    assert_eq!(c.season(&three, &[35, 35, 35], 9, Room { map: 7, ..ample }).unwrap().map(|x| x[0])[..3], [0, 22, 22]);
    assert_eq!(c.season(&three, &[35, 35, 35], 9, Room { out: 61, ..ample }).unwrap().map(|x| x[0])[..3], [0, 21, 21]);
    assert_eq!(c.season(&three, &[35, 35, 35], 9, Room { list: 23, ..ample }).unwrap().map(|x| x[0])[..3], [10, 10, 10]);
    // a table that is refused by 21 after its search passes its guesses on
    let hard = [&two_undone().bytes()[..], &two_undone().bytes()].concat();
    let half = hard.len() as u64 / 2;
    let answer = c.season(&hard, &[half, half], 6, Room { list: room.list, map: 16, out: 10 }).unwrap();
    assert_eq!((answer[0][0], answer[1][0]), (21, 21));
    for (lengths, number) in [
        (&[][..], 34),
        (&[35, 35][..], 34),
        (&[35, 35, 36][..], 34),
        (&[35, 35, 35, 1][..], 34),
        (&[105, u64::MAX, 1][..], 34),
        (&[u64::MAX, 106][..], 34),
        (&[35, 35, 35, 0, 0, 0, 0, 0, 0][..], 34),
    ] {
        assert_eq!(c.season(&three, lengths, 3, ample), Err(number));
    }
    // a length of 0 adds up and gets 1; eight tables
    let answer = c.season(&three, &[0, 35, 0, 35, 0, 35, 0, 0], 8, ample).unwrap();
    assert_eq!(answer.map(|x| x[0]), [1, 0, 1, 0, 1, 0, 1, 1]);
    assert_eq!(c.season(&[], &[], 3, ample), Err(34));
    assert_eq!(c.season(&[], &[0], 3, ample).unwrap()[0], [1, 0, 0, 0, 0, 0, 0, 0]);
    c.limits = Limits { states: 0, symbols: 1 };
    assert_eq!(c.season(&[], &[], 3, ample), Err(39));
    c.limits = STANDARD;
    for turn in 0..12 {
        let (tables, lengths) = random::season(r, 5);
        c.season(&tables, &lengths, r.below(12) as u64, Room { list: 300, map: 20 + turn, out: 200 }).ok();
    }
}

/// Writes the cases and their lines.
fn main() {
    let root = std::env::args().nth(1).expect("the repository's folder");
    let mut c = Cases::new();
    let mut r = Random::new(1);
    reading(&mut c, &mut r);
    searching(&mut c, &mut r);
    reading_limits(&mut c);
    marked(&mut c);
    edges(&mut c);
    refused_maps(&mut c);
    tempting(&mut c);
    corners(&mut c);
    undone_guesses(&mut c);
    spent_budgets(&mut c);
    not_the_most(&mut c);
    random_tables(&mut c, &mut r);
    large_tables(&mut c, &mut r);
    without_transitivity(&mut c);
    no_limits(&mut c);
    at_limits(&mut c);
    state_24(&mut c);
    reduced_within(&mut c, &mut r);
    using(&mut c, &mut r);
    choosing(&mut c, &mut r);
    marks(&mut c, &mut r);
    fitting(&mut c, &mut r);
    going(&mut c, &mut r);
    scripts(&mut c, &mut r);
    generating(&mut c, &mut r);
    seasons(&mut c, &mut r);
    combining(&mut c, &mut r);
    println!("cases of the operations by number: {:?}; {} bytes", &c.counts[1..], c.input.len() + c.output.len());
    std::fs::write(format!("{root}/crates/cases/stdin"), &c.input).unwrap();
    std::fs::write(format!("{root}/crates/cases/stdout"), &c.output).unwrap();
}
