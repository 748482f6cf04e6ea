//! Chains against the written list, by a propagation of their own.

use super::clause::Source;
use super::*;

/// The guesses of a reduction, as many as the program makes.
const BUDGET: u64 = 100_000;
use crate::model::Table;
use crate::samples::{self, example};
use basilvault::Load;

/// The written list of a table, clause by clause.
fn list(limits: Limits, bytes: &[u8]) -> Vec<Vec<u16>> {
    let counts = basilvault::read_within(limits, bytes).expect("a readable table").counts(bytes.len());
    let mut words = vec![0; counts.most_words()];
    let listed = basilvault::clauses_within(limits, bytes, &mut words).expect("room for every list");
    let mut clauses = Vec::new();
    let mut at = 0;
    while at < listed.words {
        let end = at + 1 + usize::from(words[at]);
        clauses.push(words[at + 1..end].to_vec());
        at = end;
    }
    assert_eq!(clauses.len(), listed.clauses);
    clauses
}

/// Whether a chain refutes what it assumes, every clause in its place: all literals but the forced one are false already.
fn refutes(chain: &Chain) -> bool {
    let mut right = chain.assumed.clone();
    for (clause, forces) in &chain.steps {
        let others = clause.iter().filter(|literal| Some(**literal) != *forces);
        if !others.clone().all(|literal| right.contains(&(literal ^ 1))) || forces.is_some_and(|literal| !clause.contains(&literal)) {
            return false;
        }
        right.extend(forces);
    }
    chain.steps.last().is_some_and(|(_, forces)| forces.is_none()) && chain.steps.iter().filter(|(_, forces)| forces.is_none()).count() == 1
}

/// Whether chains as a whole show that a pair is apart: each but the last gives the opposite of one more literal that it assumes.
fn shows(chains: &[Chain], given: &[u16]) -> bool {
    let mut known = given.to_vec();
    for chain in chains {
        let more: Vec<u16> = chain.assumed.iter().copied().filter(|literal| !known.contains(literal)).collect();
        match more[..] {
            _ if !refutes(chain) => return false,
            [] => return true,
            [literal] => known.push(literal ^ 1),
            _ => return false,
        }
    }
    false
}

/// How a pair was answered.
#[derive(Clone, Copy, Debug, PartialEq, Eq, Hash)]
enum How {
    Chain,
    Cases,
    Search,
    Alone,
    Joined,
}

/// Asks for a pair and checks all that is answered.
fn ask(limits: Limits, bytes: &[u8], p: u8, q: u8) -> How {
    let table = samples::table(bytes);
    let answer = why(limits, bytes, &Names::numbered(&table), (p, q), BUDGET, Of::Reduce).expect("a readable table");
    let (written, goal) = (list(limits, bytes), 2 * clause::variable(p, q));
    for (clause, _) in answer.chains.iter().flat_map(|chain| &chain.steps) {
        assert!(written.contains(clause), "{clause:?} is not in the list");
    }
    assert!(!answer.text.contains("A clause of the list"), "{}", answer.text);
    let words: Vec<u16> = written.iter().flat_map(|clause| std::iter::once(clause.len() as u16).chain(clause.clone())).chain([1, goal]).collect();
    let variables = table.states.len() * (table.states.len() - 1) / 2;
    let possible = basilvault::search_within(limits, &words, variables, BUDGET, &mut vec![0; variables]).is_ok();
    let how = match (answer.joined, possible, answer.chains.len()) {
        (true, _, _) => How::Joined,
        (_, true, _) => How::Alone,
        (_, _, 0) => How::Search,
        (_, _, 1) => How::Chain,
        _ => How::Cases,
    };
    match how {
        How::Chain | How::Cases => assert!(shows(&answer.chains, &[goal]), "{p} {q}: {}", answer.text),
        How::Alone => assert!(answer.chains.iter().all(|chain| refutes(chain) && chain.assumed.len() > 1), "{}", answer.text),
        How::Joined => assert!(possible && answer.chains.is_empty()),
        How::Search => (),
    }
    how
}

/// Asks for every pair of a table.
fn ask_all(limits: Limits, bytes: &[u8]) -> Vec<How> {
    let states = samples::table(bytes).states.len() as u8;
    (0..states).flat_map(|q| (0..q).map(move |p| (p, q))).map(|(p, q)| ask(limits, bytes, p, q)).collect()
}

/// A clause by the rules of `docs/SCOPE.md`: pairs that are false, then a target that is joined with one of others. None where it is left out.
fn by_rule(apart: &[(u8, u8)], target: u8, others: impl Iterator<Item = u8>) -> Option<Vec<u16>> {
    let mut clause: Vec<u16> = apart.iter().filter(|(p, q)| p != q).map(|(p, q)| 2 * clause::variable(*p, *q) + 1).collect();
    for other in others {
        if other == target {
            return None;
        }
        clause.push(2 * clause::variable(target, other));
    }
    let mut once: Vec<u16> = Vec::new();
    clause.iter().for_each(|literal| {
        if !once.contains(literal) {
            once.push(*literal)
        }
    });
    (!once.iter().any(|literal| once.contains(&(literal ^ 1)))).then_some(once)
}

/// Groups 3 to 5 of the list with where each clause comes from.
fn groups(table: &Table, tops: &basilvault::Tops) -> Vec<(Vec<u16>, Source)> {
    let states = 0..table.states.len() as u8;
    let top = |q: u8, u: u8| tops.words[usize::from(q)] >> u & 1 == 1;
    let mut all = Vec::new();
    for section in [&table.internals, &table.calls] {
        for (&record, q) in section.iter().flat_map(|record| states.clone().map(move |q| (record, q))).filter(|(record, q)| record[0] != *q) {
            let others = section.iter().filter(|other| other[..2] == [q, record[1]]).map(|other| other[2]);
            all.extend(by_rule(&[(record[0], q)], record[2], others).map(|clause| (clause, Source::Move { record, q })));
        }
    }
    for &record in table.returns.iter().filter(|record| top(record[0], record[2])) {
        for (q, u) in
            states.clone().flat_map(|q| states.clone().map(move |u| (q, u))).filter(|(q, u)| top(*q, *u) && (*q, *u) != (record[0], record[2]))
        {
            let others = table.returns.iter().filter(|other| other[..3] == [q, record[1], u]).map(|other| other[3]);
            all.extend(by_rule(&[(record[0], q), (record[2], u)], record[3], others).map(|clause| (clause, Source::Return { record, q, u })));
        }
    }
    all
}

#[test]
fn every_clause_has_its_source() {
    for seed in 0..40 {
        let bytes = samples::random(Load { seed, states: 2 + seed as usize % 4, internals: 1, calls: 1, returns: 1, density: 9_000 + 700 * seed });
        let (table, tops) = (samples::table(&bytes), basilvault::tops(&bytes).expect("a readable table"));
        let (written, groups) = (list(Limits::STANDARD, &bytes), groups(&table, &tops));
        let behind: Vec<Vec<u16>> = groups.iter().map(|(clause, _)| clause.clone()).collect();
        assert!(written.ends_with(&behind), "the list is as the rules say");
        let sources = clause::Sources { table: &table, tops: &tops };
        for clause in &written[written.len() - behind.len()..] {
            let source = sources.source(clause).expect("a source");
            let plain = matches!(source, Source::Differ { .. } | Source::Transitive { .. });
            let equal = |other: &[u16]| clause.iter().all(|literal| other.contains(literal)) && other.len() == clause.len();
            let same = |(other, from): &(Vec<u16>, Source)| *from == source && equal(other);
            assert!(plain || groups.iter().any(same), "{clause:?} {source:?}");
        }
        assert!(written[..written.len() - behind.len()].iter().all(|clause| sources.source(clause).is_some()));
    }
}

#[test]
fn random_tables() {
    let mut seen = std::collections::HashMap::new();
    for seed in 0..60 {
        let bytes = samples::random(Load { seed, states: 3 + seed as usize % 4, internals: 1, calls: 1, returns: 1, density: 4_000 + 300 * seed });
        ask_all(Limits::STANDARD, &bytes).into_iter().for_each(|how| *seen.entry(how).or_insert(0) += 1);
    }
    assert!(seen[&How::Chain] > 100 && seen[&How::Joined] > 10, "{seen:?}");
}

#[test]
fn example_tables() {
    let mut seen = std::collections::HashMap::new();
    let plain = ["t", "atlas", "named_located", "unreachable_stack", "not_transitive", "joined_stack_symbols", "fewer_pairs", "more_classes"];
    for name in plain.into_iter().chain(["two_undone", "hard-12"]) {
        ask_all(Limits::LARGEST, &example(name)).into_iter().for_each(|how| *seen.entry((name, how)).or_insert(0) += 1);
    }
    assert_eq!(seen[&("not_transitive", How::Alone)], 1, "{seen:?}");
    assert_eq!([seen[&("two_undone", How::Cases)], seen[&("hard-12", How::Cases)]], [1, 1], "{seen:?}");
    assert!(seen.keys().all(|(_, how)| *how != How::Search), "{seen:?}");
}

/// What is said of two states of an example, whose symbols and states get these names.
fn said(name: &str, symbols: &[&str], states: &[&str], p: u8, q: u8) -> (bool, String) {
    let own = |names: &[&str]| names.iter().map(|name| name.to_string()).collect();
    let mut names = Names { symbols: own(symbols), states: own(states), ..Names::default() };
    names.marks[1] = Some("named".into());
    let answer = why(Limits::STANDARD, &example(name), &names, (p, q), BUDGET, Of::Reduce).expect("a readable table");
    (answer.joined, answer.text)
}

#[test]
fn reasons_in_words() {
    let t = |p, q| said("t", &["pan", "country", "close"], &["start", "inside", "lost", "end"], p, q);
    assert_eq!(
        t(0, 1),
        (false, "start and inside cannot be joined:\n  1. start takes the call country to inside, inside has no call country.\n".into())
    );
    assert_eq!(t(3, 0), (false, "end and start cannot be joined:\n  1. end is accepting, start is not.\n".into()));
    assert_eq!(t(2, 2), (true, "lost is one state: there is nothing to join.\n".into()));
    let joined = "inside and lost are joined by reduce. Their moves match:\n\
                  \x20 pan: inside goes to inside, lost to lost; these are joined.\n\
                  \x20 close over start: inside goes to end; lost is never above start, so it needs no match.\n";
    assert_eq!(t(1, 2), (true, joined.into()));
    let marks = said("named_located", &["name", "locate", "place", "close"], &["a", "b", "c", "d"], 2, 3);
    assert_eq!(marks, (false, "c and d cannot be joined:\n  1. c has mark named, d has mark 2.\n".into()));
    let alone = said("not_transitive", &["pan", "country", "close", "place"], &["a", "b", "c", "d", "e"], 2, 3).1;
    let expected = "c and d could be joined, but reduce joins others in their place. With those joined and these two as well:\n\
                    \x20 1. b and c are joined by reduce. With that b and d would be joined too.\n\
                    \x20 2. b takes the return close over a to e; d, which can be above a too, has no return close over a.\n\
                    In a map that joins c and d their moves would match:\n\
                    \x20 pan: c goes to c, d to d; these are joined.\n";
    assert_eq!(alone, expected);
}

#[test]
fn cases_in_words() {
    let states: Vec<String> = (0..8).map(|q| format!("q{q}")).collect();
    let text = said("two_undone", &["i", "j", "k", "l", "c", "r"], &states.iter().map(String::as_str).collect::<Vec<_>>(), 0, 1).1;
    let expected = "q0 and q1 cannot be joined, but no single chain shows it. Suppose that they are joined.\n\
                    Were q5 and q6 joined as well:\n\
                    \x20 1. q0 takes i to q2, q1 to q3 or q4: q2 would have to be joined with one of these.\n\
                    \x20   2. q2 and q3 cannot be joined: q2 takes k to q6, q3 to q7: q6 and q7 would have to be joined.\n\
                    \x20   3. q5 and q6 are joined, as supposed. With that q5 and q7 would be joined too.\n\
                    \x20   4. q5 takes the return r over q0 to q0; q7, which can be above q0 too, has no return r over q0.\n\
                    \x20   5. q2 and q4 cannot be joined: q2 takes k to q6, q4 to q7: q6 and q7 would have to be joined.\n\
                    \x20   But q6 and q7 cannot be joined: step 3.\n\
                    So q5 and q6 are apart then.\n\
                    And with that:\n\
                    \x20 6. q0 takes i to q2, q1 to q3 or q4: q2 would have to be joined with one of these.\n\
                    \x20   7. q2 and q3 cannot be joined: q2 takes j to q5, q3 to q6: q5 and q6 would have to be joined.\n\
                    \x20   But q5 and q6 are apart, as shown above.\n\
                    \x20   8. q2 and q4 cannot be joined: q2 takes j to q5, q4 to q6: q5 and q6 would have to be joined.\n\
                    \x20   But q5 and q6 are apart, as shown above.\n";
    assert_eq!(text, expected);
}

#[test]
fn what_no_chain_shows() {
    let bytes = example("t");
    let names = Names::numbered(&samples::table(&bytes));
    let asked = decide::Asked::new(Limits::STANDARD, &bytes, &names, BUDGET, Of::Reduce).expect("a readable table");
    assert!(text::cases(&asked, (0, 1), &[]).starts_with("q0 and q1 cannot be joined: the search has tried every way and found none."));
    let names = Names::numbered(&samples::table(&example("spent-24")));
    let spent = why(Limits::STANDARD, &example("spent-24"), &names, (4, 9), BUDGET, Of::Reduce).expect("a readable table");
    assert!(
        !spent.joined && spent.chains.is_empty() && spent.text.contains("the guesses were spent before the search came to them"),
        "{}",
        spent.text
    );
}

#[test]
fn refusals_are_handed_on() {
    assert_eq!(why(Limits::STANDARD, &example("damaged"), &Names::default(), (0, 1), BUDGET, Of::Reduce), Err(Refusal::Order));
}

/// How many moves tell two states apart in a table of internals without choice: one more than to where one has a move, or accepts, and the other does not.
fn distances(table: &Table) -> Vec<Vec<usize>> {
    let states = table.states.len();
    let symbols = table.symbols.len() as u8;
    let go = |q: usize, a: u8| table.internals.iter().find(|record| record[..2] == [q as u8, a]).map(|record| usize::from(record[2]));
    let mut far = vec![vec![usize::MAX; states]; states];
    for _ in 0..states * states {
        for p in 0..states {
            for q in 0..states {
                let step = |a: u8| match (go(p, a), go(q, a)) {
                    (Some(x), Some(y)) => far[x][y].saturating_add(1),
                    (None, None) => usize::MAX,
                    _ => 1,
                };
                let differ = if table.states[p].accepting != table.states[q].accepting { 1 } else { usize::MAX };
                far[p][q] = (0..symbols).map(step).min().unwrap_or(usize::MAX).min(differ);
            }
        }
    }
    far
}

#[test]
fn chains_are_short() {
    let (mut longest, mut asked) = (0, 0);
    for seed in 0..80 {
        let mut table = samples::table(&samples::random(Load { seed, states: 9, internals: 2, calls: 0, returns: 0, density: 20_000 }));
        table.internals.dedup_by_key(|record| [record[0], record[1]]);
        let far = distances(&table);
        for (p, q) in (0..9u8).flat_map(|q| (0..q).map(move |p| (p, q))) {
            let answer = why(Limits::STANDARD, &table.to_bytes(), &Names::numbered(&table), (p, q), BUDGET, Of::Reduce).expect("a readable table");
            let [chain] = &answer.chains[..] else { continue };
            let direct = chain.steps.iter().all(|(clause, _)| clause.len() < 3);
            let shortest = far[usize::from(p)][usize::from(q)];
            assert!(chain.steps.len() == shortest || !direct && chain.steps.len() < shortest, "{seed} {p} {q}: {shortest}\n{}", answer.text);
            (longest, asked) = (longest.max(shortest), asked + 1);
        }
    }
    assert!(longest > 3 && asked > 500, "{longest} {asked}");
}
