//! Compares the proved library with the plain implementation on random cases: answers, counts and every byte of every buffer.
//! `basilvault-tests [CASES] [SEED]`

use basilvault::raw::{self, Values};
use basilvault::{Counts as TableCounts, How, Reduced, Refusal};
use basilvault_tests::flat;
use basilvault_tests::random::{self, Random};
use basilvault_tests::reference::{self, Configuration, Delivery, LARGEST, Limits, Load, STANDARD, Table};
use std::collections::BTreeSet;
use std::io::Write;
use std::process::{Command, Stdio};

/// What was compared: an operation with its number, or another comparison.
struct Counts(std::collections::BTreeMap<(String, u8), usize>);

impl Counts {
    fn add<T>(&mut self, name: &str, answer: Result<T, u8>) {
        *self.0.entry((name.to_string(), answer.err().unwrap_or(0))).or_default() += 1;
    }
}

/// The numbers that each operation can give, 0 for none: a run of many cases must have met each of them.
const NUMBERS: [(&str, &[u8]); 33] = [
    ("read", &[0, 39, 1, 2, 3, 4, 5, 6, 7, 8]),
    ("tops", &[0, 39, 2, 3, 5, 7, 8]),
    ("clauses", &[0, 39, 3, 5, 7, 8, 10]),
    ("search", &[0, 39, 11, 12, 13, 14]),
    ("check", &[0, 39, 3, 7, 8, 15, 16, 17, 18, 19, 20]),
    ("quotient", &[0, 39, 3, 7, 8, 15, 16, 17, 18, 19, 20, 21]),
    ("reduce", &[0, 39, 3, 7, 8, 10, 21, 22]),
    ("uses", &[0, 39, 3, 7, 8, 15, 16, 17, 18, 19, 20, 32, 33]),
    ("choose", &[0, 39, 3, 7, 8, 40]),
    ("fit", &[0, 3, 7, 8, 37, 38]),
    ("fit: no", &[0]),
    ("fit: yes", &[0]),
    ("intersection", &[0, 39, 3, 37, 35, 36, 21]),
    ("union", &[0, 39, 3, 37, 35, 36, 21]),
    ("combined, accepted by both", &[0]),
    ("combined, accepted by one", &[0]),
    ("the first map chosen", &[0]),
    ("the second map chosen", &[0]),
    ("records", &[0, 39, 3, 7, 8, 15, 16, 17, 18, 19, 20, 21]),
    ("records, some folded and some dead", &[0]),
    ("script", &[0, 39, 3, 7, 8, 30, 31]),
    ("script: no", &[0]),
    ("script: yes", &[0]),
    ("script, on table and reduced table", &[0, 30, 31]),
    ("generate", &[0, 39, 35, 36, 21]),
    ("season", &[0, 39, 34]),
    ("season, a table", &[0, 3, 7, 8, 10, 21, 22]),
    ("season, a table spent", &[0]),
    ("reduce, spent", &[0]),
    ("reduce, spent with pairs joined", &[0]),
    ("words of input and quotient", &[0]),
    ("runs of more than two steps", &[0]),
    ("every map of a small table", &[0]),
];

fn same<T: PartialEq + std::fmt::Debug>(what: &str, table: &[u8], ours: T, theirs: T) {
    if ours != theirs {
        panic!("{what} differs\n library:   {ours:?}\n reference: {theirs:?}\n input: {table:02x?}");
    }
}

/// How an operation is called at these limits: with them, and at the standard ones without them too.
fn ways(l: Limits) -> &'static [bool] {
    if l == STANDARD { &[true, false] } else { &[true] }
}

/// A buffer length around what is needed: shorter, equal, longer, or none.
fn around(r: &mut Random, need: usize) -> usize {
    match r.below(5) {
        0 => need.saturating_sub(1 + r.below(3)),
        1 => need,
        2 => 0,
        _ => need + r.below(40),
    }
}

fn compare_read(l: Limits, b: &[u8], c: &mut Counts) {
    let theirs = reference::read(l, b).map(|s| s.map(|x| x as u64));
    for &within in ways(l) {
        same("read", b, flat(if within { basilvault::read_within(l, b) } else { basilvault::read(b) }), theirs);
    }
    c.add("read", theirs);
}

fn compare_tops(l: Limits, b: &[u8], c: &mut Counts) {
    let theirs = reference::tops(l, b).map(|(w, k)| {
        let mut v = [0u64; 41];
        w.iter().enumerate().for_each(|(i, &x)| v[i] = x);
        v[40] = k as u64;
        v
    });
    for &within in ways(l) {
        same("tops", b, flat(if within { basilvault::tops_within(l, b) } else { basilvault::tops(b) }), theirs);
    }
    c.add("tops", theirs);
}

fn compare_clauses(r: &mut Random, l: Limits, b: &[u8], c: &mut Counts) {
    let need = reference::parse(l, b).map(|(t, _)| reference::words_of(&reference::clause_list(&t)).len()).unwrap_or(9);
    let fresh = vec![0xbeefu16; around(r, need)];
    let mut theirs = fresh.clone();
    let e = reference::clauses(l, b, &mut theirs).map(|(x, y)| [x as u64, y as u64]);
    for &within in ways(l) {
        let mut ours = fresh.clone();
        let a = flat(if within { basilvault::clauses_within(l, b, &mut ours) } else { basilvault::clauses(b, &mut ours) });
        same("clauses", b, (a, &ours), (e, &theirs));
    }
    c.add("clauses", e);
    if let Ok((t, _)) = reference::parse(l, b) {
        let counts = basilvault::read_within(l, b).expect("a readable table").counts(b.len());
        let [internals, calls, returns] = [t.internals.len(), t.calls.len(), t.returns.len()];
        assert_eq!(counts, TableCounts { symbols: t.symbols.len(), states: t.count(), internals, calls, returns });
        assert!(need <= counts.most_words(), "{need} clause words of {t:?}");
        let short = reference::words_of(&reference::short_list(&t)).len();
        assert!(short <= counts.most_short_words(), "{short} clause words without transitivity of {t:?}");
    }
}

fn compare_search(r: &mut Random, l: Limits, words: &[u16], variables: usize, budget: u64, c: &mut Counts) {
    let fresh = vec![0x77u8; around(r, variables)];
    let mut theirs = fresh.clone();
    let e = reference::search(l, words, variables, budget, &mut theirs).map(|k| [k]);
    for &within in ways(l) {
        let mut ours = fresh.clone();
        let a = flat(if within { basilvault::search_within(l, words, variables, budget, &mut ours) } else { basilvault::search(words, variables, budget, &mut ours) });
        if (a, &ours) != (e, &theirs) {
            panic!("search differs: {a:?} {ours:?} against {e:?} {theirs:?}; variables {variables}, budget {budget}, words {words:?}");
        }
    }
    c.add("search", e);
}

fn compare_map(r: &mut Random, l: Limits, b: &[u8], m: &[u8], c: &mut Counts) {
    let e = reference::check(l, b, m).map(|k| [k as u64]);
    for &within in ways(l) {
        same("check", b, flat(if within { basilvault::check_within(l, b, m) } else { basilvault::check(b, m) }), e);
    }
    c.add("check", e);
    let need = match (reference::parse(l, b), e) {
        (Ok((t, _)), Ok(_)) => {
            let small = reference::quotient_table(&t, m);
            if t.count() <= 8 {
                compare_steps(r, &t, m, &small, c);
            }
            small.bytes().len()
        }
        _ => b.len(),
    };
    let fresh = vec![0x55u8; around(r, need)];
    let mut theirs = fresh.clone();
    let e = reference::quotient(l, b, m, &mut theirs).map(|k| [k as u64]);
    for &within in ways(l) {
        let mut ours = fresh.clone();
        let a = flat(if within { basilvault::quotient_within(l, b, m, &mut ours) } else { basilvault::quotient(b, m, &mut ours) });
        same("quotient", b, (a, &ours), (e, &theirs));
    }
    c.add("quotient", e);
}

fn compare_uses(r: &mut Random, l: Limits, b: &[u8], m: &[u8], lines: &[u8], c: &mut Counts) {
    let e = reference::uses(l, b, m, lines).map(|(sums, total)| {
        let mut v = [total; 41];
        v[..40].copy_from_slice(&sums);
        v
    });
    for &within in ways(l) {
        same("uses", b, flat(if within { basilvault::uses_within(l, b, m, lines) } else { basilvault::uses(b, m, lines) }), e);
    }
    c.add("uses", e);
    // the lines in another order
    let mut turned: Vec<&[u8]> = lines.chunks_exact(5).collect();
    let k = r.below(turned.len() + 1);
    turned.rotate_left(k);
    if lines.len() % 5 == 0 {
        same("uses in another order", b, flat(basilvault::uses_within(l, b, m, &turned.concat())), e);
    }
}

fn compare_choose(l: Limits, b: &[u8], first: &[u8], second: &[u8], c: &mut Counts) {
    let e = reference::choose(l, b, first, second).map(|which| [u64::from(which)]);
    // the lent map itself, not one with the same bytes
    let which = |map: &[u8]| [first, second].iter().position(|lent| std::ptr::eq(*lent, map)).map_or(0, |i| i as u64 + 1);
    for &within in ways(l) {
        let a = if within { basilvault::choose_within(l, b, first, second) } else { basilvault::choose(b, first, second) };
        same("choose", b, flat(a.map(which)), e);
    }
    c.add("choose", e);
    if let Ok([which]) = e {
        c.add(["the first map chosen", "the second map chosen"][which as usize - 1], Ok(()));
    }
}

fn compare_generate(r: &mut Random, l: Limits, load: Load, c: &mut Counts) {
    let need = reference::generated(l, load).map_or(9, |t| t.bytes().len());
    let fresh = vec![0x33u8; around(r, need)];
    let mut theirs = fresh.clone();
    let e = reference::generate(l, load, &mut theirs).map(|k| [k as u64]);
    for &within in ways(l) {
        let mut ours = fresh.clone();
        let a = flat(if within { basilvault::generate_within(l, load, &mut ours) } else { basilvault::generate(load, &mut ours) });
        assert!((a, &ours) == (e, &theirs), "generate differs: {a:?} against {e:?} for {load:?} at {l:?}");
    }
    c.add("generate", e);
}

/// A table of a load of the library's own making, of two to so many states.
fn generated(r: &mut Random, most: usize) -> Table {
    let states = 2 + r.below(most - 1);
    let [internals, calls, returns] = [0; 3].map(|_| r.below(3));
    let load = Load { seed: r.next() as u32, states, internals, calls, returns, density: (1 + r.below(4)) as u32 * 10_000 / states as u32 };
    let mut out = vec![0; 22_644];
    let length = basilvault::generate_within(LARGEST, load, &mut out).expect("few records");
    reference::parse(LARGEST, &out[..length]).expect("a generated table is readable").0
}

/// Two tables with one list of symbols, mostly, for a combination at limits.
fn to_combine(r: &mut Random, l: Limits) -> [Table; 2] {
    if r.chance(10) {
        // as many records as two small tables can have, so that a kind may have too many
        let [internals, calls, returns] = [[1, 1, 1 + r.below(40)], [20 + r.below(20), 10, 5]][r.below(2)];
        return [0; 2].map(|_| {
            let load = Load { seed: r.next() as u32, states: 4 + r.below(3), internals, calls, returns, density: 30_000 };
            let mut out = vec![0; 22_644];
            let length = basilvault::generate_within(LARGEST, load, &mut out).expect("few records");
            reference::parse(LARGEST, &out[..length]).expect("a generated table is readable").0
        });
    }
    let most = if r.chance(50) { 6 } else { l.states.clamp(2, 9) };
    let (first, second) = random::two_tables(r, most);
    let marked = [r.chance(20), r.chance(20)];
    let [first, second] = [(first, marked[0]), (second, marked[1])].map(|(t, m)| if m { random::marked(r, &t) } else { t });
    [first, second]
}

fn compare_combine(r: &mut Random, l: Limits, c: &mut Counts) {
    let [first, second] = to_combine(r, l);
    let mut bytes = [first.bytes(), second.bytes()];
    if r.chance(8) {
        let i = r.below(2);
        bytes[i] = random::damaged(r, &bytes[i]);
    }
    for (how, name) in [(How::Intersection, "intersection"), (How::Union, "union")] {
        let expected = reference::combined(l, &bytes[0], &bytes[1], how);
        let fresh = vec![0x44u8; around(r, expected.as_ref().map_or(9, |t| t.bytes().len()))];
        let mut theirs = fresh.clone();
        let e = reference::combine(l, &bytes[0], &bytes[1], how, &mut theirs).map(|k| [k as u64]);
        for &within in ways(l) {
            let mut ours = fresh.clone();
            let a = flat(if within { basilvault::combine_within(l, &bytes[0], &bytes[1], how, &mut ours) } else { basilvault::combine(&bytes[0], &bytes[1], how, &mut ours) });
            same(name, &bytes.concat(), (a, &ours), (e, &theirs));
        }
        c.add(name, e);
        if let Ok(table) = expected {
            compare_combined(r, l, &bytes, &table, how, c);
        }
    }
}

/// Random words on two tables and on their combination.
fn compare_combined(r: &mut Random, l: Limits, bytes: &[Vec<u8>; 2], table: &Table, how: How, c: &mut Counts) {
    let [s, t] = [0, 1].map(|i| reference::parse(l, &bytes[i]).unwrap().0);
    for _ in 0..20 {
        let n = r.below(8);
        let word: Vec<u8> = (0..n).filter(|_| !s.symbols.is_empty()).map(|_| r.below(s.symbols.len()) as u8).collect();
        let [first, second, both] = [&s, &t, table].map(|t| reference::accepts(t, &word));
        let wanted = if how == How::Union { first || second } else { first && second };
        assert!(both == wanted, "{word:?} on {s:?} and {t:?}, {how:?}");
        if both {
            c.add(if first && second { "combined, accepted by both" } else { "combined, accepted by one" }, Ok(()));
        }
    }
}

fn compare_script(r: &mut Random, l: Limits, t: &Table, b: &[u8], c: &mut Counts) {
    let script = random::script(r, t);
    let e = reference::script(l, b, &script).map(|yes| [u64::from(yes)]);
    for &within in ways(l) {
        let a = flat(if within { basilvault::script_within(l, b, &script) } else { basilvault::script(b, &script) });
        same("script", b, (&script, a), (&script, e));
    }
    c.add("script", e);
    if let (Ok([yes]), Ok((t, _))) = (e, reference::parse(l, b)) {
        c.add(["script: no", "script: yes"][yes as usize], Ok(()));
        if script.len() < 9 {
            assert_eq!(yes == 1, reference::accepts(&t, &script), "by configurations: {script:?} on {b:02x?}");
        }
    }
}

fn compare_records(r: &mut Random, l: Limits, b: &[u8], m: &[u8], c: &mut Counts) {
    let need = reference::parse(l, b).map_or(9, |(t, _)| t.internals.len() + t.calls.len() + t.returns.len());
    let fresh = vec![0x22u8; around(r, need)];
    let mut theirs = fresh.clone();
    let e = reference::records(l, b, m, &mut theirs).map(|x| x.map(|k| k as u64));
    for &within in ways(l) {
        let mut ours = fresh.clone();
        let a = flat(if within { basilvault::records_within(l, b, m, &mut ours) } else { basilvault::records(b, m, &mut ours) });
        same("records", b, (a, &ours), (e, &theirs));
    }
    c.add("records", e);
    if let Ok([_, _, folded, dead]) = e {
        if folded > 0 && dead > 0 {
            c.add("records, some folded and some dead", Ok(()));
        }
    }
}

/// Two tables; where the answer is yes, every random short word of the first is one of the second.
fn compare_fit(r: &mut Random, c: &mut Counts) {
    let (first, second) = random::two_tables(r, 6);
    let mut bytes = [first.bytes(), second.bytes()];
    if r.chance(8) {
        let i = r.below(2);
        bytes[i] = random::damaged(r, &bytes[i]);
    }
    let e = reference::fit(&bytes[0], &bytes[1]).map(|yes| [u64::from(yes)]);
    same("fit", &bytes.concat(), flat(basilvault::fit(&bytes[0], &bytes[1])), e);
    c.add("fit", e);
    if let Ok([yes]) = e {
        c.add(["fit: no", "fit: yes"][yes as usize], Ok(()));
        let [s, t] = [0, 1].map(|i| reference::parse(STANDARD, &bytes[i]).unwrap().0);
        for _ in 0..20 {
            let n = r.below(8);
            let word: Vec<u8> = (0..n).filter(|_| !s.symbols.is_empty()).map(|_| r.below(s.symbols.len()) as u8).collect();
            assert!(yes == 0 || !reference::accepts(&s, &word) || reference::accepts(&t, &word), "{word:?} of {s:?} is none of {t:?}");
        }
    }
}

/// A row of a season: the number or 0, and a reduction's values.
fn row(answer: basilvault::Result<Reduced>) -> [u64; 8] {
    match answer {
        Err(refusal) => [u64::from(refusal.number()), 0, 0, 0, 0, 0, 0, 0],
        Ok(reduced) => [&[0], &reduced.values()[..]].concat().try_into().expect("eight values"),
    }
}

/// The values of a season as C has them, also those past the count, with buffers of these lengths.
fn season_values(l: Limits, within: bool, tables: &[u8], lengths: &[u64], guesses: u64, [list, maps, out]: [usize; 3]) -> Result<Vec<u64>, u8> {
    let (mut list, mut maps, mut out, mut values) = (vec![0u16; list], vec![0u8; maps], vec![0u8; out], vec![7u64; 64]);
    let (t, c, k) = (tables.len(), lengths.len(), values.len());
    let [n, m, o] = [list.len(), maps.len(), out.len()];
    let (tables, lengths, values_at) = (tables.as_ptr(), lengths.as_ptr(), values.as_mut_ptr());
    let (list, maps, out) = (list.as_mut_ptr(), maps.as_mut_ptr(), out.as_mut_ptr());
    let number = unsafe {
        if within {
            raw::basilvault_season_within(l.states, l.symbols, tables, t, lengths, c, guesses, list, n, maps, m, out, o, values_at, k)
        } else {
            raw::basilvault_season(tables, t, lengths, c, guesses, list, n, maps, m, out, o, values_at, k)
        }
    };
    if number == 0 { Ok(values) } else { Err(number as u8) }
}

fn compare_season(r: &mut Random, l: Limits, c: &mut Counts) {
    let (tables, lengths) = random::season(r, 6);
    let guesses = if r.chance(70) { r.below(20) as u64 } else { u64::MAX };
    let fresh = (vec![0xabcdu16; around(r, 400)], vec![0x66u8; around(r, 25)], vec![0x44u8; around(r, tables.len())]);
    let mut theirs = fresh.clone();
    let e = reference::season(l, &tables, &lengths, guesses, &mut theirs.0, &mut theirs.1, &mut theirs.2);
    let rows = |answers: Vec<basilvault::Result<Reduced>>| answers.into_iter().map(row).collect::<Vec<_>>();
    let expected = e.map(|x| x[..lengths.len()].to_vec());
    for &within in ways(l) {
        let mut ours = fresh.clone();
        let (list, maps, out) = (&mut ours.0, &mut ours.1, &mut ours.2);
        let a = if within {
            basilvault::season_within(l, &tables, &lengths, guesses, list, maps, out)
        } else {
            basilvault::season(&tables, &lengths, guesses, list, maps, out)
        };
        same("season", &tables, (a.map(rows).map_err(Refusal::number), &ours), (expected.clone(), &theirs));
        let in_c = season_values(l, within, &tables, &lengths, guesses, [fresh.0.len(), fresh.1.len(), fresh.2.len()]);
        same("season's values", &tables, in_c, e.map(|x| x.concat()));
    }
    c.add("season", e);
    for answer in e.into_iter().flatten().take(lengths.len()) {
        c.add(if answer[7] == 1 { "season, a table spent" } else { "season, a table" }, if answer[0] == 0 { Ok(()) } else { Err(answer[0] as u8) });
    }
}

/// As many lines as there may be, and one more.
fn compare_many_lines() {
    let b = Table { version: 1, symbols: vec![], states: vec![3], internals: vec![], calls: vec![], returns: vec![] }.bytes();
    for lines in [65_535, 65_536, 65_537] {
        let bytes: Vec<u8> = (0..lines).flat_map(|_| [0, 255, 255, 255, 255]).collect();
        let e = reference::uses(STANDARD, &b, &[0], &bytes).map(|x| x.1);
        assert_eq!(e, if lines > 65_536 { Err(32) } else { Ok(lines * u64::from(u32::MAX)) });
        assert_eq!(basilvault::uses(&b, &[0], &bytes).map(|x| (x.sums[0], x.total)).map_err(Refusal::number), e.map(|x| (x, x)));
    }
}

/// Where the runs over a word end.
type Ends = BTreeSet<Configuration>;

/// The ends of a word's runs over both tables: accepted by both or by neither and never with something open, and in states of the same marks.
fn compare_ends(word: &[u8], (a, ours): (&Table, &Ends), (b, theirs): (&Table, &Ends)) {
    let accepted = reference::accepting(a, ours);
    assert_eq!(accepted, reference::accepting(b, theirs), "word {word:?} separates {a:?} and {b:?}");
    let kinds = |k: u8| word.iter().filter(|&&s| a.symbols[s as usize] == k).count();
    assert!(!accepted || kinds(1) == kinds(2), "word {word:?} leaves something open, and {a:?} accepts it");
    assert_eq!(reference::end_marks(a, ours), reference::end_marks(b, theirs), "the marks after {word:?} tell {a:?} and {b:?} apart");
}

/// Every word of up to eight symbols over both tables where these are at most 10,000, else as many random ones.
fn compare_words(r: &mut Random, a: &Table, b: &Table, c: &mut Counts) {
    let k = a.symbols.len();
    if (0..9).map(|n| k.pow(n)).sum::<usize>() <= 10_000 {
        let mut words = vec![(Vec::new(), reference::starts(a), reference::starts(b))];
        while let Some((word, ours, theirs)) = words.pop() {
            compare_ends(&word, (a, &ours), (b, &theirs));
            if word.len() < 8 {
                words.extend((0..k as u8).map(|s| ([&word[..], &[s]].concat(), reference::later(a, &ours, s), reference::later(b, &theirs, s))));
            }
        }
    } else {
        compare_ends(&[], (a, &reference::starts(a)), (b, &reference::starts(b)));
        for _ in 0..400 {
            let word: Vec<u8> = (0..r.below(9)).map(|_| r.below(k) as u8).collect();
            let ends = |t| word.iter().fold(reference::starts(t), |now, &s| reference::later(t, &now, s));
            compare_ends(&word, (a, &ends(a)), (b, &ends(b)));
        }
    }
    c.add("words of input and quotient", Ok(()));
}

/// Every run over random short words, one by one: the runs of the quotient are the classes of the table's, step by step.
fn compare_steps(r: &mut Random, t: &Table, map: &[u8], small: &Table, c: &mut Counts) {
    let mut word = Vec::new();
    let mut longest = 0;
    while word.len() < 6 && !t.symbols.is_empty() {
        word.push(r.below(t.symbols.len()) as u8);
        let ours = reference::runs(t, &word);
        if ours.len() > 3000 {
            return;
        }
        let shown: BTreeSet<_> = ours.iter().map(|run| reference::classes_of(map, run)).collect();
        assert!(shown == reference::runs(small, &word), "runs over {word:?} of {t:?} and of its quotient under {map:?} differ");
        longest = if shown.is_empty() { longest } else { word.len() };
    }
    if longest > 2 {
        c.add("runs of more than two steps", Ok(()));
    }
}

fn compare_reduce(r: &mut Random, l: Limits, b: &[u8], c: &mut Counts) {
    let budget = match r.below(4) {
        0 => r.below(4) as u64,
        1 => u64::MAX,
        _ => 2000,
    };
    let parsed = reference::parse(l, b);
    let (words, states) = match &parsed {
        Ok((t, _)) => (reference::words_of(&reference::short_list(t)).len(), t.count()),
        Err(_) => (9, 4),
    };
    let ample = r.chance(70);
    let list = vec![0xabcdu16; if ample { words + r.below(9) } else { around(r, words) }];
    let map = vec![0x66u8; if ample { states + r.below(4) } else { around(r, states) }];
    let out = vec![0x44u8; if ample { b.len() + r.below(20) } else { around(r, b.len()) }];
    let fresh = (list, map, out);
    let mut theirs = fresh.clone();
    let e = reference::reduce(l, b, budget, &mut theirs.0, &mut theirs.1, &mut theirs.2);
    for &within in ways(l) {
        let mut ours = fresh.clone();
        let (list, map, out) = (&mut ours.0, &mut ours.1, &mut ours.2);
        let a = flat(if within { basilvault::reduce_within(l, b, budget, list, map, out) } else { basilvault::reduce(b, budget, list, map, out) });
        same("reduce", b, (a, &ours), (e.map(|x| x.values()), &theirs));
    }
    let (_, map, out) = theirs;
    c.add("reduce", e);
    if let (Ok(v), Ok((t, _))) = (e, parsed) {
        if v.spent {
            assert_eq!(v.guesses, budget, "spent means that the guesses made equal the budget");
            c.add("reduce, spent", Ok(()));
        }
        if v.spent && v.joined > 0 {
            c.add("reduce, spent with pairs joined", Ok(()));
        }
        let small = reference::parse(l, &out[..v.length]).expect("the quotient is readable").0;
        for _ in 0..3 {
            let script = random::script(r, &t);
            let [table, reduced] = [b, &out[..v.length]].map(|x| flat(basilvault::script_within(l, x, &script)));
            assert_eq!(table, reduced, "script {script:?} tells {t:?} and {small:?} apart");
            c.add("script, on table and reduced table", table);
        }
        if t.count() <= 8 {
            compare_words(r, &t, &small, c);
            compare_steps(r, &t, &map[..t.count()], &small, c);
        }
    }
}

/// A random map, the one that a reduction delivers, or that one with two classes joined.
fn any_map(r: &mut Random, l: Limits, t: &Table, b: &[u8]) -> Vec<u8> {
    let n = t.count();
    if r.chance(40) {
        return random::map(r, n);
    }
    let (mut list, mut map, mut out) = (vec![0u16; 400_000], vec![0u8; 40], vec![0u8; 23_000]);
    if reference::reduce(l, b, 500, &mut list, &mut map, &mut out).is_err() {
        return (0..n as u8).collect();
    }
    let found = map[..n].to_vec();
    let classes = *found.iter().max().unwrap() as usize + 1;
    if classes == 1 || r.chance(40) {
        return found;
    }
    let high = 1 + r.below(classes - 1);
    let low = r.below(high) as u8;
    let high = high as u8;
    found.iter().map(|&x| if x == high { low } else if x > high { x - 1 } else { x }).collect()
}

/// Every properly numbered map of n states.
fn all_maps(n: usize) -> Vec<Vec<u8>> {
    let mut maps = vec![vec![0u8]];
    for _ in 1..n {
        maps = maps
            .into_iter()
            .flat_map(|m| {
                let next = *m.iter().max().unwrap() + 1;
                (0..=next).map(move |k| {
                    let mut x = m.clone();
                    x.push(k);
                    x
                })
            })
            .collect();
    }
    maps
}

fn joins_more(fine: &[u8], coarse: &[u8]) -> bool {
    let n = fine.len();
    let pairs = || (0..n).flat_map(move |p| (0..n).map(move |q| (p, q)));
    pairs().all(|(p, q)| fine[p] != fine[q] || coarse[p] == coarse[q]) && pairs().any(|(p, q)| fine[p] != fine[q] && coarse[p] == coarse[q])
}

/// Small tables: every map against Definition 1; that none coarser than the delivered one meets it, but where the budget is spent; and the ceiling.
fn compare_all_maps(t: &Table, c: &mut Counts) {
    let b = t.bytes();
    let maps = all_maps(t.count());
    let met: Vec<&Vec<u8>> = maps.iter().filter(|m| reference::broken(t, m).is_none()).collect();
    for m in &maps {
        let classes = *m.iter().max().unwrap() as u64 + 1;
        let e = match reference::broken(t, m) {
            None => Ok([classes]),
            Some(k) => Err(k),
        };
        same("check of every map", &b, flat(basilvault::check(&b, m)), e);
        c.add("check", e);
    }
    let most = met.iter().map(|m| reference::joined_pairs(m)).max().unwrap();
    for budget in [0, 1, 2, 3, u64::MAX] {
        let (mut list, mut map, mut out) = (vec![0u16; 40_000], vec![0u8; 40], vec![0u8; b.len()]);
        if let Ok(Reduced { joined, ceiling, spent, .. }) = basilvault::reduce(&b, budget, &mut list, &mut map, &mut out) {
            let found = &map[..t.count()];
            assert!(met.iter().any(|m| &m[..] == found), "the delivered map meets Definition 1");
            assert_eq!(reference::joined_pairs(found), joined);
            assert!(most <= ceiling, "no map that meets it joins more pairs than {ceiling}: {b:02x?}");
            assert!(spent || !met.iter().any(|m| joins_more(found, m)), "none coarser meets it: {found:?} of {b:02x?}");
            c.add("every map of a small table", Ok(()));
        }
    }
}

/// What the program must print for a table: document 01's three lines and (vi)'s fourth, or the refusal.
fn printed(b: &[u8]) -> String {
    let (mut list, mut map, mut out) = (vec![0u16; 32_768], vec![0u8; 40], vec![0u8; 22_644]);
    match reference::reduce(LARGEST, b, 100_000, &mut list, &mut map, &mut out) {
        Err(k) => format!("refused {k}\n"),
        Ok(Delivery { classes, guesses, words, length, joined, ceiling, spent }) => {
            let n = reference::parse(LARGEST, b).unwrap().0.count();
            let spent = if spent { " spent" } else { "" };
            let [all, kept, folded, dead] = reference::records(LARGEST, b, &map[..n], &mut [0; 6144]).unwrap();
            let map: String = map[..n].iter().map(|x| format!(" {x}")).collect();
            let table: String = out[..length].iter().map(|x| format!(" {x:02x}")).collect();
            format!("states {n} classes {classes} guesses {guesses} words {words} joined {joined} of {ceiling}{spent}\nmap{map}\ntable{table}\nrecords {all} kept {kept} folded {folded} dead {dead}\n")
        }
    }
}

/// The program itself, on readable, damaged, empty and too long files.
fn compare_program() {
    let program = concat!(env!("CARGO_MANIFEST_DIR"), "/../target/bin/basilvault");
    let mut r = Random::new(7);
    let mut files = vec![vec![], vec![0; 22_645], vec![0; 40_000]];
    for n in [1, 4, 9, 16, 24, 26, 40] {
        files.push(random::table(&mut r, n, true).bytes());
        files.push(random::blown_up(&mut r, n, true).bytes());
        let damaged = random::damaged(&mut r, files.last().unwrap());
        files.push(damaged);
    }
    for b in &files {
        let mut child = Command::new(program).stdin(Stdio::piped()).stdout(Stdio::piped()).spawn().expect("the program is built");
        // the program reads one byte past the limit and no further, so a write of more may fail
        let _ = child.stdin.take().unwrap().write_all(b);
        let out = child.wait_with_output().unwrap().stdout;
        same("the program", b, String::from_utf8(out).unwrap(), printed(b));
    }
    println!("{:7} files reduced by the program", files.len());
}

/// Tables that take thousands of guesses, each with budgets that are spent.
fn compare_hard(c: &mut Counts) {
    for (name, budgets) in [("hard-12", &[0, 3, 40, 700, 2180, 2181][..]), ("hard-16", &[25, 300][..]), ("hard-24", &[60][..])] {
        let path = format!("{}/../tables/{name}.bin", env!("CARGO_MANIFEST_DIR"));
        let b = std::fs::read(&path).expect("the table is there");
        for &budget in budgets {
            let (mut list, mut map, mut out) = (vec![3u16; 40_000], vec![5u8; 24], vec![9u8; b.len()]);
            let (mut list2, mut map2, mut out2) = (list.clone(), map.clone(), out.clone());
            let a = flat(basilvault::reduce(&b, budget, &mut list, &mut map, &mut out));
            let e = reference::reduce(STANDARD, &b, budget, &mut list2, &mut map2, &mut out2);
            same(name, &b, (a, list, map, out), (e.map(|x| x.values()), list2, map2, out2));
            c.add("reduce of a hard table", e);
        }
    }
}

/// Lists of over 32,768 words, which are searched by segments.
fn compare_long_lists(r: &mut Random, c: &mut Counts) {
    for _ in 0..24 {
        let variables = 100 + r.below(681);
        let words = random::long_list(r, variables);
        let budget = r.below(200) as u64;
        compare_search(r, LARGEST, &words, variables, budget, c);
    }
}

/// The tops as C is answered, in a values buffer of any length; the number.
fn tops_into(table: &[u8], values: &mut [u64]) -> u32 {
    unsafe { raw::basilvault_tops(table.as_ptr(), table.len(), values.as_mut_ptr(), values.len()) }
}

/// A values buffer without room for every value keeps its content, and the number is the same.
fn compare_short_values(t: &Table) {
    let b = t.bytes();
    for room in 0..46 {
        let mut values = vec![9u64; room];
        assert_eq!(tops_into(&b, &mut values), 0);
        match reference::tops(STANDARD, &b) {
            Ok((w, k)) if room >= 41 => {
                assert_eq!(values[..40], w);
                assert_eq!(values[40], k as u64);
                assert!(values[41..].iter().all(|&x| x == 9));
            }
            _ => assert!(values.iter().all(|&x| x == 9)),
        }
        assert_eq!(tops_into(&b[1..], &mut vec![9u64; room]), 3);
    }
}

/// Mostly the limits of a caller that gives none and the largest; else any, some of them zero or past their maximum.
fn any_limits(r: &mut Random, i: usize) -> Limits {
    match (i / 6) % 4 {
        0 => STANDARD,
        1 => LARGEST,
        2 => Limits { states: r.below(43), symbols: r.below(67) },
        _ => Limits { states: 3 + r.below(8), symbols: 2 + r.below(6) },
    }
}

fn main() {
    let mut args = std::env::args().skip(1);
    let cases: usize = args.next().map(|x| x.parse().expect("a number of cases")).unwrap_or(40_000);
    let seed: u64 = args.next().map(|x| x.parse().expect("a seed")).unwrap_or_else(|| {
        let now = std::time::SystemTime::now().duration_since(std::time::UNIX_EPOCH).unwrap();
        now.as_secs() ^ u64::from(now.subsec_nanos())
    });
    println!("seed {seed}");
    let mut r = Random::new(seed);
    let mut c = Counts(Default::default());
    compare_short_values(&random::table(&mut r, 5, false));
    for i in 0..cases {
        let l = any_limits(&mut r, i);
        let most = if i % 100 == 0 { 40 } else if i % 7 == 0 { 12 } else { 7 };
        let mut t = if r.chance(12) { generated(&mut r, most) } else { random::any_table(&mut r, most) };
        if most < 12 && r.chance(15) {
            let more = 1 + r.below(3);
            t = random::with_unreachable(&mut r, &t, more);
        }
        if r.chance(30) {
            t = random::marked(&mut r, &t);
        }
        let valid = t.bytes();
        let b = if r.chance(25) { random::damaged(&mut r, &valid) } else { valid.clone() };
        compare_read(l, &b, &mut c);
        match i % 6 {
            0 => {
                compare_tops(l, &b, &mut c);
                (0..4).for_each(|_| compare_script(&mut r, l, &t, &b, &mut c));
                let load = random::load(&mut r, l);
                compare_generate(&mut r, l, load, &mut c);
            }
            1 => compare_clauses(&mut r, l, &b, &mut c),
            2 => {
                let variables = if r.chance(2) { 270 + r.below(10) } else if r.chance(2) { 775 + r.below(10) } else { r.below(16) };
                let words = random::clause_words(&mut r, variables);
                let budget = if r.chance(30) { r.below(5) as u64 } else { 10_000 };
                compare_search(&mut r, l, &words, variables, budget, &mut c);
                if let Ok((t, _)) = reference::parse(l, &b) {
                    let words = reference::words_of(&reference::clause_list(&t));
                    let n = t.count();
                    compare_search(&mut r, l, &words, n * (n - 1) / 2, 3000, &mut c);
                }
            }
            3 => {
                let m = any_map(&mut r, l, &t, &valid);
                compare_season(&mut r, l, &mut c);
                compare_map(&mut r, l, &b, &m, &mut c);
                let lines = random::lines(&mut r, t.count());
                compare_uses(&mut r, l, &b, &m, &lines, &mut c);
                compare_records(&mut r, l, &b, &m, &mut c);
                let other = any_map(&mut r, l, &t, &valid);
                compare_choose(l, &b, &m, &other, &mut c);
            }
            4 => compare_reduce(&mut r, l, &b, &mut c),
            _ => {
                compare_fit(&mut r, &mut c);
                compare_combine(&mut r, l, &mut c);
                let n = 1 + r.below(6);
                let small = match r.below(3) {
                    0 => random::table(&mut r, n, false),
                    1 => random::table(&mut r, n, true),
                    _ => random::blown_up(&mut r, n, false),
                };
                let small = if r.chance(40) { random::marked(&mut r, &small) } else { small };
                compare_all_maps(&small, &mut c);
            }
        }
    }
    compare_hard(&mut c);
    compare_long_lists(&mut r, &mut c);
    compare_many_lines();
    compare_program();
    for ((name, number), k) in &c.0 {
        println!("{k:7} {name}: {number}");
    }
    for (name, numbers) in NUMBERS.iter().filter(|_| cases >= 20_000) {
        for &k in numbers.iter() {
            assert!(c.0.contains_key(&(name.to_string(), k)), "{name} never gave {k}");
        }
    }
    println!("{cases} cases, no difference");
}
