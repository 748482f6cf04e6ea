//! The longest clause lists that can be made, against the bounds for them: those of the crate here; of each list a line `STATES MOVES RETURNS WORDS` goes to
//! standard output, for the bound of the header. `lists`

use basilvault::{Limits, MOST_CALLS, MOST_INTERNALS, MOST_RETURNS};
use basilvault_tests::reference::Table;

/// A table with so many states, all different in what they accept or are marked with where that can be, all initial. One half of the states moves to one half
/// of the targets, the other to the other, so that no state has the moves of another half; each state is on top of each.
fn long(n: usize) -> Table {
    let half = |key: usize| (0..n as u8).filter(move |target| usize::from(*target) % 2 == key % 2);
    let moves = |first: usize, symbols: usize, most: usize| -> Vec<[u8; 3]> {
        let all = (0..n).flat_map(|p| (0..symbols).map(move |a| (p, a)));
        let mut all: Vec<_> = all.flat_map(|(p, a)| half(p / 2).map(move |target| [p as u8, (first + a) as u8, target])).collect();
        // of too many the last symbols' are left out
        all.sort_unstable_by_key(|&[p, a, target]| (a, p, target));
        all.truncate(most);
        all.sort_unstable();
        all
    };
    let symbols = |most: usize, each: usize| most.div_ceil(each.max(1)).clamp(1, 16);
    let [inner, call, back] = [symbols(MOST_INTERNALS, n * n / 2), symbols(MOST_CALLS, n * n / 2), symbols(MOST_RETURNS, n * n * n / 2)];
    let kinds = [(0, inner), (1, call), (2, back)].into_iter().flat_map(|(kind, count)| vec![kind; count]).collect();
    let state = |q: usize| 1 + 2 * (q / 16 % 2) as u8 + 4 * (q % 16) as u8;
    Table {
        version: 2,
        symbols: kinds,
        states: (0..n).map(state).collect(),
        internals: moves(0, inner, MOST_INTERNALS),
        calls: moves(inner, call, MOST_CALLS),
        returns: returns(n, inner + call, back),
    }
}

/// As many returns as there may be: where all keys of one symbol take them, each key has as many targets as the others, and few that another has.
fn returns(n: usize, first: usize, symbols: usize) -> Vec<[u8; 4]> {
    let each = (MOST_RETURNS / (n * n * symbols)).clamp(1, n.div_ceil(2));
    let keys = (0..n * n * symbols).map(|key| (key / (n * symbols), key / n % symbols, key % n));
    let targets = |p: usize, s: usize| (0..each).map(move |k| (p + s + k * 2) % n);
    let all = keys.flat_map(|(p, r, s)| targets(p, s).map(move |target| [p as u8, (first + r) as u8, s as u8, target as u8]));
    let mut all: Vec<_> = all.collect();
    all.sort_unstable();
    all.dedup();
    // what is left over goes to the first keys
    let spare: Vec<_> = all.iter().map(|&[p, r, s, target]| [p, r, s, ((usize::from(target) + 1) % n) as u8]).filter(|more| all.binary_search(more).is_err()).collect();
    all.extend(spare.into_iter().take(MOST_RETURNS.saturating_sub(all.len())));
    all.sort_unstable();
    all.dedup();
    all.truncate(MOST_RETURNS);
    all
}

/// A table of two states with one symbol of each kind, and those of its 16 possible records whose bits are set.
fn small(records: u32) -> Table {
    let has = |bit: usize| records >> bit & 1 == 1;
    let moves = |from: usize, symbol: u8| (0..4).filter(|i| has(from + i)).map(|i| [(i / 2) as u8, symbol, (i % 2) as u8]).collect();
    let returns = (0..8).filter(|i| has(8 + i)).map(|i| [(i / 4) as u8, 2, (i / 2 % 2) as u8, (i % 2) as u8]).collect();
    Table { version: 1, symbols: vec![0, 1, 2], states: vec![1, 3], internals: moves(0, 0), calls: moves(4, 1), returns }
}

/// The words of a table's list, which is within the bounds; and how much of the bound they are, in hundredths.
fn words(table: &Table) -> (usize, usize) {
    let bytes = table.bytes();
    let counts = basilvault::read_within(Limits::LARGEST, &bytes).expect("a readable table").counts(bytes.len());
    let (mut list, mut map, mut out) = (vec![0; counts.most_words()], vec![0; counts.states], vec![0; bytes.len()]);
    let listed = basilvault::clauses_within(Limits::LARGEST, &bytes, &mut list).expect("a list within its bound");
    let short = &mut list[..counts.most_short_words()];
    let reduced = basilvault::reduce_within(Limits::LARGEST, &bytes, 0, short, &mut map, &mut out).expect("a short list within its bound");
    assert!(reduced.words <= listed.words);
    (listed.words, listed.words * 100 / counts.most_words().max(1))
}

fn main() {
    let print = |table: &Table, words| println!("{} {} {} {words}", table.states.len(), table.internals.len() + table.calls.len(), table.returns.len());
    for records in 0..1 << 16 {
        let table = small(records);
        let (words, _) = words(&table);
        if records % 97 == 0 {
            print(&table, words);
        }
    }
    for n in (1..=40).filter(|n| n % 3 == 1) {
        let table = long(n);
        let (words, part) = words(&table);
        print(&table, words);
        // a list that is far from its bound would say little of it
        assert!(n < 40 || part >= 85, "the longest list has {part} % of the bound's words");
    }
}
