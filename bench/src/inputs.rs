//! What is measured: tables of 4 to 24 states, with at most one target a move and with any number, some of them copies of a smaller one; three that
//! take thousands of guesses; for the search a list with tens of thousands; and scripts on two tables with as many records as there may be.

use basilvault::{Listed, Reduced};
use basilvault_tests::random::{self, Random};
use basilvault_tests::reference::Table;

/// The clause words and the guesses that the program allows.
pub const WORDS: usize = 32_768;
pub const BUDGET: u64 = 100_000;

/// How a table is made.
#[derive(Clone, Copy)]
struct Recipe {
    states: usize,
    /// at most one target a move
    one: bool,
    /// the states are copies of a smaller table's, so that some merge
    copies: bool,
    seed: u64,
}

impl Recipe {
    /// The table's bytes.
    fn bytes(&self) -> Vec<u8> {
        let mut r = Random::new(self.seed);
        let make = if self.copies { random::blown_up } else { random::table };
        make(&mut r, self.states, self.one).bytes()
    }
}

/// Tables of 12, 16 and 24 states with several targets a return, found by changing a few records again and again while the guesses rose.
const HARD: [&[u8]; 3] =
    [include_bytes!("../../tables/hard-12.bin"), include_bytes!("../../tables/hard-16.bin"), include_bytes!("../../tables/hard-24.bin")];

/// A table with what its stages are lent: its clause list, all groups of it, and the map that reduce delivers.
pub struct Input {
    pub label: String,
    pub table: Vec<u8>,
    pub list: Vec<u16>,
    pub variables: usize,
    pub map: Vec<u8>,
    pub script: Vec<u8>,
    /// the guesses of a reduction at most
    pub budget: u64,
    classes: usize,
}

/// The heads of the columns that a label has.
pub const LABELS: &str = "states targets classes bytes words guesses";

impl Input {
    /// The input of a recipe, or nothing where the list is longer than the program's.
    fn new(recipe: Recipe) -> Option<Input> {
        Input::of(recipe.bytes(), recipe.states, recipe.one)
    }

    /// The input of a table.
    fn of(table: Vec<u8>, states: usize, one: bool) -> Option<Input> {
        let (mut list, mut map, mut out) = (vec![0; WORDS], vec![0; states], vec![0; table.len()]);
        let Reduced { classes, guesses, .. } = basilvault::reduce(&table, BUDGET, &mut list, &mut map, &mut out).ok()?;
        let Listed { words, .. } = basilvault::clauses(&table, &mut list).ok()?;
        list.truncate(words);
        let targets = if one { "one" } else { "any" };
        let label = format!("{states:6} {targets:>7} {classes:7} {:5} {words:5} {guesses:7}", table.len());
        Some(Input { label, table, list, variables: states * (states - 1) / 2, map, script: Vec::new(), budget: BUDGET, classes })
    }
}

/// The seeds that `find` finds: for 4, 8, 12, 16, 20 and 24 states in turn.
const SEEDS: [[u64; 4]; 6] = [
    [494, 494, 185, 1076],
    [1206, 331, 615, 141],
    [4, 251, 1366, 1545],
    [1382, 874, 53, 826],
    [1281, 1246, 133, 874],
    [1692, 1021, 973, 711],
];

/// The recipes of the seeds, by their places: one target, any number, and both again with copies.
fn recipes() -> impl Iterator<Item = Recipe> {
    SEEDS.iter().enumerate().flat_map(|(i, seeds)| {
        seeds.iter().enumerate().map(move |(j, &seed)| Recipe { states: 4 * (i + 1), one: j % 2 == 0, copies: j >= 2, seed })
    })
}

/// The inputs of the seeds.
pub fn inputs() -> Vec<Input> {
    let random = recipes().map(|recipe| Input::new(recipe).expect("reduce delivers"));
    let hard = HARD.iter().zip([12, 16, 24]).map(|(table, states)| Input::of(table.to_vec(), states, false).expect("reduce delivers"));
    random.chain(hard).collect()
}

/// Prints, for each recipe, the seed below 2,000 with the longest list that the program takes; where states are copies, some merge.
pub fn find() {
    for recipe in recipes() {
        let all = (0..2000).filter_map(|seed| Some((seed, Input::new(Recipe { seed, ..recipe })?)));
        let fit = all.filter(|(_, input)| !recipe.copies || input.classes < recipe.states);
        let (seed, input) = fit.max_by_key(|(_, input)| input.list.len()).expect("reduce delivers");
        println!("{} seed {seed}", input.label);
    }
}

/// A list for the search alone: one pigeon more than holes where variable 0 is true, which takes thousands of guesses to be found false.
pub fn pigeons(holes: usize) -> Input {
    let place = |pigeon: usize, hole: usize| 2 * (1 + pigeon * holes + hole) as u16;
    let mut list = Vec::new();
    for pigeon in 0..=holes {
        list.extend([holes as u16 + 1, 1]);
        list.extend((0..holes).map(|hole| place(pigeon, hole)));
    }
    for hole in 0..holes {
        for high in 0..=holes {
            for low in 0..high {
                list.extend([3, 1, place(low, hole) + 1, place(high, hole) + 1]);
            }
        }
    }
    let variables = 1 + holes * (holes + 1);
    let guesses = basilvault::search(&list, variables, BUDGET, &mut vec![0; variables]).expect("the search ends");
    alone(list, variables, guesses)
}

/// A list without clauses: what a process takes that has nothing to solve.
pub fn nothing() -> Input {
    alone(Vec::new(), 0, 0)
}

/// An input of a list alone.
fn alone(list: Vec<u16>, variables: usize, guesses: u64) -> Input {
    let label = format!("{:>6} {:>7} {:>7} {:>5} {:5} {guesses:7}", "-", "-", "-", "-", list.len());
    Input { label, table: Vec::new(), list, variables, map: Vec::new(), script: Vec::new(), budget: BUDGET, classes: 0 }
}

/// The symbols of a script.
pub const SYMBOLS: usize = 100_000;

/// A dense table of 24 states, two symbols of each kind and some 1,000, 1,000 and 4,000 records: every state is reached behind every symbol.
fn dense(r: &mut Random) -> Table {
    let moves = |r: &mut Random, symbols: [u8; 2]| {
        let all = (0..24).flat_map(|q| symbols.into_iter().flat_map(move |a| (0..24).map(move |e| [q, a, e])));
        all.filter(|_| r.chance(86)).collect::<Vec<[u8; 3]>>()
    };
    let (internals, calls) = (moves(r, [0, 1]), moves(r, [2, 3]));
    let all = (0..24).flat_map(|q| (4..6).flat_map(move |a| (0..24).flat_map(move |s| (0..24).map(move |e| [q, a, s, e]))));
    let returns = all.filter(|_| r.chance(14)).collect();
    Table { version: 1, symbols: vec![0, 0, 1, 1, 2, 2], states: [vec![3], vec![2; 23]].concat(), internals, calls, returns }
}

/// A table of 40 states whose 1,000 calls and 4,096 returns are by one symbol each, and all of them are passed again and again.
fn worst() -> Table {
    let calls = (0..40).flat_map(|q| (0..25).map(move |e| [q, 0, e])).collect();
    let mut returns: Vec<[u8; 4]> = Vec::new();
    for q in 0..25 {
        for s in 0..40 {
            let targets = if returns.len() < 480 { 5 } else { 4 };
            returns.extend((0..targets).map(|j| [q, 1, s, (q + s + 8 * j) % 40]));
        }
    }
    returns.truncate(4096);
    returns.sort();
    Table { version: 1, symbols: vec![1, 2], states: vec![3; 40], internals: vec![], calls, returns }
}

/// Symbols of a table at random, of each kind as often, with at most 64 calls open and none in the end.
fn balanced(r: &mut Random, t: &Table) -> Vec<u8> {
    let of = |kind: u8| (0..t.symbols.len() as u8).filter(|&a| t.symbols[a as usize] == kind).collect::<Vec<u8>>();
    let kinds = [of(0), of(1), of(2)];
    let mut open = 0;
    let mut script = Vec::new();
    while script.len() < SYMBOLS {
        let kind = if script.len() + open >= SYMBOLS { 2 } else { r.below(3) };
        if kinds[kind].is_empty() || kind == 1 && open == 64 || kind == 2 && open == 0 {
            continue;
        }
        open = open + (kind == 1) as usize - (kind == 2) as usize;
        script.push(kinds[kind][r.below(kinds[kind].len())]);
    }
    script
}

/// The inputs of the scripts, a script of 100,000 symbols on each of the two tables.
pub fn scripts() -> Vec<Input> {
    let mut r = Random::new(7);
    let tables = [dense(&mut r), worst()];
    let input = |t: Table| {
        let (script, table) = (balanced(&mut r, &t), t.bytes());
        let label = format!("{:6} {:>7} {:>7} {:5} {:>5} {:>7}", t.count(), "any", "-", table.len(), "-", "-");
        Input { label, table, list: Vec::new(), variables: 0, map: Vec::new(), script, budget: BUDGET, classes: 0 }
    };
    tables.map(input).into()
}

/// The input of a table that is only reduced, with so many guesses at most.
pub fn to_reduce(table: Vec<u8>, budget: u64) -> Input {
    Input { label: String::new(), table, list: Vec::new(), variables: 0, map: Vec::new(), script: Vec::new(), budget, classes: 0 }
}
