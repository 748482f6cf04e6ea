//! Lists made for the search to take long, of up to a given number of words. After many guesses that settle nothing, one sets off a chain of implications, whichever way
//! it goes, and the chain breaks at its end. All other clauses have false links of the chain, and neither force nor break.

use crate::inputs::{BUDGET, WORDS};
use crate::report::{heading, heads};
use crate::times::on_processor;
use basilvault_bench::plain;
use basilvault_tests::{flat, random::Random, reference::LARGEST};

/// How many links the chain has.
const LINKS: usize = 700;

/// A list in the making: how many variables are taken, and the words. A variable goes by the literal that says it is true; one more says it is false.
#[derive(Default)]
pub struct List {
    pub variables: usize,
    pub words: Vec<u16>,
}

impl List {
    /// So many further variables.
    fn take(&mut self, count: usize) -> Vec<u16> {
        self.variables += count;
        (self.variables - count..self.variables).map(|v| 2 * v as u16).collect()
    }

    /// Adds a clause.
    fn clause(&mut self, literals: &[u16]) {
        self.words.push(literals.len() as u16);
        self.words.extend(literals);
    }

    /// A chain that x sets off and x false as well: from its front, or with `both` from its back. Its end makes a variable true and false.
    fn chain(&mut self, x: u16, both: bool) -> Vec<u16> {
        let (chain, z) = (self.take(LINKS), self.take(1)[0]);
        let (front, back) = (chain[0], chain[LINKS - 1]);
        self.clause(&[x + 1, front]);
        self.clause(&[x, if both { back } else { front }]);
        for pair in chain.windows(2) {
            self.clause(&[pair[0] + 1, pair[1]]);
            if both {
                self.clause(&[pair[1] + 1, pair[0]]);
            }
        }
        for l in [z, z + 1] {
            if both { self.clause(&[front + 1, back + 1, l]) } else { self.clause(&[back + 1, l]) }
        }
        chain
    }

    /// Fills the list up to so many words with clauses of a length: first the literals that `some` gives, then links of the chain at random, false.
    fn fill(mut self, most: usize, length: usize, mut chain: Vec<u16>, some: impl Fn(&mut Random) -> Vec<u16>) -> List {
        let mut r = Random::new(1);
        loop {
            let mut clause = some(&mut r);
            let length = length.min(most.saturating_sub(self.words.len() + 1));
            if length <= clause.len() {
                return self;
            }
            for i in 0..length - clause.len() {
                let j = i + r.below(chain.len() - i);
                chain.swap(i, j);
                clause.push(chain[i] + 1);
            }
            self.clause(&clause);
        }
    }
}

/// Clauses that hold by their first literal from the first guess on; or wait, by two literals that are unset throughout.
pub fn steady(most: usize, length: usize, both: bool, wait: bool) -> List {
    let mut list = List::default();
    let (guesses, x, held) = (list.take(18), list.take(1)[0], list.take(8));
    held.iter().for_each(|&l| list.clause(&[guesses[0] + 1, l]));
    let chain = list.chain(x, both);
    let unset = list.take(8);
    list.fill(most, length, chain, |r| {
        let i = r.below(8);
        if wait { vec![unset[i], unset[(i + 3) % 8]] } else { vec![held[i]] }
    })
}

/// Clauses that hold by one of their first four literals, from run to run by another one.
fn in_turn(length: usize) -> List {
    let mut list = List::default();
    let (_, y, x) = (list.take(17), list.take(1)[0], list.take(1)[0]);
    let held = [(); 4].map(|_| list.take(8));
    for (i, [a, b]) in [[y + 1, x + 1], [y + 1, x], [y, x + 1], [y, x]].into_iter().enumerate() {
        for (j, all) in held.iter().enumerate() {
            all.iter().for_each(|&l| list.clause(&[a, b, if i == j { l } else { l + 1 }]));
        }
    }
    let chain = list.chain(x, false);
    list.fill(WORDS, length, chain, |r| held.iter().map(|all| all[r.below(8)]).collect())
}

/// Processor seconds until the guesses are spent.
fn seconds(search: impl FnOnce(&mut [u8]) -> Result<[u64; 1], u8>) -> f64 {
    let start = on_processor();
    assert_eq!(search(&mut [0; 780]), Err(13));
    on_processor() - start
}

/// Prints the row of a list.
fn row(name: &str, length: usize, list: List) {
    let List { variables, words } = list;
    let library = seconds(|answer| flat(basilvault::search_within(LARGEST, &words, variables, BUDGET, answer)));
    let plain = seconds(|answer| plain::search(LARGEST, &words, variables, BUDGET, answer));
    println!("| {name} | {length} | {variables} | {library:.2} | {plain:.2} | {:.2} |", library / plain);
}

/// A row for each list, by the length of its clauses.
pub fn print() {
    heading("worst lists");
    heads("clauses; length; variables; library s; plain s; ratio");
    for length in [2, 3, 6, 10, 100] {
        for (both, ends) in [(false, "one end"), (true, "both ends")] {
            row(&format!("held, {ends}"), length, steady(WORDS, length, both, false));
            if length > 2 {
                row(&format!("waiting, {ends}"), length, steady(WORDS, length, both, true));
            }
        }
        if length > 4 {
            row("held in turn", length, in_turn(length));
        }
    }
    println!();
}
