//! Refutations by unit propagation with the fewest steps: what follows from which clause, cheapest first.

use std::cmp::Reverse;
use std::collections::BinaryHeap;

/// A refutation: with what is assumed, the clauses in their order force one thing after the other, until the last has no literal left.
#[derive(Clone, Debug, PartialEq, Eq)]
pub struct Chain {
    /// The literals that are assumed: 2v for "v is true", 2v+1 for "v is false".
    pub assumed: Vec<u16>,
    /// The clauses, each by its literals, with the literal that it forces; the last forces none.
    pub steps: Vec<(Vec<u16>, Option<u16>)>,
}

/// The clauses of a list by where they start, and for each literal the clauses that have its opposite.
pub struct Clauses<'a> {
    words: &'a [u16],
    starts: Vec<u32>,
    against: Vec<Vec<u32>>,
}

/// What is known of a literal: at which cost, and by which clause, none where it is assumed.
type Known = Option<(u64, Option<u32>)>;

/// The cost of a step; one that joins costs a little more, so that of equal chains the one with the fewest of these is taken.
const STEP: u64 = 1 << 20;

impl Clauses<'_> {
    /// The clauses that words are.
    pub fn new(words: &[u16], variables: usize) -> Clauses<'_> {
        let mut clauses = Clauses { words, starts: Vec::new(), against: vec![Vec::new(); 2 * variables] };
        let mut at = 0;
        while at < words.len() {
            let end = at + 1 + usize::from(words[at]);
            let number = clauses.starts.len() as u32;
            words[at + 1..end].iter().for_each(|literal| clauses.against[usize::from(literal ^ 1)].push(number));
            clauses.starts.push(at as u32);
            at = end;
        }
        clauses
    }

    /// How many clauses there are.
    pub fn count(&self) -> usize {
        self.starts.len()
    }

    /// The literals of a clause.
    fn clause(&self, number: u32) -> &[u16] {
        let start = self.starts[number as usize] as usize;
        &self.words[start + 1..][..usize::from(self.words[start])]
    }

    /// A refutation of these literals with the fewest steps, where unit propagation has one. It assumes those that it uses.
    pub fn refute(&self, assumed: &[u16]) -> Option<Chain> {
        let (known, last) = self.propagate(assumed);
        let mut chain = Chain { assumed: assumed.to_vec(), steps: Vec::new() };
        self.unfold(&known, last?, None, &mut chain);
        chain.assumed.retain(|literal| chain.steps.iter().any(|(clause, _)| clause.contains(&(literal ^ 1))));
        Some(chain)
    }

    /// Everything that follows up to the first clause with no literal left, cheapest first, and that clause.
    fn propagate(&self, assumed: &[u16]) -> (Vec<Known>, Option<u32>) {
        let mut known: Vec<Known> = vec![None; self.against.len()];
        let mut open: Vec<u16> = self.starts.iter().map(|start| self.words[*start as usize]).collect();
        let mut costs = vec![0u64; self.count()];
        let mut heap: BinaryHeap<_> = assumed.iter().map(|&literal| Reverse((0, Some(literal), None))).collect();
        let units = (0..self.count() as u32).filter(|number| open[*number as usize] == 1);
        heap.extend(
            units.map(|number| (number, self.clause(number)[0])).map(|(number, literal)| Reverse((cost(0, literal), Some(literal), Some(number)))),
        );
        while let Some(Reverse((paid, literal, by))) = heap.pop() {
            let Some(literal) = literal else { return (known, by) };
            let place = usize::from(literal);
            if known[place].is_some() {
                continue;
            }
            known[place] = Some((paid, by));
            for &number in &self.against[place] {
                let at = number as usize;
                (open[at], costs[at]) = (open[at] - 1, costs[at].saturating_add(paid));
                match open[at] {
                    0 => heap.push(Reverse((costs[at].saturating_add(STEP), None, Some(number)))),
                    1 => {
                        let next = self.clause(number).iter().copied().find(|other| known[usize::from(other ^ 1)].is_none());
                        heap.extend(next.map(|next| Reverse((cost(costs[at], next), Some(next), Some(number)))));
                    }
                    _ => (),
                }
            }
        }
        (known, None)
    }

    /// Puts what a clause rests on into a chain, then the clause itself.
    fn unfold(&self, known: &[Known], number: u32, forces: Option<u16>, chain: &mut Chain) {
        for literal in self.clause(number).iter().filter(|literal| Some(**literal) != forces) {
            let opposite = literal ^ 1;
            let there = chain.assumed.contains(&opposite) || chain.steps.iter().any(|(_, forced)| *forced == Some(opposite));
            if let Some((_, Some(by))) = known[usize::from(opposite)].filter(|_| !there) {
                self.unfold(known, by, Some(opposite), chain);
            }
        }
        chain.steps.push((self.clause(number).to_vec(), forces));
    }
}

/// What a step to a literal costs, with what it rests on.
fn cost(rests: u64, literal: u16) -> u64 {
    rests.saturating_add(STEP + u64::from(literal & 1 == 0))
}
