//! Reduce.

use super::*;

/// What reduce answers.
#[derive(Clone, Copy, Debug, PartialEq, Eq)]
pub struct Delivery {
    pub classes: usize,
    pub guesses: u64,
    pub words: usize,
    pub length: usize,
    pub joined: usize,
    pub ceiling: usize,
    pub spent: bool,
}

impl Delivery {
    /// As the C interface gives it.
    pub fn values(&self) -> [u64; 7] {
        let [classes, words, length, joined, ceiling] = [self.classes, self.words, self.length, self.joined, self.ceiling].map(|x| x as u64);
        [classes, self.guesses, words, length, joined, ceiling, self.spent as u64]
    }
}

/// How many pairs of states a map joins.
pub fn joined_pairs(map: &[u8]) -> usize {
    (0..map.len()).map(|q| (0..q).filter(|&p| map[p] == map[q]).count()).sum()
}

/// The operation reduce.
pub fn reduce(l: Limits, b: &[u8], budget: u64, list: &mut [u16], map: &mut [u8], out: &mut [u8]) -> Result<Delivery, u8> {
    let (t, _) = parse(l, b)?;
    let n = t.count();
    if map.len() < n {
        return Err(22);
    }
    let words = words_of(&short_list(&t));
    if words.len() > list.len() {
        return Err(10);
    }
    list[..words.len()].copy_from_slice(&words);
    let variables = n * (n - 1) / 2;
    let mut trials = Trials { held: vec![false; variables], ceiling: None };
    let (spent, guesses) = match search_trying(&clause_list(&t), variables, budget, Some(&mut trials)) {
        Outcome::Spent(made) => (true, made),
        Outcome::None => unreachable!("the list of a table is satisfiable"),
        Outcome::Solved(values, made) => {
            assert!(values == trials.held, "a solved search holds its assignment");
            (false, made)
        }
    };
    let found = map_of(&trials.held, n);
    let classes = check(l, b, &found).expect("the check accepts the map");
    let bytes = quotient_table(&t, &found).bytes();
    if bytes.len() > out.len() {
        return Err(21);
    }
    map[..n].copy_from_slice(&found);
    out[..bytes.len()].copy_from_slice(&bytes);
    let ceiling = trials.ceiling.expect("a search that ends so has rested");
    Ok(Delivery { classes, guesses, words: words.len(), length: bytes.len(), joined: joined_pairs(&found), ceiling, spent })
}
