//! How long a shortest balanced script from one pair to another is, with at most so many calls open: level by level.

use super::product::Product;
use std::cmp::Reverse;
use std::collections::BinaryHeap;

/// A length that counts as none.
pub const FAR: u32 = 1 << 16;

/// The lengths with no call open, with one, and so on, as far as it matters: at `x * size + y` that from x to y.
pub struct Levels {
    size: usize,
    levels: Vec<Vec<u32>>,
}

impl Levels {
    /// Levels until no length changes any more, one script cannot be undercut, or so many calls are open.
    pub fn new(product: &Product, most: usize) -> Levels {
        let mut filling = Filling::new(product);
        let mut changed = filling.spread(&[]);
        let mut levels = Levels { size: product.size(), levels: vec![filling.lengths.clone()] };
        while levels.deepest() < most && !changed.is_empty() && levels.may_be_undercut(product) {
            filling.bound = levels.shortest(product);
            let wrapped = filling.wrap(&changed);
            changed = filling.spread(&wrapped);
            levels.levels.push(filling.lengths.clone());
        }
        levels
    }

    /// The last level.
    pub fn deepest(&self) -> usize {
        self.levels.len() - 1
    }

    /// The length from one pair to another at a level.
    pub fn length(&self, level: usize, x: usize, y: usize) -> u32 {
        self.levels[level][x * self.size + y]
    }

    /// Where a shortest script of the first table alone starts and ends, at the last level.
    pub fn best(&self, product: &Product) -> Option<(usize, usize)> {
        let ends = || (0..self.size).filter(|&y| product.ends(y));
        let pairs = product.starts().iter().flat_map(|&x| ends().map(move |y| (x, y)));
        pairs.filter(|&(x, y)| self.length(self.deepest(), x, y) < FAR).min_by_key(|&(x, y)| self.length(self.deepest(), x, y))
    }

    /// The length of such a script, or one that counts as none.
    fn shortest(&self, product: &Product) -> u32 {
        self.best(product).map_or(FAR, |(x, y)| self.length(self.deepest(), x, y))
    }

    /// Whether one more call open may give a shorter script: it takes two symbols for each.
    fn may_be_undercut(&self, product: &Product) -> bool {
        self.shortest(product) as usize > 2 * (self.deepest() + 1)
    }
}

/// Lengths on their way from one level to the next. Those from the bound on are left alone: a script is known that is as short.
struct Filling<'a> {
    product: &'a Product,
    size: usize,
    entries: Vec<usize>,
    callers: Vec<Vec<usize>>,
    inner: Vec<Vec<usize>>,
    around: Vec<Vec<usize>>,
    wraps: Vec<u32>,
    lengths: Vec<u32>,
    bound: u32,
}

impl<'a> Filling<'a> {
    /// The empty script alone, from the pairs where a script or the inside of a call starts.
    fn new(product: &'a Product) -> Filling<'a> {
        let size = product.size();
        let mut callers = vec![Vec::new(); size];
        for x in 0..size {
            distinct(product.calls(x)).into_iter().for_each(|y| callers[y].push(x));
        }
        let entries: Vec<usize> = (0..size).filter(|x| !callers[*x].is_empty() || product.starts().contains(x)).collect();
        let inner = (0..size).map(|x| distinct(product.internals(x))).collect();
        let mut lengths = vec![FAR; size * size];
        entries.iter().for_each(|x| lengths[x * size + x] = 0);
        Filling { product, size, entries, callers, inner, around: vec![Vec::new(); size], wraps: vec![FAR; size * size], lengths, bound: FAR }
    }

    /// The calls with their returns that became shorter, or possible, by the lengths that changed inside.
    fn wrap(&mut self, changed: &[(usize, usize)]) -> Vec<(usize, usize)> {
        let mut wrapped = Vec::new();
        for &(inside, last) in changed {
            let length = self.lengths[inside * self.size + last] + 2;
            if length >= self.bound {
                continue;
            }
            for &caller in &self.callers[inside] {
                for (_, target) in self.product.returns(last, caller) {
                    let place = caller * self.size + target;
                    if self.wraps[place] > length {
                        if self.wraps[place] == FAR {
                            self.around[caller].push(target);
                        }
                        self.wraps[place] = length;
                        wrapped.push((caller, target));
                    }
                }
            }
        }
        wrapped.sort_unstable();
        wrapped.dedup();
        wrapped
    }

    /// All lengths with these calls put to use, or at the start the internals: which changed.
    fn spread(&mut self, wrapped: &[(usize, usize)]) -> Vec<(usize, usize)> {
        let mut changed = Vec::new();
        for entry in self.entries.clone() {
            let base = entry * self.size;
            let mut heap = BinaryHeap::new();
            if wrapped.is_empty() {
                changed.push((entry, entry));
                heap.push(Reverse((0, entry)));
            }
            for &(x, y) in wrapped {
                self.relax(base, self.lengths[base + x] + self.wraps[x * self.size + y], y, &mut heap);
            }
            while let Some(Reverse((length, x))) = heap.pop() {
                if length > self.lengths[base + x] {
                    continue;
                }
                changed.push((entry, x));
                self.inner[x].clone().into_iter().for_each(|y| self.relax(base, length + 1, y, &mut heap));
                self.around[x].clone().into_iter().for_each(|y| self.relax(base, length + self.wraps[x * self.size + y], y, &mut heap));
            }
        }
        changed
    }

    /// Takes a length where it is shorter than the one known.
    fn relax(&mut self, base: usize, length: u32, y: usize, heap: &mut BinaryHeap<Reverse<(u32, usize)>>) {
        if length < self.bound.min(self.lengths[base + y]) {
            self.lengths[base + y] = length;
            heap.push(Reverse((length, y)));
        }
    }
}

/// Where moves go, each target once.
fn distinct(moves: impl Iterator<Item = (u8, usize)>) -> Vec<usize> {
    let mut targets: Vec<usize> = moves.map(|(_, target)| target).collect();
    targets.sort_unstable();
    targets.dedup();
    targets
}
