//! Whether the second of two tables accepts every word of the first, by the library's steps.

use super::table::{parse, Table};
use basilvault_tests::reference::STANDARD;

/// A row of ten words for each of up to 600 pairs.
type Rows = [u64; 6000];

/// Where the second table goes by moves, and by returns: its target, or the number past its states.
struct Nexts {
    moves: [u8; 800],
    pushes: [u8; 800],
    pops: [u8; 20_000],
}

/// The target of the first record that starts with a key.
fn target<const N: usize>(records: &[[u8; N]], key: &[u8], sink: u8) -> u8 {
    let i = records.partition_point(|r| r[..N - 1] < *key);
    records.get(i).filter(|r| r[..N - 1] == *key).map_or(sink, |r| r[N - 1])
}

fn nexts(t: &Table) -> Nexts {
    let sink = t.states.len() as u8;
    let moves = |records: &[[u8; 3]]| std::array::from_fn(|i| target(records, &[(i / 32) as u8, (i % 32) as u8], sink));
    let pops = std::array::from_fn(|i| target(t.returns, &[(i / 800) as u8, (i / 25 % 32) as u8, (i % 25) as u8], sink));
    Nexts { moves: moves(t.internals), pushes: moves(t.calls), pops }
}

fn held(rows: &Rows, u: usize, x: usize) -> bool {
    rows[u * 10 + x / 64] >> (x % 64) & 1 == 1
}

fn put(rows: &mut Rows, u: usize, x: usize) {
    rows[u * 10 + x / 64] |= 1 << (x % 64);
}

fn join(rows: &mut Rows, u: usize, v: usize) {
    for k in (0..10).rev() {
        rows[v * 10 + k] |= rows[u * 10 + k];
    }
}

fn covers(rows: &Rows, u: usize, v: usize) -> bool {
    (0..10).rev().all(|k| rows[v * 10 + k] | rows[u * 10 + k] == rows[v * 10 + k])
}

fn any(rows: &Rows, u: usize) -> bool {
    rows[u * 10..u * 10 + 10].iter().rev().any(|&w| w != 0)
}

/// Two tables, where the second goes, and what the quick walk holds.
struct Walk<'a> {
    first: &'a Table<'a>,
    next: Nexts,
    width: usize,
    rows: Rows,
    links: Rows,
    popped: Rows,
    marks: [u8; 600],
}

impl Walk<'_> {
    fn flow(&mut self, u: usize, v: usize) {
        if !covers(&self.rows, u, v) {
            join(&mut self.rows, u, v);
            self.marks[v] = 1;
        }
    }

    fn push_all(&mut self, from: usize, p: usize, b: usize) {
        let u = p * self.width + b;
        for &[x, a, q] in &self.first.calls[from..] {
            if x as usize != p {
                return;
            }
            let v = q as usize * self.width + self.next.pushes[b * 32 + a as usize] as usize;
            if !held(&self.rows, v, u) {
                put(&mut self.rows, v, u);
                self.marks[v] = 1;
            }
        }
    }

    fn pop_over(&mut self, from: usize, p: usize, b: usize, y: usize) {
        let (under, c) = (y / self.width, y % self.width);
        for &[x, a, s, q] in &self.first.returns[from..] {
            if x as usize != p {
                return;
            }
            if s as usize != under {
                continue;
            }
            let v = q as usize * self.width + self.next.pops[(b * 32 + a as usize) * 25 + c] as usize;
            if !held(&self.links, y, v) {
                put(&mut self.links, y, v);
                self.flow(y, v);
            }
        }
    }

    fn look(&mut self, pairs: usize, u: usize, pushing: usize, popping: usize) {
        let (p, b) = (u / self.width, u % self.width);
        if !any(&self.rows, u) {
            return;
        }
        self.push_all(pushing, p, b);
        let mut y = 0;
        while y < pairs {
            if self.rows[u * 10 + y / 64] == self.popped[u * 10 + y / 64] {
                y = (y / 64 + 1) * 64;
                continue;
            }
            if held(&self.rows, u, y) && !held(&self.popped, u, y) {
                put(&mut self.popped, u, y);
                self.pop_over(popping, p, b, y);
            }
            y += 1;
        }
        let mut v = 0;
        while v < pairs {
            if self.links[u * 10 + v / 64] == 0 {
                v = (v / 64 + 1) * 64;
                continue;
            }
            if held(&self.links, u, v) {
                self.flow(u, v);
            }
            v += 1;
        }
    }

    fn quick(&mut self, pairs: usize) {
        for &[p, a, q] in self.first.internals {
            for b in 0..self.width {
                let v = q as usize * self.width + self.next.moves[b * 32 + a as usize] as usize;
                put(&mut self.links, p as usize * self.width + b, v);
            }
        }
        let pushing: [usize; 24] = std::array::from_fn(|p| self.first.calls.partition_point(|r| (r[0] as usize) < p));
        let popping: [usize; 24] = std::array::from_fn(|p| self.first.returns.partition_point(|r| (r[0] as usize) < p));
        while self.marks[..pairs].iter().any(|&m| m != 0) {
            for u in 0..pairs {
                if self.marks[u] != 0 {
                    self.marks[u] = 0;
                    let p = u / self.width;
                    self.look(pairs, u, pushing[p], popping[p]);
                }
            }
        }
    }

    /// Every record with every state of the second, once.
    fn round(&mut self) {
        let width = self.width;
        for &[p, a, q] in self.first.internals {
            for b in 0..width {
                join(&mut self.rows, p as usize * width + b, q as usize * width + self.next.moves[b * 32 + a as usize] as usize);
            }
        }
        for &[p, a, q] in self.first.calls {
            for b in 0..width {
                let u = p as usize * width + b;
                if any(&self.rows, u) {
                    put(&mut self.rows, q as usize * width + self.next.pushes[b * 32 + a as usize] as usize, u);
                }
            }
        }
        for &[p, a, s, q] in self.first.returns {
            for b in 0..width {
                let u = p as usize * width + b;
                for c in 0..width {
                    let y = s as usize * width + c;
                    if held(&self.rows, u, y) {
                        join(&mut self.rows, y, q as usize * width + self.next.pops[(b * 32 + a as usize) * 25 + c] as usize);
                    }
                }
            }
        }
    }
}

fn choice(t: &Table) -> bool {
    t.states.iter().filter(|x| **x % 2 == 1).count() != 1
        || t.internals.windows(2).any(|w| w[0][..2] == w[1][..2])
        || t.calls.windows(2).any(|w| w[0][..2] == w[1][..2])
        || t.returns.windows(2).any(|w| w[0][..3] == w[1][..3])
}

/// The operation fit.
pub fn fit(first: &[u8], second: &[u8]) -> Result<[u64; 1], u8> {
    let (s, t) = (parse(STANDARD, first)?.0, parse(STANDARD, second)?.0);
    if s.symbols != t.symbols {
        return Err(37);
    }
    if choice(&t) {
        return Err(38);
    }
    let width = t.states.len() + 1;
    let pairs = s.states.len() * width;
    let mut walk = Walk { first: &s, next: nexts(&t), width, rows: [0; 6000], links: [0; 6000], popped: [0; 6000], marks: [1; 600] };
    let byte = |u: usize| (s.states[u / width], *t.states.get(u % width).unwrap_or(&0));
    for u in 0..pairs {
        if matches!(byte(u), (x, y) if x % 2 == 1 && y % 2 == 1) {
            put(&mut walk.rows, u, pairs);
        }
    }
    walk.quick(pairs);
    loop {
        let before = walk.rows;
        walk.round();
        if walk.rows == before {
            break;
        }
    }
    let ends = |u: usize| matches!(byte(u), (x, y) if x / 2 % 2 == 1 && y / 2 % 2 == 0) && held(&walk.rows, u, pairs);
    Ok([u64::from(!(0..pairs).any(ends))])
}
