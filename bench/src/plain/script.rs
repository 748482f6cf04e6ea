//! Reading a script: by levels, which say what is reached on the empty stack and behind each open call.

use super::table::{parse, Table};
use super::tops::{has_top, Words};
use basilvault_tests::reference::Limits;

/// For each state and symbol, and for the end, where their records begin.
type Starts = [u16; 40 * 64 + 1];

/// The index of a section, in one pass.
fn starts_of<const N: usize>(records: &[[u8; N]]) -> Starts {
    let mut starts = [0; 40 * 64 + 1];
    let mut x = 0;
    for (k, r) in records.iter().enumerate() {
        let next = r[0] as usize * 64 + r[1] as usize + 1;
        starts[x..next.max(x)].fill(k as u16);
        x = next;
    }
    starts[x..].fill(records.len() as u16);
    starts
}

/// The records of a state by a symbol.
fn of<'a, const N: usize>(records: &'a [[u8; N]], starts: &Starts, q: usize, a: usize) -> &'a [[u8; N]] {
    let at = q * 64 + a;
    &records[starts[at] as usize..starts[at + 1] as usize]
}

/// The level behind an internal or a call.
fn moved(records: &[[u8; 3]], starts: &Starts, n: usize, a: usize, call: bool, level: &Words) -> Words {
    let mut words = [0; 40];
    for q in (0..n).filter(|&q| level[q] != 0) {
        let gained = if call { 1 << q } else { level[q] };
        for &[_, _, e] in of(records, starts, q, a) {
            words[e as usize] |= gained;
        }
    }
    words
}

/// The level behind a return.
fn returned(records: &[[u8; 4]], starts: &Starts, n: usize, a: usize, level: &Words, below: &Words) -> Words {
    let mut words = [0; 40];
    for q in (0..n).filter(|&q| level[q] != 0) {
        let reached = level[q];
        for &[_, _, s, e] in of(records, starts, q, a) {
            if reached >> s & 1 == 1 {
                words[e as usize] |= below[s as usize];
            }
        }
    }
    words
}

/// Yes or no, of a script that is not refused.
fn reads(t: &Table, script: &[u8]) -> bool {
    let (internals, calls, returns) = (starts_of(t.internals), starts_of(t.calls), starts_of(t.returns));
    let n = t.count();
    let mut level = [0; 40];
    for (word, state) in level.iter_mut().zip(t.states) {
        *word = ((state % 2) as u64) << 40;
    }
    let mut levels = [[0; 40]; 64];
    let mut depth = 0;
    for &a in script {
        let a = a as usize;
        match t.symbols[a] {
            0 => level = moved(t.internals, &internals, n, a, false, &level),
            1 => {
                levels[depth] = level;
                depth += 1;
                level = moved(t.calls, &calls, n, a, true, &level);
            }
            _ if depth == 0 => return false,
            _ => {
                depth -= 1;
                level = returned(t.returns, &returns, n, a, &level, &levels[depth]);
            }
        }
    }
    depth == 0 && (0..n).any(|q| t.states[q] / 2 % 2 == 1 && has_top(&level, q as u8, 40))
}

/// Whether a 65th call is open before any return on the empty stack.
fn too_deep(symbols: &[u8], script: &[u8]) -> bool {
    let mut depth = 0;
    for &a in script {
        match symbols[a as usize] {
            0 => {}
            1 if depth == 64 => return true,
            1 => depth += 1,
            _ if depth == 0 => return false,
            _ => depth -= 1,
        }
    }
    false
}

/// 1 yes, 0 no; or 39, 1 to 8, 30, 31.
pub fn script(l: Limits, bytes: &[u8], script: &[u8]) -> Result<[u64; 1], u8> {
    let t = parse(l, bytes)?.0;
    if script.iter().any(|&a| t.symbols.len() <= a as usize) {
        return Err(30);
    }
    if too_deep(t.symbols, script) {
        return Err(31);
    }
    Ok([reads(&t, script) as u64])
}
