//! The reachable stack tops of a table.

use super::table::{parse, Table};
use basilvault_tests::reference::Limits;

/// A word of tops a state.
pub type Words = [u64; 40];

/// Whether top x is in the word of state q.
pub fn has_top(words: &Words, q: u8, x: u8) -> bool {
    words[q as usize] >> x & 1 == 1
}

/// Every record once: what it adds to the word of its target.
fn round(t: &Table, words: &mut Words) {
    for &[p, _, e] in t.internals {
        words[e as usize] |= words[p as usize];
    }
    for &[p, _, e] in t.calls {
        if words[p as usize] != 0 {
            words[e as usize] |= 1 << p;
        }
    }
    for &[p, _, s, e] in t.returns {
        if has_top(words, p, s) {
            words[e as usize] |= words[s as usize];
        }
    }
}

/// All records pass until a round changes nothing.
pub fn words_of(t: &Table) -> Words {
    let mut words = [0; 40];
    for (word, state) in words.iter_mut().zip(t.states) {
        if state % 2 == 1 {
            *word = 1 << 40;
        }
    }
    loop {
        let before = words;
        round(t, &mut words);
        if words == before {
            return words;
        }
    }
}

/// The 40 words, then the number of tops found.
pub fn tops(l: Limits, bytes: &[u8]) -> Result<[u64; 41], u8> {
    let words = words_of(&parse(l, bytes)?.0);
    let mut answer = [0; 41];
    answer[..40].copy_from_slice(&words);
    answer[40] = words.iter().map(|w| w.count_ones() as u64).sum();
    Ok(answer)
}
