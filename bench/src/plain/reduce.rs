//! Reducing a table: it is read once, and its tops are worked out once.

use super::clauses::list_of;
use super::quotient::quotient_read;
use super::search::solve;
use super::table::parse;
use super::tops::words_of;
use basilvault_tests::reference::Limits;

/// The map of an assignment: each state gets the class of the lowest state that is joined to it, or a new one.
fn map_of(values: &[u8], n: usize) -> [u8; 40] {
    let mut map = [0; 40];
    let mut next = 0;
    for q in 0..n {
        let first = q * q.saturating_sub(1) / 2;
        match values[first..first + q].iter().position(|&x| x == 1) {
            Some(p) => map[q] = map[p],
            None => {
                map[q] = next;
                next += 1;
            }
        }
    }
    map
}

/// Classes, guesses, clause words, quotient length, joined pairs, ceiling, spent; the list, the map and the quotient.
pub fn reduce(l: Limits, bytes: &[u8], budget: u64, list: &mut [u16], map: &mut [u8], out: &mut [u8]) -> Result<[u64; 7], u8> {
    let (t, _) = parse(l, bytes)?;
    let n = t.count();
    if map.len() < n {
        return Err(22);
    }
    let tops = words_of(&t);
    let (_, words) = list_of(&t, &tops, list, false)?;
    let end = solve(&list[..words], n, n * (n - 1) / 2, budget)?;
    let found = map_of(&end.values, n);
    let (classes, length) = quotient_read(&t, &tops, &found[..n], out)?;
    map[..n].copy_from_slice(&found[..n]);
    let joined = end.values[..n * (n - 1) / 2].iter().filter(|&&x| x == 1).count();
    Ok([classes as u64, end.guesses, words as u64, length as u64, joined as u64, end.ceiling as u64, end.spent as u64])
}
