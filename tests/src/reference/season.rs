//! A season: tables back to back on one budget.

use super::*;

/// What a season answers for each of up to eight tables: number, classes, guesses, words, length, joined, ceiling, spent.
pub type Season = [[u64; 8]; 8];

/// The operation season: tables back to back, reduced in order with shared guesses.
pub fn season(l: Limits, tables: &[u8], lengths: &[u64], guesses: u64, list: &mut [u16], maps: &mut [u8], out: &mut [u8]) -> Result<Season, u8> {
    judged(l)?;
    let k = lengths.len();
    let sum: u128 = lengths.iter().map(|&x| u128::from(x)).sum();
    if k == 0 || k > 8 || sum != tables.len() as u128 {
        return Err(34);
    }
    let share = guesses / k as u64;
    let mut answers = [[0; 8]; 8];
    let (mut at, mut map_at, mut out_at, mut used) = (0, 0, 0, 0);
    for (i, &length) in lengths.iter().enumerate() {
        let table = &tables[at..at + length as usize];
        at += length as usize;
        let allowed = (i as u64 + 1) * share - used;
        match reduce(l, table, allowed, list, &mut maps[map_at..], &mut out[out_at..]) {
            Err(number) => answers[i][0] = u64::from(number),
            Ok(x) => {
                answers[i][1..].copy_from_slice(&x.values());
                map_at += parse(l, table)?.0.count();
                out_at += x.length;
                used += x.guesses;
            }
        }
    }
    assert!(used <= guesses);
    Ok(answers)
}
