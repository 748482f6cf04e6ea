//! Two tables combined.

use super::quotient::write_keys;
use super::table::{Table, parse};
use basilvault::How;
use basilvault_tests::reference::Limits;

/// Keys, as many as there is room for.
struct Keys<'a> {
    room: &'a mut [u32],
    count: usize,
}

impl Keys<'_> {
    /// One more; or 36.
    fn push(&mut self, key: u32) -> Result<(), u8> {
        *self.room.get_mut(self.count).ok_or(36)? = key;
        self.count += 1;
        Ok(())
    }
}

/// A record's number, its first byte the highest.
fn key<const W: usize>(record: &[u8; W]) -> u32 {
    record.iter().fold(0, |key, &byte| key * 256 + u32::from(byte))
}

/// Where the records of each state and symbol begin, and one entry more for the end.
fn starts<const W: usize>(records: &[[u8; W]], states: usize) -> Vec<usize> {
    let place = |record: &[u8; W]| usize::from(record[0]) * 64 + usize::from(record[1]);
    let mut starts = vec![records.len(); states * 64 + 1];
    let mut next = 0;
    for (i, record) in records.iter().enumerate().filter(|(i, record)| *i == 0 || place(&records[i - 1]) < place(record)) {
        starts[next..=place(record)].fill(i);
        next = place(record) + 1;
    }
    starts
}

/// The records of the sum.
fn sum<const W: usize>(room: &mut [u32], first: &[[u8; W]], second: &[[u8; W]], states: u8) -> Result<usize, u8> {
    let mut keys = Keys { room, count: 0 };
    first.iter().try_for_each(|record| keys.push(key(record)))?;
    for record in second {
        let mut shifted = record.map(|q| q.wrapping_add(states));
        shifted[1] = record[1];
        keys.push(key(&shifted))?;
    }
    Ok(keys.count)
}

/// The targets of two blocks, after the other bytes of their records.
fn targets<const W: usize>(keys: &mut Keys, first: &[[u8; W]], second: &[[u8; W]], m: u32, prefix: u32) -> Result<(), u8> {
    for r in first {
        for s in second {
            keys.push(prefix * 256 + u32::from(r[W - 1]) * m + u32::from(s[W - 1]))?;
        }
    }
    Ok(())
}

/// The records of the product: by pair, symbol and, of returns, the pair that was pushed.
fn product<const W: usize>(room: &mut [u32], first: &[[u8; W]], second: &[[u8; W]], [n, m, symbols]: [usize; 3]) -> Result<usize, u8> {
    let [one, two] = [starts(first, n), starts(second, m)];
    let mut keys = Keys { room, count: 0 };
    for pair in 0..n * m {
        for symbol in 0..symbols {
            let [at, other_at] = [pair / m * 64 + symbol, pair % m * 64 + symbol];
            let (own, other) = (&first[one[at]..one[at + 1]], &second[two[other_at]..two[other_at + 1]]);
            let prefix = (pair * 256 + symbol) as u32;
            if W == 3 {
                targets(&mut keys, own, other, m as u32, prefix)?;
                continue;
            }
            if own.is_empty() || other.is_empty() {
                continue;
            }
            for pushed in 0..n * m {
                let range = |records: &[[u8; W]], state: usize| {
                    let from = records.partition_point(|r| usize::from(r[2]) < state);
                    from..from + records[from..].iter().take_while(|r| usize::from(r[2]) == state).count()
                };
                let (own, other) = (&own[range(own, pushed / m)], &other[range(other, pushed % m)]);
                targets(&mut keys, own, other, m as u32, prefix * 256 + pushed as u32)?;
            }
        }
    }
    Ok(keys.count)
}

/// The states' bytes.
fn state_bytes(t: &Table, u: &Table, how: How, out: &mut [u8; 40]) -> usize {
    let (n, m) = (t.count(), u.count());
    if how == How::Union {
        out[..n].copy_from_slice(t.states);
        out[n..n + m].copy_from_slice(u.states);
        return n + m;
    }
    for (x, byte) in out[..n * m].iter_mut().enumerate() {
        let (p, q) = (t.states[x / m], u.states[x % m]);
        *byte = (p & q & 3) | (p & !3);
    }
    n * m
}

/// Its length; the file.
pub fn combine(l: Limits, first: &[u8], second: &[u8], how: How, out: &mut [u8]) -> Result<[u64; 1], u8> {
    let ((t, _), (u, _)) = (parse(l, first)?, parse(l, second)?);
    if t.symbols != u.symbols {
        return Err(37);
    }
    let (n, m) = (t.count(), u.count());
    if (if how == How::Union { n + m } else { n * m }) > l.states {
        return Err(35);
    }
    let mut room = ([0; 1024], [0; 1024], [0; 4096]);
    let counts = match how {
        How::Union => [
            sum(&mut room.0, t.internals, u.internals, n as u8)?,
            sum(&mut room.1, t.calls, u.calls, n as u8)?,
            sum(&mut room.2, t.returns, u.returns, n as u8)?,
        ],
        How::Intersection => {
            let sizes = [n, m, t.symbols.len()];
            [product(&mut room.0, t.internals, u.internals, sizes)?, product(&mut room.1, t.calls, u.calls, sizes)?, product(&mut room.2, t.returns, u.returns, sizes)?]
        }
    };
    let mut states = [0; 40];
    let count = state_bytes(&t, &u, how, &mut states);
    let version = t.version.max(u.version);
    let length = write_keys(version, t.symbols, &states[..count], &room.0[..counts[0]], &room.1[..counts[1]], &room.2[..counts[2]], out)?;
    Ok([length as u64])
}
