//! Two tables combined: the product and the sum.

use super::*;
use basilvault::How;

/// The product's internals or calls: both move by the symbol.
fn paired(m: u8, first: &[[u8; 3]], second: &[[u8; 3]]) -> Vec<[u8; 3]> {
    let mut records = Vec::new();
    for x in first {
        for y in second {
            if x[1] == y[1] {
                records.push([x[0] * m + y[0], x[1], x[2] * m + y[2]]);
            }
        }
    }
    records.sort();
    records
}

/// The product's returns: both move by the symbol, over the pair that was pushed.
fn paired_returns(m: u8, first: &[[u8; 4]], second: &[[u8; 4]]) -> Vec<[u8; 4]> {
    let mut records = Vec::new();
    for x in first {
        for y in second {
            if x[1] == y[1] {
                records.push([x[0] * m + y[0], x[1], x[2] * m + y[2], x[3] * m + y[3]]);
            }
        }
    }
    records.sort();
    records
}

/// The product, for at most 40 pairs: pair (p, q) is state p·m + q.
fn product(version: u16, a: &Table, b: &Table) -> Table {
    let m = b.count() as u8;
    let mut states = Vec::new();
    for p in 0..a.count() {
        for q in 0..b.count() {
            let initial = (a.initial(p) && b.initial(q)) as u8;
            let accepting = (a.accepting(p) && b.accepting(q)) as u8;
            states.push(initial + 2 * accepting + 4 * a.mark(p));
        }
    }
    Table {
        version,
        symbols: a.symbols.clone(),
        states,
        internals: paired(m, &a.internals, &b.internals),
        calls: paired(m, &a.calls, &b.calls),
        returns: paired_returns(m, &a.returns, &b.returns),
    }
}

/// The sum, for at most 40 states: the first's, then the second's, each with its byte and its records.
fn sum(version: u16, a: &Table, b: &Table) -> Table {
    let n = a.count() as u8;
    let mut table = Table { version, ..a.clone() };
    table.states.extend(b.states.iter().copied());
    table.internals.extend(b.internals.iter().map(|r| [r[0] + n, r[1], r[2] + n]));
    table.calls.extend(b.calls.iter().map(|r| [r[0] + n, r[1], r[2] + n]));
    table.returns.extend(b.returns.iter().map(|r| [r[0] + n, r[1], r[2] + n, r[3] + n]));
    table
}

/// The combined table, or the first of 39, the first table's refusals, the second's, 37, 35 and 36.
pub fn combined(l: Limits, first: &[u8], second: &[u8], how: How) -> Result<Table, u8> {
    judged(l)?;
    let a = parse(l, first)?.0;
    let b = parse(l, second)?.0;
    if a.symbols != b.symbols {
        return Err(37);
    }
    let count = match how {
        How::Intersection => a.count() * b.count(),
        How::Union => a.count() + b.count(),
    };
    if count > l.states {
        return Err(35);
    }
    let version = if a.version == 2 || b.version == 2 { 2 } else { 1 };
    let table = match how {
        How::Intersection => product(version, &a, &b),
        How::Union => sum(version, &a, &b),
    };
    if table.internals.len() > 1024 || table.calls.len() > 1024 || table.returns.len() > 4096 {
        return Err(36);
    }
    Ok(table)
}

/// The operation combine: the file's length.
pub fn combine(l: Limits, first: &[u8], second: &[u8], how: How, out: &mut [u8]) -> Result<usize, u8> {
    let bytes = combined(l, first, second, how)?.bytes();
    if bytes.len() > out.len() {
        return Err(21);
    }
    out[..bytes.len()].copy_from_slice(&bytes);
    Ok(bytes.len())
}
