//! Random tables.

use super::*;

/// The table of a load: each possible record, in file order, takes one draw; or 35 or 36.
pub fn generated(l: Limits, load: Load) -> Result<Table, u8> {
    judged(l)?;
    let Load { mut seed, states, internals, calls, returns, density } = load;
    let symbols = internals as u128 + calls as u128 + returns as u128;
    if states == 0 || states > l.states || symbols > l.symbols as u128 || density > 65_536 {
        return Err(35);
    }
    let mut present = || {
        seed = ((seed as u64 * 1_664_525 + 1_013_904_223) % (1 << 32)) as u32;
        seed / 65_536 < density
    };
    let n = states as u8;
    let kinds = [(0, internals), (1, calls), (2, returns)];
    let mut table = Table { version: 1, symbols: kinds.iter().flat_map(|&(kind, k)| vec![kind; k]).collect(), states: vec![0; states], internals: vec![], calls: vec![], returns: vec![] };
    table.states[0] += 1;
    table.states[states - 1] += 2;
    let of_kind = |kind: u8| (0..symbols as u8).filter(|&a| table.symbols[a as usize] == kind).collect::<Vec<u8>>();
    let [inner, opening, closing] = [of_kind(0), of_kind(1), of_kind(2)];
    let mut moves = |symbols: &[u8]| {
        let mut records = Vec::new();
        for q in 0..n {
            for &a in symbols {
                for e in 0..n {
                    if present() {
                        records.push([q, a, e]);
                    }
                }
            }
        }
        records
    };
    table.internals = moves(&inner);
    table.calls = moves(&opening);
    for q in 0..n {
        for &a in &closing {
            for s in 0..n {
                for e in 0..n {
                    if present() {
                        table.returns.push([q, a, s, e]);
                    }
                }
            }
        }
    }
    if table.internals.len() > 1024 || table.calls.len() > 1024 || table.returns.len() > 4096 {
        return Err(36);
    }
    Ok(table)
}

/// The operation generate: the file's length.
pub fn generate(l: Limits, load: Load, out: &mut [u8]) -> Result<usize, u8> {
    let bytes = generated(l, load)?.bytes();
    assert_eq!(parse(l, &bytes).map(|x| x.0), generated(l, load), "a generated file is readable");
    if bytes.len() > out.len() {
        return Err(21);
    }
    out[..bytes.len()].copy_from_slice(&bytes);
    Ok(bytes.len())
}
