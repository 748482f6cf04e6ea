//! Use counts by class.

use super::*;

/// The operation uses: the sums by class, one for each possible state, and the total.
pub fn uses(l: Limits, b: &[u8], map: &[u8], lines: &[u8]) -> Result<([u64; 40], u64), u8> {
    check(l, b, map)?;
    if lines.len() % 5 != 0 || lines.len() / 5 > 65_536 {
        return Err(32);
    }
    let n = parse(l, b)?.0.count();
    if lines.chunks(5).any(|x| x[0] as usize >= n) {
        return Err(33);
    }
    let mut sums = [0; 40];
    for x in lines.chunks(5) {
        sums[map[x[0] as usize] as usize] += u32::from_le_bytes([x[1], x[2], x[3], x[4]]) as u64;
    }
    Ok((sums, sums.iter().sum()))
}
