//! Of two maps the better one.

use super::*;

/// The operation choose: which of two maps the check accepts, 1 or 2; of two accepted ones that with fewer classes, the first when equal.
pub fn choose(l: Limits, b: &[u8], first: &[u8], second: &[u8]) -> Result<u8, u8> {
    parse(l, b)?;
    match (check(l, b, first), check(l, b, second)) {
        (Err(_), Err(_)) => Err(40),
        (Err(_), Ok(_)) => Ok(2),
        (Ok(x), Ok(y)) if y < x => Ok(2),
        _ => Ok(1),
    }
}
