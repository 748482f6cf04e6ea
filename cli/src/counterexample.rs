//! A script that tells two tables apart. The search is trusted with nothing: a script is given only where the proved `script` says yes on the first table
//! and no on the second, and that there is none is the proved `fit`'s word.

mod levels;
mod product;
mod trace;

use crate::model::Table;
use basilvault::Limits;

/// What there is to show.
#[derive(Clone, Debug, PartialEq, Eq)]
pub enum Found {
    /// A shortest script with at most 64 calls open that the first table accepts and the second does not.
    Script(Vec<u8>),
    /// There is one, but none with at most 64 calls open, or none of under 65,536 symbols.
    Deeper,
    /// Every script of the first table is one of the second, or `fit` refuses the two.
    None,
}

/// A shortest script of the first table that the second does not accept. The second has no choice, and both have the same symbols.
pub fn script(first: &Table, second: &Table) -> Found {
    let (one, other) = (first.to_bytes(), second.to_bytes());
    if basilvault::fit(&one, &other) != Ok(false) {
        return Found::None;
    }
    let accepts = |bytes: &[u8], script: &[u8]| basilvault::script_within(Limits::STANDARD, bytes, script);
    match search(first, second) {
        Some(script) if accepts(&one, &script) == Ok(true) && accepts(&other, &script) == Ok(false) => Found::Script(script),
        _ => Found::Deeper,
    }
}

/// What the search proposes.
fn search(first: &Table, second: &Table) -> Option<Vec<u8>> {
    let product = product::Product::new(first, second);
    let levels = levels::Levels::new(&product, basilvault::MOST_OPEN);
    let (start, end) = levels.best(&product)?;
    Some(trace::word(&product, &levels, levels.deepest(), start, end))
}

#[cfg(test)]
mod tests;
