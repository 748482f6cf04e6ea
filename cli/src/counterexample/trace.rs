//! A script of a length that the levels tell, found backwards from its end.

use super::levels::Levels;
use super::product::Product;

/// A shortest script from x to y with at most `level` calls open; the levels tell that there is one.
pub fn word(product: &Product, levels: &Levels, level: usize, x: usize, y: usize) -> Vec<u8> {
    let mut pieces = Vec::new();
    let mut at = y;
    while levels.length(level, x, at) > 0 {
        let (before, piece) = last(product, levels, level, x, at);
        pieces.push(piece);
        at = before;
    }
    pieces.into_iter().rev().flatten().collect()
}

/// The last internal, or the last call with all up to its return, of a shortest script from x to y, and the pair before it.
fn last(product: &Product, levels: &Levels, level: usize, x: usize, y: usize) -> (usize, Vec<u8>) {
    let whole = levels.length(level, x, y);
    let before = || (0..product.size()).filter(|&p| levels.length(level, x, p) < whole);
    for p in before() {
        let rest = whole - levels.length(level, x, p);
        if let Some((symbol, _)) = product.internals(p).find(|&(_, target)| rest == 1 && target == y) {
            return (p, vec![symbol]);
        }
    }
    let called = |p| wrapped(product, levels, level, p, y, whole - levels.length(level, x, p));
    before().find_map(|p| called(p).map(|piece| (p, piece))).expect("a length has a last move")
}

/// A call from x whose return goes to y, of so many symbols in all.
fn wrapped(product: &Product, levels: &Levels, level: usize, x: usize, y: usize, length: u32) -> Option<Vec<u8>> {
    let (below, inside) = (level.checked_sub(1)?, length.checked_sub(2)?);
    for (call, entry) in product.calls(x) {
        for z in (0..product.size()).filter(|&z| levels.length(below, entry, z) == inside) {
            if let Some((symbol, _)) = product.returns(z, x).find(|&(_, target)| target == y) {
                return Some([vec![call], word(product, levels, below, entry, z), vec![symbol]].concat());
            }
        }
    }
    None
}
