//! The operations in plain Rust and inputs for them, for the comparison here, the cases of the program `cases`, the example tables and the benchmarks.

pub mod frames;
pub mod named;
pub mod random;
pub mod reference;

use basilvault::Refusal;
use basilvault::raw::Values;

/// An answer of the library as the plain implementations give it: the values in C's order, or the refusal's number.
pub fn flat<A: Values<K>, const K: usize>(answer: basilvault::Result<A>) -> Result<[u64; K], u8> {
    answer.map(|x| x.values()).map_err(Refusal::number)
}
