//! The reducer of map-script tables from Rust: every operation of the proved library as a safe function, at the limits of a caller that gives none and,
//! as `.._within`, at given [`Limits`]. Nothing has to hold before a call. A buffer that a call writes cannot overlap another one, since it is
//! borrowed alone. A refused call leaves every buffer as it was, but for the clause list of [`reduce`], which with [`Refusal::OutputShort`] starts with the
//! list.
//!
//! ```
//! use basilvault::{EXAMPLE, Refusal};
//!
//! let (mut list, mut map, mut out) = ([0; 100], [0; 4], [0; 35]);
//! let reduced = basilvault::reduce(&EXAMPLE, 100_000, &mut list, &mut map, &mut out)?;
//! assert_eq!((reduced.classes, reduced.joined, reduced.spent), (3, 1, false));
//! assert_eq!(map, [0, 1, 1, 2]);
//!
//! let small = &out[..reduced.length];
//! for script in [&[1, 2][..], &[1, 0, 0, 2], &[0], &[1]] {
//!     assert_eq!(basilvault::script(&EXAMPLE, script), basilvault::script(small, script));
//! }
//! assert_eq!(basilvault::check(&EXAMPLE, &[0, 1, 1, 1]), Err(Refusal::Agreement));
//! # Ok::<(), Refusal>(())
//! ```
//!
//! [`Table`] owns its bytes and makes the buffers itself:
//!
//! ```
//! use basilvault::{EXAMPLE, Table};
//!
//! let reduction = Table::read(EXAMPLE)?.reduce(100_000)?;
//! assert_eq!((reduction.map, reduction.table.bytes().len()), (vec![0, 1, 1, 2], 31));
//! # Ok::<(), basilvault::Refusal>(())
//! ```
//!
//! The functions over slices take no memory of their own. Output over input does not compile:
//!
//! ```compile_fail,E0502
//! let mut table = basilvault::EXAMPLE;
//! let _ = basilvault::quotient(&table, &[0, 1, 1, 2], &mut table);
//! ```
//!
//! What each operation means, and what is proved of it, say docs/SCOPE.md and docs/PROMISES.md of the repository. This crate's build script takes the archive that the environment
//! variable `BASILVAULT_LIBRARY` names by an absolute path, or the one that `.ci/archive` writes in the repository around this crate.

#![warn(missing_docs)]

mod answers;
mod limits;
mod operations;
#[doc(hidden)]
pub mod raw;
mod refusal;
mod table;

pub use answers::{Counts, How, Listed, Load, Recorded, Reduced, Starts, Tops, Uses};
pub use limits::*;
pub use operations::*;
pub use refusal::{NoRefusal, Refusal};
pub use table::{Reduction, Table};

/// What a call answers, or why it was refused.
pub type Result<T> = std::result::Result<T, Refusal>;

/// Table T of the README: symbols `pan` (0), `country` (1) and `close` (2); it accepts a country and its close with any number of pans between them.
pub const EXAMPLE: [u8; 35] = [
    0, 1, 2, // symbols: internal, call, return
    1, 0, 0, 2, // states: 0 initial, 3 accepting
    0, 0, 2, 1, 0, 1, 2, 0, 2, // internals
    0, 1, 1, // calls
    1, 2, 0, 3, // returns
    0x17, 0, 0x14, 0, 0x10, 0, 7, 0, 4, 0, 1, 0, // trailer
];
