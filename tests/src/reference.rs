//! The operations once more, written from documents 01 and 02 alone, for comparison. Plain and slow: sets, vectors and nested loops.

mod check;
mod choose;
mod clauses;
mod combine;
mod fit;
mod generate;
mod quotient;
mod records;
mod reduce;
mod script;
mod search;
mod season;
mod table;
mod tops;
mod uses;

pub use check::*;
pub use choose::*;
pub use clauses::*;
pub use combine::*;
pub use fit::*;
pub use generate::*;
pub use quotient::*;
pub use records::*;
pub use reduce::*;
pub use script::*;
pub use search::*;
pub use season::*;
pub use table::*;
pub use tops::*;
pub use uses::*;
