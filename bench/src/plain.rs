//! Operations in plain Rust, by the same algorithms as the proved ones and with the same answers on every input.

mod clauses;
mod combine;
mod fit;
mod generate;
mod quotient;
mod reduce;
mod script;
mod search;
mod table;
mod tops;
pub use fit::fit;

pub use clauses::clauses;
pub use combine::combine;
pub use generate::generate;
pub use quotient::{check, quotient};
pub use reduce::reduce;
pub use script::script;
pub use search::search;
pub use table::read;
pub use tops::tops;
