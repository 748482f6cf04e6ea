//! Tables to try things on.

use crate::model::Table;
use basilvault::{Limits, Load};

/// The bytes of a table of the examples.
pub fn example(name: &str) -> Vec<u8> {
    std::fs::read(format!("{}/../tables/{name}.bin", env!("CARGO_MANIFEST_DIR"))).expect("an example table")
}

/// The bytes of a random table.
pub fn random(load: Load) -> Vec<u8> {
    let mut bytes = vec![0; basilvault::LONGEST_FILE];
    let length = basilvault::generate_within(Limits::LARGEST, load, &mut bytes).expect("a load within the limits");
    bytes.truncate(length);
    bytes
}

/// A table that bytes are.
pub fn table(bytes: &[u8]) -> Table {
    Table::from_bytes(Limits::LARGEST, bytes).expect("a readable table")
}
