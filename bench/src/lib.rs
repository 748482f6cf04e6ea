//! What both programs use, and the operations in plain Rust: in a library of their own, so that they are compiled alike whatever else is measured.

pub mod dimacs;
pub mod plain;
