//! What the command `basilvault` is made of: tables as sections and as text, pictures, reports and reasons. All that matters is done by the proved library
//! behind the crate `basilvault`.

#![forbid(unsafe_code)]

pub mod answer;
pub mod arguments;
pub mod ats;
pub mod commands;
pub mod compared;
pub mod counterexample;
pub mod draw;
pub mod exit;
pub mod facts;
pub mod files;
pub mod help;
pub mod input;
pub mod json;
pub mod lexer;
pub mod load;
pub mod manual;
pub mod maps;
pub mod model;
pub mod names;
pub mod progress;
pub mod report;
pub mod room;
pub mod shells;
pub mod solver;
pub mod summary;
pub mod text;
pub mod trace;
pub mod values;
pub mod why;

#[cfg(test)]
mod samples;
