//! Why two states cannot be joined, or that they can: a chain of clauses of the written list, from the pair down to the condition that breaks, in words.

mod chain;
mod clause;
mod decide;
mod moves;
mod text;

use crate::names::Names;
use basilvault::{Limits, Refusal};
pub use chain::Chain;

/// What is said of two states.
#[derive(Clone, Debug, PartialEq, Eq)]
pub struct Answer {
    /// Whether the map joins the two.
    pub joined: bool,
    /// The reasons in words, lines each with its end.
    pub text: String,
    /// What the words say, as clauses: one chain, or one for each case, each a refutation of what it assumes. None where the two may be joined.
    pub chains: Vec<Chain>,
}

/// Which map is asked about: the one that a reduction with so many guesses delivers, or one of a name that the check accepts.
pub enum Of<'a> {
    Reduce,
    Map(&'a str, &'a [u8]),
}

/// Why states p and q of a table are apart in a map, or how they match. Both are states of the table; a refusal is the table's.
pub fn why(limits: Limits, bytes: &[u8], names: &Names, (p, q): (u8, u8), budget: u64, of: Of) -> Result<Answer, Refusal> {
    let asked = decide::Asked::new(limits, bytes, names, budget, of)?;
    if p == q {
        return Ok(Answer { joined: true, text: format!("{} is one state: there is nothing to join.\n", names.state(p)), chains: Vec::new() });
    }
    decide::answer(&asked, p, q)
}

#[cfg(test)]
mod tests;
