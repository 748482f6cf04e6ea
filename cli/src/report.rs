//! The desk's page: what came in, what goes out, and what became of it, in one file that needs nothing else.

mod beside;
mod fates;
mod html;
mod merged;
mod picture;
mod reduction;
mod refused;
mod sections;
mod words;

pub use beside::beside;
pub use reduction::{Proposer, Reduction};
pub use refused::{Refused, refused};

/// The page of a reduction.
pub fn page(reduction: &Reduction, title: &str) -> String {
    let body = [
        sections::head(reduction, title),
        sections::came_in(reduction),
        sections::goes_out(reduction),
        merged::became_one(reduction),
        fates::records(reduction),
        sections::more_to_gain(reduction),
        words::promised(reduction),
        words::not_promised(reduction),
        sections::map(reduction),
        sections::numbers(reduction),
    ];
    html::document(title, &body.concat())
}

#[cfg(test)]
mod tests;
