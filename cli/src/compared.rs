//! Two tables that are compared or combined: their symbols matched by name where both have names, else by place.

use crate::counterexample::{self, Found};
use crate::arguments::{Call, NAMES};
use crate::exit::{Failure, Status, note};
use crate::input::Input;
use crate::model::{Kind, Table};
use crate::names::Names;
use basilvault::{Limits, Refusal};

/// Two tables with one numbering of their symbols.
pub struct Compared {
    pub first: Input,
    pub second: Input,
    pub tables: [Table; 2],
    /// both have the first's names of symbols
    pub names: [Names; 2],
}

/// Whether one table fits in the other.
pub enum Fit {
    Yes,
    /// No, with a script that tells the two apart, where one can be tried.
    No(Option<Vec<u8>>),
    /// The library refuses to say.
    Refused(Refusal),
}

impl Compared {
    /// The tables that a call names, read at the limits of the comparison.
    pub fn of(call: &Call) -> Result<Compared, Failure> {
        Compared::within(Limits::STANDARD, call).map_err(smaller)
    }

    /// The tables that a call names, read at limits.
    pub fn within(limits: Limits, call: &Call) -> Result<Compared, Failure> {
        let [first, second] = [0, 1].map(|place| Input::of(limits, call.file(place)));
        let (first, second) = (first?, second?);
        let (table, names) = first.named_symbols(limits, call)?;
        let mut other = Table::from_bytes(limits, &second.bytes).map_err(|refusal| second.refused(refusal))?;
        let named = [first.own_names().is_some() || call.has(NAMES.name), second.own_names().is_some()];
        match (named, second.own_names()) {
            ([true, true], Some(others)) => other = renumbered((&first, &table, &names), (&second, &other, others))?,
            ([true, false] | [false, true], _) => {
                let without = if named[0] { &second } else { &first };
                note(&format!("basilvault: {} has no names: symbols are compared by their places", without.file.display()));
            }
            _ => {}
        }
        let states = second.own_names().map_or_else(|| Names::numbered(&other), Clone::clone);
        let others = Names { symbols: names.symbols.clone(), ..states };
        Ok(Compared { first, second, tables: [table, other], names: [names, others] })
    }

    /// Whether the first fits in the second or, turned, the second in the first.
    pub fn fit(&self, turned: bool) -> Fit {
        let [one, other] = if turned { [&self.tables[1], &self.tables[0]] } else { [&self.tables[0], &self.tables[1]] };
        let [bytes, others] = [one, other].map(Table::to_bytes);
        match basilvault::fit(&bytes, &others) {
            Err(refusal) => Fit::Refused(refusal),
            Ok(true) => Fit::Yes,
            Ok(false) => match counterexample::script(one, other) {
                // the library has the last word on a script that is printed
                Found::Script(script) if basilvault::script(&bytes, &script) == Ok(true) && basilvault::script(&others, &script) == Ok(false) => {
                    Fit::No(Some(script))
                }
                _ => Fit::No(None),
            },
        }
    }
}

/// What is said of two tables: `equal` or not, a line for each script and each way that is not told, and the status.
pub struct Verdict {
    pub head: &'static str,
    pub lines: Vec<String>,
    pub status: Status,
}

impl Compared {
    /// Whether each fits in the other. Symbols that differ do so both ways, and are a failure.
    pub fn both(&self) -> Result<[Fit; 2], Failure> {
        let both = [self.fit(false), self.fit(true)];
        match both[0] {
            Fit::Refused(refusal) if refusal != Refusal::Choice => Err(self.second.refused(refusal)),
            _ => Ok(both),
        }
    }

    /// What is said of both ways.
    pub fn verdict(&self, both: &[Fit; 2]) -> Verdict {
        let head = match both {
            [Fit::Yes, Fit::Yes] => "equal",
            [Fit::Yes, _] => "the first fits",
            [_, Fit::Yes] => "the second fits",
            [Fit::No(_), Fit::No(_)] => "neither",
            _ => "not told",
        };
        let mut verdict = Verdict { head, lines: Vec::new(), status: Status::from(head == "equal") };
        for (fit, (which, into)) in both.iter().zip([("the first", &self.second), ("the second", &self.first)]) {
            match fit {
                Fit::Yes => {}
                Fit::No(script) => verdict.lines.push(self.alone(which, script)),
                Fit::Refused(_) => {
                    verdict.lines.push(format!("whether {which} fits is not told: {} has a choice", into.file.display()));
                    verdict.status = Status::Refused;
                }
            }
        }
        verdict
    }

    /// A script by its symbols' names.
    pub fn words(&self, script: &[u8]) -> Vec<&str> {
        script.iter().map(|&symbol| self.names[0].symbol(symbol)).collect()
    }

    /// What is said of a script that one table alone accepts.
    pub fn alone(&self, which: &str, script: &Option<Vec<u8>>) -> String {
        match script.as_deref() {
            Some([]) => format!("{which} alone accepts the empty script"),
            Some(script) => format!("{which} alone accepts: {}", self.words(script).join(" ")),
            None => format!("{which} alone accepts scripts, but with more calls open, or longer, than can be tried"),
        }
    }
}

/// The failure of a table that is too large to be compared says what helps.
fn smaller(failure: Failure) -> Failure {
    match failure {
        Failure::Refused(what, refusal @ Refusal::Count, values) => {
            let Limits { states, symbols } = Limits::STANDARD;
            let help = format!("{values}: tables of at most {states} states and {symbols} symbols can be compared; reduce both first");
            Failure::Refused(what, refusal, help)
        }
        other => other,
    }
}

/// The second table with its symbols in the order of the first's, by their names.
fn renumbered((first, table, names): (&Input, &Table, &Names), (second, other, others): (&Input, &Table, &Names)) -> Result<Table, Failure> {
    let place = |name: &str, names: &Names| names.symbols.iter().position(|symbol| symbol == name);
    let fault = |text: String| Failure::Mistaken(vec![format!("basilvault: {text}")]);
    for (own, input, missing, there) in [(names, first, second, others), (others, second, first, names)] {
        if let Some(name) = own.symbols.iter().find(|name| place(name, there).is_none()) {
            return Err(fault(format!("{} has the symbol {name}, and {} has none of that name", input.file.display(), missing.file.display())));
        }
    }
    let mut numbers = vec![0; others.symbols.len()];
    for (number, name) in others.symbols.iter().enumerate() {
        let to = place(name, names).unwrap_or_default();
        let [here, there] = [table.symbols[to], other.symbols[number]];
        if here != there {
            let [here, there] = [here, there].map(kind);
            return Err(fault(format!("{name} is {here} in {}, and {there} in {}", first.file.display(), second.file.display())));
        }
        numbers[number] = to as u8;
    }
    let moved = |&[state, symbol, target]: &[u8; 3]| [state, numbers[usize::from(symbol)], target];
    let mut renumbered = Table {
        symbols: table.symbols.clone(),
        internals: other.internals.iter().map(moved).collect(),
        calls: other.calls.iter().map(moved).collect(),
        returns: other.returns.iter().map(|&[state, symbol, stack, target]| [state, numbers[usize::from(symbol)], stack, target]).collect(),
        ..other.clone()
    };
    renumbered.internals.sort_unstable();
    renumbered.calls.sort_unstable();
    renumbered.returns.sort_unstable();
    Ok(renumbered)
}

/// A symbol's kind in words.
fn kind(kind: Kind) -> &'static str {
    match kind {
        Kind::Internal => "an internal",
        Kind::Call => "a call",
        Kind::Return => "a return",
    }
}
