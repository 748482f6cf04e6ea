//! Tables that a command is lent, as bytes or as text, and their names.

use crate::arguments::{Call, NAMES};
use crate::exit::Failure;
use crate::files;
use crate::maps::Map;
use crate::model::Table;
use crate::names::Names;
use crate::ats::{self, Read};
use crate::{lexer, text, values};
use basilvault::{Limits, Refusal, Tops};
use std::path::{Path, PathBuf};

/// A table: its file, its bytes, readable or not, and, where it is a text, its names.
pub struct Input {
    pub file: PathBuf,
    pub bytes: Vec<u8>,
    limits: Limits,
    names: Option<Names>,
}

/// The table and the names of a text, or of AutomataScript whose names a text can have.
pub fn from_text(file: &Path, bytes: &[u8]) -> Result<(Table, Names), Failure> {
    if ats::is_meant(file, bytes) {
        let Read { table, names, unnamable } = from_script(file, bytes)?;
        return if unnamable.is_empty() { Ok((table, names)) } else { Err(lexer::mistaken(file, &unnamable, "a table with names for a text")) };
    }
    let what = "a table in text form";
    text::read(lexer::text(file, bytes, what)?).map_err(|mistakes| lexer::mistaken(file, &mistakes, what))
}

/// The table of AutomataScript.
pub fn from_script(file: &Path, bytes: &[u8]) -> Result<Read, Failure> {
    let what = "a table in AutomataScript";
    ats::read(lexer::text(file, bytes, what)?).map_err(|mistakes| lexer::mistaken(file, &mistakes, what))
}

impl Input {
    /// The table of a file. What the library reads is a table; what else begins as a text, or is AutomataScript, is one; the rest is left for
    /// the library to refuse.
    pub fn of(limits: Limits, file: &Path) -> Result<Input, Failure> {
        let bytes = files::read(file)?;
        let file = file.to_path_buf();
        if basilvault::read_within(limits, &bytes).is_ok() || !text::is_meant(&bytes) && !ats::is_meant(&file, &bytes) {
            return Ok(Input { file, bytes, limits, names: None });
        }
        let (table, names) = from_text(&file, &bytes)?;
        Ok(Input { file, bytes: table.to_bytes(), limits, names: Some(names) })
    }

    /// The failure of a refused call on this table.
    pub fn refused(&self, refusal: Refusal) -> Failure {
        self.refused_as(refusal, &values::of_table(refusal, self.limits, &self.bytes))
    }

    /// The same, with the values that it is about.
    pub fn refused_as(&self, refusal: Refusal, values: &str) -> Failure {
        Failure::Refused(self.file.display().to_string(), refusal, values.into())
    }

    /// Its reachable stack tops.
    pub fn tops(&self) -> Result<Tops, Failure> {
        basilvault::tops_within(self.limits, &self.bytes).map_err(|refusal| self.refused(refusal))
    }

    /// Its own names, where it is a text.
    pub fn own_names(&self) -> Option<&Names> {
        self.names.as_ref()
    }

    /// Its sections, and names of which only the symbols' are printed: the text of --names may be that of the table before it was reduced.
    pub fn named_symbols(&self, limits: Limits, call: &Call) -> Result<(Table, Names), Failure> {
        match (&self.names, call.path(NAMES.name)) {
            (None, Some(file)) => {
                let table = Table::from_bytes(limits, &self.bytes).map_err(|refusal| self.refused(refusal))?;
                names_of(file, &table, true).map(|names| (table, names))
            }
            _ => self.named(limits, call),
        }
    }

    /// Its sections, and the names to print: its own, those of the option `--names`, or numbered ones.
    pub fn named(&self, limits: Limits, call: &Call) -> Result<(Table, Names), Failure> {
        let table = Table::from_bytes(limits, &self.bytes).map_err(|refusal| self.refused(refusal))?;
        let names = match (&self.names, call.path(NAMES.name)) {
            (Some(_), Some(_)) => Err(Failure::Wrong(format!("{} is a text and has names: --names cannot give it others", self.file.display()), None)),
            (Some(names), None) => Ok(names.clone()),
            (None, Some(file)) => names_of(file, &table, false),
            (None, None) => Ok(Names::numbered(&table)),
        };
        names.map(|names| (table, names))
    }
}

/// The names that a text gives to a table, which must have the same kinds of symbols and, where states are to be named, as many of them.
fn names_of(file: &Path, table: &Table, symbols_alone: bool) -> Result<Names, Failure> {
    let (named, names) = from_text(file, &files::read(file)?)?;
    if symbols_alone && named.symbols == table.symbols {
        return Ok(Names { symbols: names.symbols, ..Names::numbered(table) });
    }
    let fault = if named.symbols != table.symbols {
        "the symbols of the table are of other kinds than those that are named here".into()
    } else if named.states.len() != table.states.len() {
        format!("the table has {} states, and {} are named here", table.states.len(), named.states.len())
    } else {
        return Ok(names);
    };
    Err(Failure::Mistaken(vec![format!("basilvault: {}: {fault}", file.display())]))
}

/// The first table that a command is lent, with its sections, its names and the map that the second argument names.
pub fn with_map(call: &Call) -> Result<(Limits, Input, Table, Names, Map), Failure> {
    let (limits, input) = first(call)?;
    let (table, names) = input.named(limits, call)?;
    let map = Map::read(call.file(1), &names)?;
    Ok((limits, input, table, names, map))
}

/// The first table that a command is lent, with its limits.
pub fn first(call: &Call) -> Result<(Limits, Input), Failure> {
    let limits = call.limits()?;
    Ok((limits, Input::of(limits, call.file(0))?))
}
