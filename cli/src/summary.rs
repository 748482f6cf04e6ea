//! What is told of a reduced table.

use crate::input::Input;
use crate::json::{Fields, list};
use basilvault::{Limits, MOST_RECORDS, Recorded, Reduced, Refusal};

/// A reduced table: its states, what the reduction and the records come to, and the map.
pub struct Summary {
    pub states: usize,
    pub reduced: Reduced,
    recorded: Recorded,
    map: Vec<u8>,
}

impl Summary {
    /// That of a table whose map these bytes start with.
    pub fn of(limits: Limits, input: &Input, reduced: Reduced, map: &[u8]) -> Result<Summary, Refusal> {
        let states = basilvault::read_within(limits, &input.bytes)?.counts(input.bytes.len()).states;
        let map = map[..states].to_vec();
        let recorded = basilvault::records_within(limits, &input.bytes, &map, &mut [0; MOST_RECORDS])?;
        Ok(Summary { states, reduced, recorded, map })
    }

    /// The line for people.
    pub fn line(&self, input: &Input) -> String {
        let Summary { states, reduced, recorded, .. } = self;
        let Recorded { records, kept, folded, dead } = recorded;
        let Reduced { classes, guesses, words, joined, ceiling, spent, .. } = reduced;
        let counts = format!("states {states} classes {classes} guesses {guesses} words {words} joined {joined} of {ceiling}");
        let spent = if *spent { " spent" } else { "" };
        format!("{}: {counts}{spent} records {records} kept {kept} folded {folded} dead {dead}", input.file.display())
    }

    /// The fields for programs.
    pub fn fields(&self) -> Fields {
        let Recorded { records, kept, folded, dead } = self.recorded;
        let Reduced { classes, guesses, words, length, joined, ceiling, spent } = self.reduced;
        let mut fields: Fields = vec![("states", self.states.into()), ("classes", classes.into()), ("guesses", guesses.into())];
        fields.extend([("words", words.into()), ("length", length.into()), ("joined", joined.into()), ("ceiling", ceiling.into()), ("spent", spent.into())]);
        fields.extend([("records", records.into()), ("kept", kept.into()), ("folded", folded.into()), ("dead", dead.into())]);
        fields.push(("map", list(self.map.iter().copied())));
        fields
    }

    /// What it means that the budget was spent, where it was.
    pub fn spent(&self, input: &Input) -> Option<String> {
        let Reduced { guesses, spent, .. } = self.reduced;
        spent.then(|| {
            let file = input.file.display();
            format!(
                "basilvault: {file}: all {guesses} guesses are spent: the reduced table accepts the same scripts, but a smaller one may exist; a larger --budget may find it"
            )
        })
    }
}
