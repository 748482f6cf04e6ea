//! Room for clause lists: as much as a table can need, up to what the caller permits. Memory is taken as it is touched.

use crate::exit::Failure;
use crate::input::Input;
use basilvault::{Limits, Refusal};

/// The words that are there, and how many there may be.
pub struct Room {
    list: Vec<u16>,
    most: usize,
}

impl Room {
    /// Room for at most so many words; none is taken yet.
    pub fn new(most: usize) -> Room {
        Room { list: Vec::new(), most }
    }

    /// Room for the list of each of these tables, where they are readable and so much is permitted.
    pub fn for_tables<'a>(&mut self, limits: Limits, tables: impl IntoIterator<Item = &'a [u8]>) -> Result<&mut [u16], Failure> {
        let wanted = tables.into_iter().map(|bytes| most_of(limits, bytes)).max().unwrap_or(0).min(self.most);
        if self.list.len() < wanted {
            self.list = Vec::new();
            // whether there is so much memory is asked first: taken at once it would end the command where there is not
            let asked = Vec::<u16>::new().try_reserve_exact(wanted);
            asked.map_err(|_| Failure::File(format!("there is not memory enough for {wanted} clause words; --room N takes fewer")))?;
            self.list = vec![0; wanted];
        }
        Ok(&mut self.list)
    }

    /// The failure of a reduction: where the list was longer than the room, how long it is.
    pub fn refused(&self, limits: Limits, input: &Input, refusal: Refusal) -> Failure {
        let needed = match refusal {
            Refusal::ListShort => needed(limits, &input.bytes),
            _ => None,
        };
        match needed {
            Some(words) => input.refused_as(refusal, &format!("{words} words are needed, and --room permits {}", self.most)),
            None => input.refused(refusal),
        }
    }
}

/// The words that a table's list without transitivity has at most.
pub fn most_of(limits: Limits, bytes: &[u8]) -> usize {
    basilvault::read_within(limits, bytes).map_or(0, |starts| starts.counts(bytes.len()).most_short_words())
}

/// The words of a table's list without transitivity, where there is memory to write it.
fn needed(limits: Limits, bytes: &[u8]) -> Option<usize> {
    let mut all = Room::new(basilvault::MOST_WORDS);
    let list = all.for_tables(limits, [bytes]).ok()?;
    let (mut map, mut out) = ([0; basilvault::MOST_STATES], [0; basilvault::LONGEST_FILE]);
    basilvault::reduce_within(limits, bytes, 0, list, &mut map, &mut out).ok().map(|reduced| reduced.words)
}
