//! The operations. Every unsafe block hands on slices that are borrowed for the call, each as its pointer and its length, and room for the values: that is
//! all that the functions of [`raw`](crate::raw) ask for.

use crate::raw::{self, Values};
use crate::{How, Limits, Listed, Load, Recorded, Reduced, Refusal, Result, Starts, Tops, Uses};

/// The answer of a call that is lent room for its values and gives the refusal's number or 0.
fn answer<A: Values<K>, const K: usize>(call: impl FnOnce(*mut u64, usize) -> u32) -> Result<A> {
    let mut values = [0; K];
    match call(values.as_mut_ptr(), K) {
        0 => Ok(A::from_values(values)),
        number => Err(refusal(number.into())),
    }
}

/// The refusal of a number that the library gave.
fn refusal(number: u64) -> Refusal {
    let known = u32::try_from(number).ok().and_then(|number| number.try_into().ok());
    known.unwrap_or_else(|| panic!("the library refused by {number}, which this crate does not know"))
}

/// Calls a function of the library with these arguments and room for its values.
macro_rules! call {
    ($name:ident($($argument:expr),+ $(,)?)) => {
        answer(|values, room| unsafe { raw::$name($($argument,)+ values, room) })
    };
}

/// Reads a table: where its sections start.
///
/// ```
/// let starts = basilvault::read(&basilvault::EXAMPLE)?;
/// assert_eq!((starts.symbols, starts.states, starts.internals, starts.calls, starts.returns), (0, 3, 7, 16, 19));
/// # Ok::<(), basilvault::Refusal>(())
/// ```
pub fn read(table: &[u8]) -> Result<Starts> {
    call!(basilvault_read(table.as_ptr(), table.len()))
}

/// [`read`] at limits.
///
/// ```
/// use basilvault::{EXAMPLE, Limits, Refusal};
///
/// assert_eq!(basilvault::read_within(Limits { states: 3, symbols: 3 }, &EXAMPLE), Err(Refusal::Count));
/// assert_eq!(basilvault::read_within(Limits { states: 0, symbols: 3 }, &EXAMPLE), Err(Refusal::Limits));
/// ```
pub fn read_within(limits: Limits, table: &[u8]) -> Result<Starts> {
    call!(basilvault_read_within(limits.states, limits.symbols, table.as_ptr(), table.len()))
}

/// Works out the reachable stack tops of every state.
///
/// ```
/// use basilvault::BOTTOM;
///
/// let tops = basilvault::tops(&basilvault::EXAMPLE)?;
/// assert_eq!(tops.words[..4], [1 << BOTTOM, 1 << 0, 1 << BOTTOM, 1 << BOTTOM]);
/// assert_eq!(tops.found, 4);
/// # Ok::<(), basilvault::Refusal>(())
/// ```
pub fn tops(table: &[u8]) -> Result<Tops> {
    call!(basilvault_tops(table.as_ptr(), table.len()))
}

/// [`tops`] at limits.
pub fn tops_within(limits: Limits, table: &[u8]) -> Result<Tops> {
    call!(basilvault_tops_within(limits.states, limits.symbols, table.as_ptr(), table.len()))
}

/// Writes the clauses that say which pairs of states may be joined, transitivity included.
///
/// ```
/// let mut list = [0; 72];
/// let listed = basilvault::clauses(&basilvault::EXAMPLE, &mut list)?;
/// assert_eq!((listed.clauses, listed.words), (23, 72));
/// # Ok::<(), basilvault::Refusal>(())
/// ```
pub fn clauses(table: &[u8], list: &mut [u16]) -> Result<Listed> {
    call!(basilvault_clauses(table.as_ptr(), table.len(), list.as_mut_ptr(), list.len()))
}

/// [`clauses`] at limits.
pub fn clauses_within(limits: Limits, table: &[u8], list: &mut [u16]) -> Result<Listed> {
    call!(basilvault_clauses_within(limits.states, limits.symbols, table.as_ptr(), table.len(), list.as_mut_ptr(), list.len()))
}

/// Searches values of so many variables that satisfy the clauses, with at most `budget` guesses: writes 1 or 0 a variable, and answers the guesses made.
/// A clause is its literal count and its literals, 2v for "v is true" and 2v+1 for "v is false".
///
/// ```
/// // one of the two is true, and one is false
/// let mut values = [9; 2];
/// let guesses = basilvault::search(&[2, 0, 2, 2, 1, 3], 2, 9, &mut values)?;
/// assert_eq!((values, guesses), ([1, 0], 1));
/// # Ok::<(), basilvault::Refusal>(())
/// ```
pub fn search(list: &[u16], variables: usize, budget: u64, values: &mut [u8]) -> Result<u64> {
    call!(basilvault_search(list.as_ptr(), list.len(), variables, budget, values.as_mut_ptr(), values.len()))
}

/// [`search`] with as many variables as the limits have pairs of states.
pub fn search_within(limits: Limits, list: &[u16], variables: usize, budget: u64, values: &mut [u8]) -> Result<u64> {
    let Limits { states, symbols } = limits;
    call!(basilvault_search_within(states, symbols, list.as_ptr(), list.len(), variables, budget, values.as_mut_ptr(), values.len()))
}

/// Checks a map, which has the class of each state, by the conditions of the refusals 15 to 20: the class count.
///
/// ```
/// use basilvault::{EXAMPLE, Refusal};
///
/// assert_eq!(basilvault::check(&EXAMPLE, &[0, 1, 1, 2]), Ok(3));
/// assert_eq!(basilvault::check(&EXAMPLE, &[0, 0, 1, 2]), Err(Refusal::Internals));
/// ```
pub fn check(table: &[u8], map: &[u8]) -> Result<usize> {
    call!(basilvault_check(table.as_ptr(), table.len(), map.as_ptr(), map.len()))
}

/// [`check`] at limits.
pub fn check_within(limits: Limits, table: &[u8], map: &[u8]) -> Result<usize> {
    call!(basilvault_check_within(limits.states, limits.symbols, table.as_ptr(), table.len(), map.as_ptr(), map.len()))
}

/// Writes the quotient of a table under a map that the check accepts: its length.
///
/// ```
/// let mut out = [0; 35];
/// let length = basilvault::quotient(&basilvault::EXAMPLE, &[0, 1, 1, 2], &mut out)?;
/// assert_eq!(length, 31);
/// assert_eq!(out[..length][..6], [0, 1, 2, 1, 0, 2]);
/// # Ok::<(), basilvault::Refusal>(())
/// ```
pub fn quotient(table: &[u8], map: &[u8], out: &mut [u8]) -> Result<usize> {
    call!(basilvault_quotient(table.as_ptr(), table.len(), map.as_ptr(), map.len(), out.as_mut_ptr(), out.len()))
}

/// [`quotient`] at limits.
pub fn quotient_within(limits: Limits, table: &[u8], map: &[u8], out: &mut [u8]) -> Result<usize> {
    let Limits { states, symbols } = limits;
    call!(basilvault_quotient_within(states, symbols, table.as_ptr(), table.len(), map.as_ptr(), map.len(), out.as_mut_ptr(), out.len()))
}

/// Reduces a table with at most `budget` guesses. The map goes to the first bytes of `map`, one a state; the reduced table to those of `out`, where the
/// table's own length is always enough; the clauses without transitivity to the first words of `list`.
///
/// ```
/// let (mut list, mut map, mut out) = ([0; 24], [0; 4], [0; 31]);
/// let reduced = basilvault::reduce(&basilvault::EXAMPLE, 1, &mut list, &mut map, &mut out)?;
/// assert_eq!((reduced.classes, reduced.guesses, reduced.words, reduced.length), (3, 1, 24, 31));
/// assert_eq!((reduced.joined, reduced.ceiling, reduced.spent), (1, 1, false));
///
/// // no guesses: a delivery too, but it says so
/// let reduced = basilvault::reduce(&basilvault::EXAMPLE, 0, &mut list, &mut map, &mut [0; 35])?;
/// assert_eq!((map, reduced.spent), ([0, 1, 2, 3], true));
/// # Ok::<(), basilvault::Refusal>(())
/// ```
pub fn reduce(table: &[u8], budget: u64, list: &mut [u16], map: &mut [u8], out: &mut [u8]) -> Result<Reduced> {
    call!(basilvault_reduce(
        table.as_ptr(), table.len(), budget, list.as_mut_ptr(), list.len(), map.as_mut_ptr(), map.len(), out.as_mut_ptr(), out.len(),
    ))
}

/// [`reduce`] at limits.
pub fn reduce_within(limits: Limits, table: &[u8], budget: u64, list: &mut [u16], map: &mut [u8], out: &mut [u8]) -> Result<Reduced> {
    let Limits { states, symbols } = limits;
    call!(basilvault_reduce_within(
        states, symbols, table.as_ptr(), table.len(), budget, list.as_mut_ptr(), list.len(), map.as_mut_ptr(), map.len(), out.as_mut_ptr(), out.len(),
    ))
}

/// Adds up use counts by the classes of a map that the check accepts. A line is a state (one byte) and a use count (32 bits, little-endian).
///
/// ```
/// let lines = [1, 10, 0, 0, 0, 2, 5, 0, 0, 0, 3, 0, 1, 0, 0];
/// let uses = basilvault::uses(&basilvault::EXAMPLE, &[0, 1, 1, 2], &lines)?;
/// assert_eq!((&uses.sums[..4], uses.total), (&[0, 15, 256, 0][..], 271));
/// # Ok::<(), basilvault::Refusal>(())
/// ```
pub fn uses(table: &[u8], map: &[u8], lines: &[u8]) -> Result<Uses> {
    call!(basilvault_uses(table.as_ptr(), table.len(), map.as_ptr(), map.len(), lines.as_ptr(), lines.len()))
}

/// [`uses`] at limits.
pub fn uses_within(limits: Limits, table: &[u8], map: &[u8], lines: &[u8]) -> Result<Uses> {
    let Limits { states, symbols } = limits;
    call!(basilvault_uses_within(states, symbols, table.as_ptr(), table.len(), map.as_ptr(), map.len(), lines.as_ptr(), lines.len()))
}

/// The one of two maps with this number.
fn chosen<'a>(which: u64, first: &'a [u8], second: &'a [u8]) -> &'a [u8] {
    match which {
        1 => first,
        2 => second,
        _ => panic!("the library chooses 1 or 2, not {which}"),
    }
}

/// Hands back that one of two maps, itself, which the check accepts: the one with fewer classes where both pass, the first when equal.
///
/// ```
/// let (drawn, found) = ([0, 1, 2, 3], [0, 1, 1, 2]);
/// let map = basilvault::choose(&basilvault::EXAMPLE, &drawn, &found)?;
/// assert!(std::ptr::eq(map, &found));
/// # Ok::<(), basilvault::Refusal>(())
/// ```
pub fn choose<'a>(table: &[u8], first: &'a [u8], second: &'a [u8]) -> Result<&'a [u8]> {
    let which = call!(basilvault_choose(table.as_ptr(), table.len(), first.as_ptr(), first.len(), second.as_ptr(), second.len()))?;
    Ok(chosen(which, first, second))
}

/// [`choose`] at limits.
pub fn choose_within<'a>(limits: Limits, table: &[u8], first: &'a [u8], second: &'a [u8]) -> Result<&'a [u8]> {
    let Limits { states, symbols } = limits;
    let which = call!(basilvault_choose_within(
        states, symbols, table.as_ptr(), table.len(), first.as_ptr(), first.len(), second.as_ptr(), second.len(),
    ))?;
    Ok(chosen(which, first, second))
}

/// Tells where each record of a table goes under a map that the check accepts: writes a byte for each in file order, [`Recorded::KEPT`],
/// [`Recorded::FOLDED`] into an earlier one, or [`Recorded::DEAD`].
///
/// ```
/// let mut fates = [9; 5];
/// let recorded = basilvault::records(&basilvault::EXAMPLE, &[0, 1, 1, 2], &mut fates)?;
/// assert_eq!((recorded.records, recorded.kept, recorded.folded, recorded.dead), (5, 4, 1, 0));
/// assert_eq!(fates, [0, 0, 1, 0, 0]);
/// # Ok::<(), basilvault::Refusal>(())
/// ```
pub fn records(table: &[u8], map: &[u8], out: &mut [u8]) -> Result<Recorded> {
    call!(basilvault_records(table.as_ptr(), table.len(), map.as_ptr(), map.len(), out.as_mut_ptr(), out.len()))
}

/// [`records`] at limits.
pub fn records_within(limits: Limits, table: &[u8], map: &[u8], out: &mut [u8]) -> Result<Recorded> {
    let Limits { states, symbols } = limits;
    call!(basilvault_records_within(states, symbols, table.as_ptr(), table.len(), map.as_ptr(), map.len(), out.as_mut_ptr(), out.len()))
}

/// Tries a script, a symbol number a byte, on a table: whether the table accepts it.
///
/// ```
/// use basilvault::{EXAMPLE, Refusal};
///
/// assert_eq!(basilvault::script(&EXAMPLE, &[1, 0, 0, 2]), Ok(true));
/// assert_eq!(basilvault::script(&EXAMPLE, &[1, 0, 0]), Ok(false));
/// assert_eq!(basilvault::script(&EXAMPLE, &[1, 3]), Err(Refusal::ScriptSymbol));
/// ```
pub fn script(table: &[u8], script: &[u8]) -> Result<bool> {
    call!(basilvault_script(table.as_ptr(), table.len(), script.as_ptr(), script.len()))
}

/// [`script()`] at limits.
pub fn script_within(limits: Limits, table: &[u8], script: &[u8]) -> Result<bool> {
    call!(basilvault_script_within(limits.states, limits.symbols, table.as_ptr(), table.len(), script.as_ptr(), script.len()))
}

/// Writes a random table, the same for the same load: its length.
///
/// ```
/// use basilvault::{LONGEST_FILE, Load};
///
/// let mut out = [0; LONGEST_FILE];
/// let load = Load { seed: 7, states: 5, internals: 1, calls: 1, returns: 1, density: 13_000 };
/// let length = basilvault::generate(load, &mut out)?;
/// assert_eq!(basilvault::read(&out[..length])?.counts(length).states, 5);
/// # Ok::<(), basilvault::Refusal>(())
/// ```
pub fn generate(load: Load, out: &mut [u8]) -> Result<usize> {
    let Load { seed, states, internals, calls, returns, density } = load;
    call!(basilvault_generate(seed, states, internals, calls, returns, density, out.as_mut_ptr(), out.len()))
}

/// [`generate`] at limits.
pub fn generate_within(limits: Limits, load: Load, out: &mut [u8]) -> Result<usize> {
    let Load { seed, states, internals, calls, returns, density } = load;
    call!(basilvault_generate_within(
        limits.states, limits.symbols, seed, states, internals, calls, returns, density, out.as_mut_ptr(), out.len(),
    ))
}

/// Compares two tables: whether the second accepts every word of the first. Both are read at 24 states and 32 symbols.
///
/// ```
/// use basilvault::EXAMPLE;
///
/// let mut small = [0; 35];
/// let length = basilvault::quotient(&EXAMPLE, &[0, 1, 1, 2], &mut small)?;
/// assert!(basilvault::fit(&EXAMPLE, &small[..length])?);
/// // with no accepting state there are no words
/// let mut empty = EXAMPLE;
/// empty[6] = 0;
/// assert!(basilvault::fit(&empty, &EXAMPLE)?);
/// assert!(!basilvault::fit(&EXAMPLE, &empty)?);
/// # Ok::<(), basilvault::Refusal>(())
/// ```
pub fn fit(first: &[u8], second: &[u8]) -> Result<bool> {
    call!(basilvault_fit(first.as_ptr(), first.len(), second.as_ptr(), second.len()))
}

/// Combines two tables with equal symbols into one: its length.
///
/// ```
/// use basilvault::{EXAMPLE, How, LONGEST_FILE};
///
/// let mut out = [0; LONGEST_FILE];
/// let length = basilvault::combine(&EXAMPLE, &EXAMPLE, How::Intersection, &mut out)?;
/// assert_eq!(basilvault::script(&out[..length], &[1, 0, 0, 2]), Ok(true));
/// assert_eq!(basilvault::read(&out[..length])?.counts(length).states, 16);
/// # Ok::<(), basilvault::Refusal>(())
/// ```
pub fn combine(first: &[u8], second: &[u8], how: How, out: &mut [u8]) -> Result<usize> {
    match how {
        How::Intersection => {
            call!(basilvault_intersection(first.as_ptr(), first.len(), second.as_ptr(), second.len(), out.as_mut_ptr(), out.len()))
        }
        How::Union => call!(basilvault_union(first.as_ptr(), first.len(), second.as_ptr(), second.len(), out.as_mut_ptr(), out.len())),
    }
}

/// [`combine`] at limits.
pub fn combine_within(limits: Limits, first: &[u8], second: &[u8], how: How, out: &mut [u8]) -> Result<usize> {
    let Limits { states, symbols } = limits;
    match how {
        How::Intersection => call!(basilvault_intersection_within(
            states, symbols, first.as_ptr(), first.len(), second.as_ptr(), second.len(), out.as_mut_ptr(), out.len(),
        )),
        How::Union => {
            call!(basilvault_union_within(states, symbols, first.as_ptr(), first.len(), second.as_ptr(), second.len(), out.as_mut_ptr(), out.len()))
        }
    }
}

/// The answers of so many tables, of which each has a row: its number or 0, and what a reduction answers.
fn seasoned(rows: [u64; 64], count: usize) -> Vec<Result<Reduced>> {
    let row = |row: &[u64]| match row[0] {
        0 => Ok(Reduced::from_values(std::array::from_fn(|k| row[1 + k]))),
        number => Err(refusal(number)),
    };
    rows.chunks_exact(8).take(count).map(row).collect()
}

/// Reduces up to eight tables, which stand back to back and have these lengths, with so many guesses for all. Each may use its share and what earlier ones
/// left. Maps and reduced tables are written back to back; a refused table writes none, and the rest go on. The answer has an entry for each table.
///
/// ```
/// use basilvault::{EXAMPLE, Refusal};
///
/// let tables = [&EXAMPLE[..], &[0; 11], &EXAMPLE].concat();
/// let (mut list, mut maps, mut out) = ([0; 24], [9; 8], [0; 70]);
/// let season = basilvault::season(&tables, &[35, 11, 35], 30, &mut list, &mut maps, &mut out)?;
/// assert_eq!(season[0].map(|reduced| reduced.length), Ok(31));
/// assert_eq!(season[1], Err(Refusal::Length));
/// assert_eq!(season[2], season[0]);
/// assert_eq!(maps, [0, 1, 1, 2, 0, 1, 1, 2]);
/// assert_eq!(out[..31], out[31..62]);
/// # Ok::<(), Refusal>(())
/// ```
pub fn season(tables: &[u8], lengths: &[u64], guesses: u64, list: &mut [u16], maps: &mut [u8], out: &mut [u8]) -> Result<Vec<Result<Reduced>>> {
    let rows = call!(basilvault_season(
        tables.as_ptr(), tables.len(), lengths.as_ptr(), lengths.len(), guesses,
        list.as_mut_ptr(), list.len(), maps.as_mut_ptr(), maps.len(), out.as_mut_ptr(), out.len(),
    ))?;
    Ok(seasoned(rows, lengths.len()))
}

/// [`season`] at limits.
pub fn season_within(
    limits: Limits, tables: &[u8], lengths: &[u64], guesses: u64, list: &mut [u16], maps: &mut [u8], out: &mut [u8],
) -> Result<Vec<Result<Reduced>>> {
    let rows = call!(basilvault_season_within(
        limits.states, limits.symbols, tables.as_ptr(), tables.len(), lengths.as_ptr(), lengths.len(), guesses,
        list.as_mut_ptr(), list.len(), maps.as_mut_ptr(), maps.len(), out.as_mut_ptr(), out.len(),
    ))?;
    Ok(seasoned(rows, lengths.len()))
}
