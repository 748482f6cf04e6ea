//! The values that a refusal is about, and what is permitted in their place.

use basilvault::{Limits, Load, MOST_CALLS, MOST_DENSITY, MOST_INTERNALS, MOST_RETURNS, MOST_STATES, MOST_SYMBOLS, Refusal, TRAILER};

/// Those of a table that is refused by 1, 4 or 39; nothing of others.
pub fn of_table(refusal: Refusal, limits: Limits, bytes: &[u8]) -> String {
    match refusal {
        Refusal::Length => format!("it has {} bytes, and {TRAILER} to {} are permitted", bytes.len(), limits.longest()),
        Refusal::Count => counts(limits, bytes),
        _ => of_limits(refusal, limits),
    }
}

/// Those of limits that are refused by 39.
pub fn of_limits(refusal: Refusal, limits: Limits) -> String {
    let outside = |name: &str, given: usize, most: usize| (given == 0 || given > most).then(|| format!("--{name} {given}, and 1 to {most} is permitted"));
    match refusal {
        Refusal::Limits => outside("states", limits.states, MOST_STATES).or_else(|| outside("symbols", limits.symbols, MOST_SYMBOLS)).unwrap_or_default(),
        _ => String::new(),
    }
}

/// Those of a load that is refused by 35 or 39.
pub fn of_load(refusal: Refusal, limits: Limits, load: Load) -> String {
    let symbols = load.internals.saturating_add(load.calls).saturating_add(load.returns);
    match refusal {
        Refusal::Load if load.states == 0 || load.states > limits.states => format!("{} states, and 1 to {} are permitted", load.states, limits.states),
        Refusal::Load if symbols > limits.symbols => format!("{symbols} symbols, and at most {} are permitted", limits.symbols),
        Refusal::Load => format!("a density of {}, and at most {MOST_DENSITY} is permitted", load.density),
        _ => of_limits(refusal, limits),
    }
}

/// The first count that a table has outside its limits: by the distances of its trailer, which the library has found in order.
fn counts(limits: Limits, bytes: &[u8]) -> String {
    let Some((_, trailer)) = bytes.split_last_chunk::<TRAILER>() else { return String::new() };
    let distance = |i: usize| trailer.get(2 * i..2 * i + 2).map_or(0, |two| usize::from(u16::from_le_bytes([two[0], two[1]])));
    let section = |i: usize, width: usize| distance(i).saturating_sub(if i == 4 { 0 } else { distance(i + 1) }) / width;
    let states = section(1, 1);
    if states == 0 {
        return "it has no state".into();
    }
    let counts = [
        ("symbols", section(0, 1), limits.symbols),
        ("states", states, limits.states),
        ("internals", section(2, 3), MOST_INTERNALS),
        ("calls", section(3, 3), MOST_CALLS),
        ("returns", section(4, 4), MOST_RETURNS),
    ];
    let over = counts.into_iter().find(|(_, count, most)| count > most);
    over.map_or(String::new(), |(what, count, most)| format!("it has {count} {what}, and at most {most} are permitted"))
}
