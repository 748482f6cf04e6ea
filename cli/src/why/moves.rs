//! The moves by which two joined states match.

use super::decide::Asked;

/// A line for each move of one state and the move of the other that matches it, under a map that joins the two.
pub fn matching(asked: &Asked, p: u8, q: u8, map: &[u8]) -> String {
    let mut lines: Vec<Line> = Vec::new();
    for (one, other) in [(p, q), (q, p)] {
        let mut found = [steps(asked, one, other, map), returns(asked, one, other, map)].concat();
        found.retain(|(_, moves)| !lines.iter().any(|(_, there)| there == moves));
        lines.extend(found);
    }
    if lines.is_empty() {
        return "  Neither has a move that a script can take.\n".into();
    }
    let more = lines.len().saturating_sub(MOST_LINES);
    let rest = if more > 0 { format!("  and so on: {more} more moves that match.\n") } else { String::new() };
    lines.iter().take(MOST_LINES).map(|(line, _)| format!("  {line}\n")).collect::<String>() + &rest
}

/// The lines that are shown.
const MOST_LINES: usize = 40;

/// A line, and what it says in an order that does not depend on which state is asked first.
type Line = (String, Vec<(u8, u8, u8)>);

/// Whether a map joins two states.
fn joined(map: &[u8], p: u8, q: u8) -> bool {
    map[usize::from(p)] == map[usize::from(q)]
}

/// Internals and calls.
fn steps(asked: &Asked, one: u8, other: u8, map: &[u8]) -> Vec<Line> {
    let records = asked.table.internals.iter().chain(&asked.table.calls);
    let line = |&[_, symbol, target]: &[u8; 3]| {
        let matched = asked.sources().targets(other, symbol).into_iter().filter(|&x| joined(map, x, target)).min_by_key(|&x| x != target)?;
        let said = said(asked, asked.names.symbol(symbol), (one, target), (other, matched));
        Some((said, in_order([(one, symbol, target), (other, symbol, matched)])))
    };
    records.filter(|record| record[0] == one).filter_map(line).collect()
}

/// Live returns.
fn returns(asked: &Asked, one: u8, other: u8, map: &[u8]) -> Vec<Line> {
    let sources = asked.sources();
    let states = 0..asked.table.states.len() as u8;
    let mut lines: Vec<Line> = Vec::new();
    for &[_, symbol, s, target] in asked.table.returns.iter().filter(|record| record[0] == one && sources.top(one, record[2])) {
        let tops: Vec<u8> = states.clone().filter(|&u| sources.top(other, u) && joined(map, s, u)).collect();
        let over = |u: u8| format!("{} over {}", asked.names.symbol(symbol), asked.names.state(u));
        let first = |line: &Line| line.1 != [(one, symbol, s)];
        if tops.is_empty() && lines.iter().all(first) {
            let targets: Vec<&str> = sources.targets_over(one, symbol, s).iter().map(|x| asked.names.state(*x)).collect();
            let [name, never, stack] = [one, other, s].map(|q| asked.names.state(q));
            let line = format!("{}: {name} goes to {}; {never} is never above {stack}, so it needs no match.", over(s), targets.join(" or "));
            lines.push((line, vec![(one, symbol, s)]));
        }
        for u in tops {
            let matched = sources.targets_over(other, symbol, u).into_iter().filter(|&x| joined(map, x, target)).min_by_key(|&x| x != target);
            let Some(matched) = matched else { continue };
            let over = if s == u { over(s) } else { format!("{} and {}, which are joined", over(s), over(u)) };
            let order = in_order([(one, symbol, target), (other, symbol, matched)]);
            lines.push((said(asked, &over, (one, target), (other, matched)), [order, in_order([(one, symbol, s), (other, symbol, u)])].concat()));
        }
    }
    lines
}

/// Two matching moves in words.
fn said(asked: &Asked, by: &str, (one, target): (u8, u8), (other, matched): (u8, u8)) -> String {
    let [one, target_name, other, matched_name] = [one, target, other, matched].map(|q| asked.names.state(q));
    if target == matched {
        return format!("{by}: both go to {target_name}.");
    }
    format!("{by}: {one} goes to {target_name}, {other} to {matched_name}; these are joined.")
}

/// Two moves, the lower first.
fn in_order(mut moves: [(u8, u8, u8); 2]) -> Vec<(u8, u8, u8)> {
    moves.sort_unstable();
    moves.to_vec()
}
