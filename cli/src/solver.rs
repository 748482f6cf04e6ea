//! Other solvers as proposers: the clauses as DIMACS, a solver's model as a map. None is trusted: a map counts only where the library's check accepts it.

use crate::exit::Failure;
use crate::files;
use std::fmt::Write;
use std::path::Path;
use std::process::{Command, Stdio};

/// The literals of each clause.
pub fn clauses(mut list: &[u16]) -> impl Iterator<Item = &[u16]> {
    std::iter::from_fn(move || {
        let (&length, rest) = list.split_first()?;
        let (clause, after) = rest.split_at(usize::from(length));
        list = after;
        Some(clause)
    })
}

/// The clauses as DIMACS: variable v is number v + 1. Where the signs are turned, "joined" is false, which most solvers guess first.
pub fn dimacs(list: &[u16], variables: usize, turned: bool) -> String {
    let mut text = format!("p cnf {variables} {}\n", clauses(list).count());
    for clause in clauses(list) {
        for literal in clause {
            let negative = (literal % 2 == 1) != turned;
            let _ = write!(text, "{}{} ", if negative { "-" } else { "" }, literal / 2 + 1);
        }
        text.push_str("0\n");
    }
    text
}

/// The values of so many variables in a solver's answer: lines `v 1 -2 0`, the same without `v`, or `v` and a digit for each; what else it prints is left
/// aside. A variable that it does not name is false.
pub fn model(text: &str, variables: usize) -> Result<Vec<bool>, String> {
    let mut values = vec![false; variables];
    let (mut named, mut none) = (false, false);
    for line in text.lines() {
        let words: Vec<&str> = line.split_whitespace().collect();
        match words[..] {
            ["s", "UNSATISFIABLE"] | ["UNSAT" | "UNSATISFIABLE"] => none = true,
            ["v", digits] if digits.len() == variables && digits.bytes().all(|byte| matches!(byte, b'0' | b'1')) && variables > 1 => {
                named = true;
                values = digits.bytes().map(|byte| byte == b'1').collect();
            }
            ["c" | "o" | "s" | "d", ..] => {}
            ["v", ref literals @ ..] => named |= take(literals, &mut values)?,
            ref literals if literals.first().is_some_and(|word| word.parse::<i64>().is_ok()) => named |= take(literals, &mut values)?,
            _ => {}
        }
    }
    match (named, none) {
        (_, true) => Err("it says that no assignment exists".into()),
        (false, _) if variables > 0 => Err("it has no assignment".into()),
        _ => Ok(values),
    }
}

/// Notes the literals of a line, up to a 0.
fn take(literals: &[&str], values: &mut [bool]) -> Result<bool, String> {
    for word in literals {
        let literal: i64 = word.parse().map_err(|_| format!("{word} is no literal"))?;
        if literal == 0 {
            break;
        }
        let place = usize::try_from(literal.unsigned_abs() - 1).ok().filter(|&place| place < values.len());
        let place = place.ok_or_else(|| format!("{word} is no variable of the table, which has {}", values.len()))?;
        values[place] = literal > 0;
    }
    Ok(true)
}

/// The map of values: each state gets the class of the first state that it is joined to, or a new one.
pub fn map_of(values: &[bool], states: usize) -> Vec<u8> {
    let mut map: Vec<u8> = Vec::new();
    let mut classes = 0;
    for q in 0..states {
        let first = (0..q).find(|p| values[q * (q - 1) / 2 + p]);
        map.push(first.map_or(classes, |p| map[p]));
        classes += u8::from(first.is_none());
    }
    map
}

/// Runs a solver's command line on clauses, in a file that it is given last: what it prints. Minisat is given a file for its answer too.
pub fn run(command: &str, clauses: &str) -> Result<String, Failure> {
    let fail = |error: std::io::Error| Failure::File(format!("{command} cannot be run ({error})"));
    let folder = files::Temporary::new().map_err(fail)?;
    let (asked, answered) = (folder.path().join("clauses.cnf"), folder.path().join("model"));
    std::fs::write(&asked, clauses).map_err(fail)?;
    let minisat = command.split_whitespace().next().is_some_and(|name| Path::new(name).file_name().is_some_and(|name| name.to_string_lossy().starts_with("minisat")));
    let mut shell = Command::new("sh");
    shell.args(["-c", &format!("{command} \"$@\""), "sh"]).arg(&asked);
    if minisat {
        shell.arg(&answered);
    }
    let done = shell.stdin(Stdio::null()).stderr(Stdio::inherit()).output().map_err(fail)?;
    // solvers end with 10 and 20 where they have an answer
    match done.status.code() {
        Some(0 | 10 | 20) if minisat => std::fs::read_to_string(&answered).map_err(fail),
        Some(0 | 10 | 20) => Ok(String::from_utf8_lossy(&done.stdout).into_owned()),
        _ => Err(Failure::File(format!("{command} ended with {}", done.status))),
    }
}

#[cfg(test)]
mod tests {
    use super::*;

    #[test]
    fn models_of_several_solvers() {
        for text in ["SAT\n1 -2 3 0\n", "c hello\ns SATISFIABLE\nv 1 -2\nv 3 0\n", "o 1\ns OPTIMUM FOUND\nv 101\n", "1 3 0\n"] {
            assert_eq!(model(text, 3), Ok(vec![true, false, true]), "{text}");
        }
        assert!(model("s UNSATISFIABLE\n", 3).is_err());
        assert!(model("v 4 0\n", 3).is_err());
        assert!(model("c nothing\n", 3).is_err());
        assert!(model("v x 0\n", 3).is_err());
    }

    #[test]
    fn maps_of_values() {
        assert_eq!(map_of(&[false, false, true, false, false, false], 4), [0, 1, 1, 2]);
        assert_eq!(map_of(&[], 1), [0]);
    }

    #[test]
    fn turned_clauses() {
        assert_eq!(dimacs(&[1, 0, 2, 1, 2], 2, false), "p cnf 2 2\n1 0\n-1 2 0\n");
        assert_eq!(dimacs(&[1, 0, 2, 1, 2], 2, true), "p cnf 2 2\n-1 0\n1 -2 0\n");
    }
}
