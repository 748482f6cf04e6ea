//! Scripts: tables come back from them, and what has no place in a table is told.

use super::*;
use crate::model::Table;
use crate::names::Names;
use crate::samples;
use basilvault::{Limits, Load};

/// Random numbers.
struct Random(u64);

impl Random {
    /// A number below another.
    fn below(&mut self, most: usize) -> usize {
        self.0 = self.0.wrapping_mul(6_364_136_223_846_793_005).wrapping_add(1_442_695_040_888_963_407);
        (self.0 >> 33) as usize % most
    }
}

/// A random table without marks, its symbols of all kinds in any order.
fn table(random: &mut Random) -> Table {
    let states = 1 + random.below(14);
    let density = if states > 6 { 900 } else { 9_000 };
    let load = Load { seed: random.below(1 << 30) as u32, states, internals: random.below(3), calls: random.below(3), returns: random.below(3), density };
    let mut table = samples::table(&samples::random(load));
    for place in (1..table.symbols.len()).rev() {
        let other = random.below(place + 1);
        table.symbols.swap(place, other);
        let [one, two] = [place as u8, other as u8];
        let swapped = |symbol: u8| if symbol == one { two } else if symbol == two { one } else { symbol };
        table.internals.iter_mut().chain(&mut table.calls).for_each(|record| record[1] = swapped(record[1]));
        table.returns.iter_mut().for_each(|record| record[1] = swapped(record[1]));
    }
    table.internals.sort_unstable();
    table.calls.sort_unstable();
    table.returns.sort_unstable();
    table.version = 1 + random.below(2) as u8;
    table.states.iter_mut().for_each(|state| (state.initial, state.accepting) = (random.below(2) == 0, random.below(2) == 0));
    table.states[0].initial = true;
    table
}

/// Names that are hard to write.
fn names(random: &mut Random, table: &Table) -> Names {
    let parts = ["a", "q 1", "\"", "\\", "//", "/*", "{}", "=", "é場", "\t", "7", "states"];
    let mut all = |count: usize| (0..count).map(|number| format!("{}{}.{number}", parts[random.below(12)], parts[random.below(12)])).collect();
    Names { symbols: all(table.symbols.len()), states: all(table.states.len()), ..Names::default() }
}

#[test]
fn tables_and_names_come_back() {
    let mut random = Random(1);
    let (mut noted, mut moves) = (0, 0);
    for _ in 0..2_000 {
        let table = table(&mut random);
        let bytes = table.to_bytes();
        assert!(basilvault::read_within(Limits::LARGEST, &bytes).is_ok());
        for names in [Names::numbered(&table), names(&mut random, &table)] {
            let text = show(&table, &names).expect("no marks");
            let read = read(&text).unwrap_or_else(|mistakes| panic!("{mistakes:?}\n{text}"));
            assert_eq!(read.table.to_bytes(), bytes, "{text}");
            assert_eq!(read.names, names, "{text}");
            assert!(is_meant(Path::new("x"), text.as_bytes()));
            noted += text.matches(NOTE).count();
        }
        moves += table.internals.len() + table.calls.len() + table.returns.len();
    }
    assert!(noted > 1_000 && moves > 20_000, "{noted} {moves}");
}

#[test]
fn marks_have_no_place() {
    let marked = samples::table(&samples::example("named_located"));
    let first = marked.states.iter().position(|state| state.mark != 0).map(|q| q as u8);
    assert_eq!(show(&marked, &Names::numbered(&marked)).err(), first);
}

/// A script as people write it.
const SCRIPT: &str = "// a comment
NestedWordAutomaton small = (
  callAlphabet = {c},
  internalAlphabet = {\"a\" b}, /* two
  of them */
  returnAlphabet = {r},
  states = {p q},
  initialStates = {p},
  finalStates = {\"q\"},
  callTransitions = {(p c q)},
  internalTransitions = {(q a q) (q \"b\" q)},
  returnTransitions = {(q p r p)}
);
";

#[test]
fn scripts_of_people() {
    let Read { table, names, unnamable } = read(SCRIPT).unwrap_or_else(|mistakes| panic!("{mistakes:?}"));
    assert_eq!((names.symbols, names.states), (["c", "a", "b", "r"].map(String::from).to_vec(), ["p", "q"].map(String::from).to_vec()));
    assert_eq!(table.symbols, [Kind::Call, Kind::Internal, Kind::Internal, Kind::Return]);
    assert_eq!((table.calls, table.internals, table.returns), (vec![[0, 0, 1]], vec![[1, 1, 1], [1, 2, 1]], vec![[1, 3, 0, 0]]));
    assert!(unnamable.is_empty() && table.states[0].initial && table.states[1].accepting);
    let spaced = read(&SCRIPT.replace("{p q}", "{p \"q 1\"}").replace(" q)", " \"q 1\")").replace("(q ", "(\"q 1\" ").replace("{\"q\"}", "{}")).map_err(|m| format!("{m:?}"));
    let spaced = spaced.unwrap_or_else(|mistakes| panic!("{mistakes}"));
    assert_eq!(spaced.unnamable.iter().map(|mistake| (mistake.line, mistake.column)).collect::<Vec<_>>(), [(7, 15)]);
}

/// What is put in place of what in the script, and the mistake that it gives.
const DAMAGED: &[(&str, &str, &str)] = &[
    ("NestedWordAutomaton", "FiniteAutomaton", "2:1: expected `NestedWordAutomaton`, which alone has a place in a table, found `FiniteAutomaton`"),
    ("NestedWordAutomaton", "print(x);", "2:1: expected `NestedWordAutomaton`, which alone has a place in a table, found `print`"),
    ("small =", "=", "2:21: expected a name for the automaton, found `=`"),
    (");\n", ");\nprint(small);\n", "14:1: expected the end of the text: one automaton alone has a place in a table, found `print`"),
    (");\n", ")\n", "14:1: expected `;`, found the end of the text"),
    ("{c},", "{c}", "4:3: expected `,` or `)`, found `internalAlphabet`"),
    ("{c},", "{c,d},", "3:20: expected a name or `}`, found `,`"),
    ("finalStates", "initialStates", "9:3: expected another field than that of line 8, found `initialStates`"),
    ("{r}", "{r c}", "6:23: expected another name than that of the symbol of line 3, found `c`"),
    ("{p q}", "{p q p}", "7:17: expected another name than that of the state of line 7, found `p`"),
    ("initialStates = {p}", "initialStates = {s}", "8:20: expected a state, found `s`"),
    ("{\"q\"}", "{q q}", "9:20: expected a state that does not stand there already, found `q`"),
    ("(p c q)", "(p a q)", "10:25: expected a symbol of the callAlphabet, found `a`"),
    ("(p c q)", "(p c q q)", "10:22: expected a move of three words: the state, the symbol, the target, found `(`"),
    ("(q p r p)", "(q r p)", "12:24: expected a return of four words: the state, the state before its call, the symbol, the target, found `(`"),
    ("(q a q)", "(q a q) (q a q)", "11:34: expected another move than that of line 11, found `(`"),
    ("two\n  of them */", "two", "4:31: expected a comment that ends with `*/`, found `/*`"),
    ("\"a\"", "\"a", "4:23: expected a word that ends with `\"` in its line, found `a b}, /* two`"),
    ("\"a\"", "\"\\x\"", "4:24: expected one of \\\" \\\\ \\n \\t \\r, found `\\x`"),
    ("// a comment", "//@basilvault symbols c a b", "1:15: expected all 4 symbols after it, found `symbols`"),
    ("// a comment", "//@basilvault symbols c a b c", "1:29: expected a symbol that does not stand there already, found `c`"),
    ("// a comment", "//@basilvault version 3", "1:1: expected `//@basilvault version` and 1 or 2, or `//@basilvault symbols` and all symbols, found `//@basilvault`"),
];

#[test]
fn damaged_scripts_are_told() {
    for (from, to, told) in DAMAGED {
        assert!(SCRIPT.contains(from), "{from}");
        let mistakes = read(&SCRIPT.replacen(from, to, 1)).err().unwrap_or_else(|| panic!("{to} is taken"));
        let said: Vec<String> = mistakes.iter().map(|mistake| format!("{}:{}: {}", mistake.line, mistake.column, mistake.text)).collect();
        assert!(said.iter().any(|said| said == told), "{told}\n{said:?}");
    }
    assert!(read(&SCRIPT.replacen("states", "sates", 1)).err().is_some_and(|told| told[0].text.contains("(did you mean states?)")));
}

#[test]
fn there_is_no_more_than_a_table_may_have() {
    let list = |count: usize, letter: &str| (0..count).map(|number| format!("{letter}{number} ")).collect::<String>();
    let script = |symbols: usize, states: usize| SCRIPT.replacen("{c}", &format!("{{c {}}}", list(symbols, "x")), 1).replacen("{p q}", &format!("{{p q {}}}", list(states, "s")), 1);
    assert!(read(&script(60, 38)).is_ok());
    assert!(read(&script(61, 38)).err().is_some_and(|told| told.iter().any(|told| told.text.contains("at most 64 symbols"))));
    assert!(read(&script(60, 39)).err().is_some_and(|told| told.iter().any(|told| told.text == "expected at most 40 states, found `s38`")));
}

#[test]
fn anything_ends_with_mistakes_or_a_table() {
    let mut random = Random(3);
    let mut refused = 0;
    for _ in 0..4_000 {
        let mut text: Vec<char> = SCRIPT.chars().collect();
        for _ in 0..1 + random.below(3) {
            let place = random.below(text.len().max(1));
            match random.below(3) {
                0 if text.is_empty() => {}
                0 => drop(text.remove(place)),
                1 => text.insert(place, ['"', ' ', '\n', '(', '}', '/', '*', '\\', '🗺'][random.below(9)]),
                _ => text.truncate(place + 1),
            }
        }
        match read(&text.iter().collect::<String>()) {
            Ok(first) => {
                let again = read(&show(&first.table, &first.names).expect("no marks")).map_err(|told| format!("{told:?}"));
                assert_eq!(again.map(|again| again.table), Ok(first.table));
            }
            Err(mistakes) => refused += usize::from(!mistakes.is_empty()),
        }
    }
    assert!(refused > 2_000, "{refused}");
}
