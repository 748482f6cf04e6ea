//! The text form: tables to text and back to the byte, names too, and each mistake with its line and column.

use basilvault::{LONGEST_FILE, Limits, Load};
use basilvault_cli::model::Table;
use basilvault_cli::names::Names;
use basilvault_cli::text::{is_meant, read, show};

/// Random numbers, the same in each run.
struct Random(u64);

impl Random {
    /// A number below this one.
    fn below(&mut self, count: usize) -> usize {
        self.0 = self.0.wrapping_mul(6_364_136_223_846_793_005).wrapping_add(1_442_695_040_888_963_407);
        (self.0 >> 33) as usize % count
    }

    /// Things in a random order.
    fn shuffled<T>(&mut self, mut things: Vec<T>) -> Vec<T> {
        for end in (1..things.len()).rev() {
            let place = self.below(end + 1);
            things.swap(place, end);
        }
        things
    }

    /// So many names that differ.
    fn names(&mut self, count: usize) -> Vec<String> {
        const PARTS: [&str; 12] = ["a", "Q", "7", "é", "場", "-", ">", "over", "\"", "\\", "{", "🗺"];
        (0..count).map(|number| format!("{}{}x{number}", PARTS[self.below(12)], PARTS[self.below(12)])).collect()
    }
}

/// A random table: the library's, with its symbols in another order, its states changed and, in version 2, marked.
fn table(random: &mut Random) -> Table {
    let most = 1 + random.below(40);
    let (states, kinds) = (1 + random.below(most), [random.below(4), random.below(4), random.below(4)]);
    let density = if states > 12 { random.below(400) } else { random.below(15_000) } as u32;
    let load = Load { seed: random.below(1 << 30) as u32, states, internals: kinds[0], calls: kinds[1], returns: kinds[2], density };
    let mut out = [0; LONGEST_FILE];
    let length = basilvault::generate_within(Limits::LARGEST, load, &mut out).expect("a load within the limits");
    let mut table = Table::from_bytes(Limits::LARGEST, &out[..length]).expect("a generated table");
    let order = random.shuffled((0..table.symbols.len()).collect());
    let place = |symbol: u8| order.iter().position(|&from| from == usize::from(symbol)).expect("a symbol") as u8;
    table.symbols = order.iter().map(|&from| table.symbols[from]).collect();
    table.internals.iter_mut().chain(&mut table.calls).for_each(|record| record[1] = place(record[1]));
    table.returns.iter_mut().for_each(|record| record[1] = place(record[1]));
    table.internals.sort();
    table.calls.sort();
    table.returns.sort();
    table.version = 1 + random.below(2) as u8;
    for state in &mut table.states {
        (state.initial, state.accepting) = (random.below(2) == 0, random.below(2) == 0);
        state.mark = if table.version == 2 { random.below(16) as u8 } else { 0 };
    }
    table.states[0].initial = true;
    table
}

/// Random names for a table; some marks have one.
fn names(random: &mut Random, table: &Table) -> Names {
    let marks = random.names(16);
    Names {
        symbols: random.names(table.symbols.len()),
        states: random.names(table.states.len()),
        marks: std::array::from_fn(|mark| (table.version == 2 && random.below(2) == 0).then(|| marks[mark].clone())),
    }
}

/// A text with its moves in another order, comments, blanks and ends of lines as other editors write them.
fn disturbed(random: &mut Random, text: &str) -> String {
    let (moves, declared): (Vec<_>, Vec<_>) = text.lines().partition(|line| line.contains(" -> "));
    let mut all = String::from("# a comment\n\n");
    for line in declared.into_iter().chain(random.shuffled(moves)) {
        let blank = ["  ", "\t", "\u{3000}"][random.below(3)];
        let end = ["\n", "\r\n", " # a -> b\n", "\n\n", "#\n"][random.below(5)];
        all.push_str(&format!("{blank}{}{end}", line.replace(' ', blank)));
    }
    all
}

#[test]
fn tables_and_names_come_back() {
    let mut random = Random(1);
    let (mut marked, mut dead, mut moves) = (0, 0, 0);
    for _ in 0..4_000 {
        let table = table(&mut random);
        let bytes = table.to_bytes();
        let tops = basilvault::tops_within(Limits::LARGEST, &bytes).expect("a readable table");
        for names in [Names::numbered(&table), names(&mut random, &table)] {
            let text = show(&table, &names, Some(&tops));
            for text in [text.clone(), show(&table, &names, None), disturbed(&mut random, &text)] {
                let (read_table, read_names) = read(&text).expect("a text that was shown");
                assert_eq!(read_table.to_bytes(), bytes, "{text}");
                assert_eq!(read_names, names, "{text}");
                assert!(is_meant(text.as_bytes()));
            }
            assert!(basilvault::read_within(Limits::LARGEST, text.as_bytes()).is_err(), "a text is no table");
            dead += text.matches("# dead").count();
        }
        marked += usize::from(table.states.iter().any(|state| state.mark != 0));
        moves += table.internals.len() + table.calls.len() + table.returns.len();
    }
    assert!(marked > 1_000 && dead > 1_000 && moves > 100_000, "{marked} {dead} {moves}");
}

#[test]
fn numbers_stand_for_names() {
    let named = read("table 2\ncall a\nreturn b\nmark m 3\nstate x initial\nstate y mark m\nx a -> y\ny b over x -> x\n").expect("a text");
    let numbered = read("table 2\ncall a\nreturn b\nmark m 3\nstate x initial\nstate y mark 3\n0 0 -> 1\n1 1 over 0 -> 0\n").expect("a text");
    assert_eq!(named, numbered);
    assert_eq!(named.0.to_bytes()[..4], [1, 2, 1, 12]);
}

/// The start of most texts below.
const START: &str = "table 2\ninternal i\ncall c\nreturn r\nmark m 3\nstate p initial\nstate q\np i -> q\n";

/// What a text behind START gives: the mistakes as `LINE:COLUMN: TEXT`.
fn mistakes(text: &str) -> Vec<String> {
    read(text).expect_err("mistakes").into_iter().map(|mistake| format!("{}:{}: {}", mistake.line, mistake.column, mistake.text)).collect()
}

#[test]
fn first_lines_are_told() {
    for (text, told) in [
        ("", "1:1: expected `table`, found the end of the text"),
        ("# only this\n\n", "1:1: expected `table`, found the end of the text"),
        ("\n  state p initial\n", "2:3: expected `table`, found `state`"),
        ("table\n", "1:6: expected the version, 1 or 2, found the end of the line"),
        ("table  # none\n", "1:6: expected the version, 1 or 2, found the end of the line"),
        ("table 3\n", "1:7: expected the version, 1 or 2, found `3`"),
        ("table one\n", "1:7: expected the version, 1 or 2, found `one`"),
        ("table 1 2\n", "1:9: expected the end of the line, found `2`"),
        ("table 99999999999999999999999\n", "1:7: expected the version, 1 or 2, found `99999999999999999999999`"),
    ] {
        assert_eq!(mistakes(text), [told], "{text}");
    }
}

/// Lines behind START, each with its mistake.
const LINES: &[(&str, &str)] = &[
    ("table 2", "9:1: expected a declaration, or a move of a state of a line before, found `table`"),
    ("internal", "9:9: expected a name for a symbol, found the end of the line"),
    ("call 7", "9:6: expected a name for a symbol, found `7`"),
    ("return over", "9:8: expected a name for a symbol, found `over`"),
    ("call i", "9:6: expected another name than that of the symbol of line 2, found `i`"),
    ("call d e", "9:8: expected the end of the line, found `e`"),
    ("call \u{1b}[2J", "9:6: expected a name for a symbol, found `\\u{1b}[2J`"),
    ("mark n", "9:7: expected the number of the mark, 0 to 15, found the end of the line"),
    ("mark n 16", "9:8: expected the number of the mark, 0 to 15, found `16`"),
    ("mark n 3", "9:8: expected another mark than that of m, found `3`"),
    ("mark m 4", "9:6: expected another name than that of the mark of line 5, found `m`"),
    ("mark n 4 x", "9:10: expected the end of the line, found `x`"),
    ("state", "9:6: expected a name for a state, found the end of the line"),
    ("state ->", "9:7: expected a name for a state, found `->`"),
    ("state p", "9:7: expected another name than that of the state of line 6, found `p`"),
    ("state s first", "9:9: expected `initial` or `accepting` or `mark` or the end of the line, found `first`"),
    ("state s initial initial", "9:17: expected `accepting` or `mark` or the end of the line, found `initial`"),
    ("state s mark", "9:13: expected a mark: the name of one, or 0 to 15, found the end of the line"),
    ("state s mark n", "9:14: expected a mark: the name of one, or 0 to 15, found `n`"),
    ("state s mark 16", "9:14: expected a mark: the name of one, or 0 to 15, found `16`"),
    ("s i -> q", "9:1: expected a declaration, or a move of a state of a line before, found `s`"),
    ("2 i -> q", "9:1: expected a declaration, or a move of a state of a line before, found `2`"),
    ("p", "9:2: expected a symbol of a line before, found the end of the line"),
    ("p x -> q", "9:3: expected a symbol of a line before, found `x`"),
    ("p 3 -> q", "9:3: expected a symbol of a line before, found `3`"),
    ("p i", "9:4: expected `->` after an internal or a call, found the end of the line"),
    ("p i over q -> q", "9:5: expected `->` after an internal or a call, found `over`"),
    ("p i->q", "9:3: expected a symbol of a line before, found `i->q`"),
    ("p c ->", "9:7: expected a state of a line before, found the end of the line"),
    ("p c -> z", "9:8: expected a state of a line before, found `z`"),
    ("p c -> 300", "9:8: expected a state of a line before, found `300`"),
    ("p c -> q q", "9:10: expected the end of the line, found `q`"),
    ("p r -> q", "9:5: expected `over` after a return, found `->`"),
    ("p r over", "9:9: expected a state of a line before, found the end of the line"),
    ("p r over q q", "9:12: expected `->`, found `q`"),
    ("p r over q -> i", "9:15: expected a state of a line before, found `i`"),
    ("  p   i\t->  q  ", "9:3: expected another move than that of line 8, found `p`"),
    ("0 0 -> 1", "9:1: expected another move than that of line 8, found `0`"),
    ("p é場 -> q", "9:3: expected a symbol of a line before, found `é場`"),
    ("é場 é場 -> q", "9:1: expected a declaration, or a move of a state of a line before, found `é場`"),
    ("state é場 first", "9:10: expected `initial` or `accepting` or `mark` or the end of the line, found `first`"),
    ("\u{3000}\u{3000}s i -> q", "9:3: expected a declaration, or a move of a state of a line before, found `s`"),
    ("p c é場", "9:5: expected `->` after an internal or a call, found `é場`"),
];

#[test]
fn lines_are_told() {
    for (line, told) in LINES {
        assert_eq!(mistakes(&format!("{START}{line}\n")), [*told], "{line}");
    }
}

#[test]
fn marks_are_of_version_2() {
    assert_eq!(mistakes("table 1\nmark m 3\n"), ["2:1: expected a table of version 2 before a mark, found `mark`"]);
    assert_eq!(mistakes("table 1\nstate p mark 3\n"), ["2:9: expected `initial` or `accepting` or the end of the line, found `mark`"]);
}

#[test]
fn all_mistakes_are_told_and_none_twice() {
    let text = "table 1\ncall c\nstate p initail\nstate 5\np c -> p\np c -> p\nq c -> p\n";
    let told = mistakes(text);
    assert_eq!(told.len(), 4, "{told:?}");
    for (mistake, start) in told.iter().zip(["3:9:", "4:7:", "6:1:", "7:1:"]) {
        assert!(mistake.starts_with(start), "{told:?}");
    }
}

#[test]
fn there_is_no_more_than_a_table_may_have() {
    let lines = |count: usize, start: &str| (0..count).map(|number| format!("{start}{number}\n")).collect::<String>();
    assert!(read(&format!("table 1\n{}{}", lines(64, "call c"), lines(40, "state q"))).is_ok());
    assert_eq!(mistakes(&format!("table 1\n{}", lines(65, "call c"))), ["66:6: expected at most 64 symbols, found `c64`"]);
    assert_eq!(mistakes(&format!("table 1\n{}", lines(41, "state q"))), ["42:7: expected at most 40 states, found `q40`"]);
    let states = format!("table 1\ninternal i\ncall c\nreturn r\n{}", lines(40, "state q"));
    for (symbol, most) in [("i ->", 1_024), ("c ->", 1_024), ("r over 0 ->", 1_600)] {
        let moves: String = (0..1_600).map(|number| format!("{} {symbol} {}\n", number / 40, number % 40)).collect();
        let result = read(&format!("{states}{moves}"));
        assert_eq!(result.err().map_or(1_600, |told| 1_600 - told.len()), most, "{symbol}");
    }
    let returns: String = (0..4_097).map(|number| format!("{} r over {} -> {}\n", number / 1_600, number / 40 % 40, number % 40)).collect();
    assert_eq!(mistakes(&format!("{states}{returns}")), ["4141:1: expected at most 4096 moves of this kind, found `2`"]);
}

#[test]
fn damaged_texts_end_with_mistakes_or_a_table() {
    let mut random = Random(2);
    let mut refused = 0;
    for _ in 0..3_000 {
        let table = table(&mut random);
        let mut text: Vec<char> = show(&table, &names(&mut random, &table), None).chars().collect();
        for _ in 0..1 + random.below(3) {
            let place = random.below(text.len());
            match random.below(3) {
                0 => drop(text.remove(place)),
                1 => text.insert(place, ['#', ' ', '\n', '7', 'x', '\u{0}', '🗺'][random.below(7)]),
                _ => text.truncate(place + 1),
            }
        }
        match read(&text.iter().collect::<String>()) {
            Ok((table, names)) => {
                let again = read(&show(&table, &names, None)).expect("a text that was shown");
                assert_eq!(again, (table, names));
            }
            Err(mistakes) => refused += usize::from(!mistakes.is_empty()),
        }
    }
    assert!(refused > 500, "{refused}");
}
