//! The cases that the program `cases` reads and the lines that it must write. Each method adds one case of its operation, with the plain
//! implementation's answer, and hands that answer back.

use crate::reference::{self, Delivery, Limits, Load};
use basilvault::How;
use std::fmt::Write;

/// What every buffer is filled with beforehand.
const FILL: u8 = 7;

/// A reduction's answer.
pub type Reduced = Result<Delivery, u8>;

/// The lengths of the buffers that a reduction is lent.
#[derive(Clone, Copy)]
pub struct Room {
    pub list: usize,
    pub map: usize,
    pub out: usize,
}

/// No buffers.
const NONE: Room = Room { list: 0, map: 0, out: 0 };

/// The limits of the next cases; the frames of the cases, the lines that they must give, and the number of cases of each operation.
pub struct Cases {
    pub limits: Limits,
    pub input: Vec<u8>,
    pub output: String,
    pub counts: [usize; 17],
}

/// 16-bit little-endian numbers.
fn words(values: &[usize]) -> Vec<u8> {
    values.iter().flat_map(|&x| u16::try_from(x).unwrap().to_le_bytes()).collect()
}

/// Numbers as they are printed.
fn longs<T: Copy + Into<u64>>(values: &[T]) -> Vec<u64> {
    values.iter().map(|&x| x.into()).collect()
}

impl Cases {
    /// None yet, and the limits of a caller that gives none.
    pub fn new() -> Cases {
        Cases { limits: reference::STANDARD, input: vec![], output: String::new(), counts: [0; 17] }
    }

    /// A case in the form that crates/cases/src/main.rt tells: its length, its numbers, the operation's name and three parts.
    fn frame(&mut self, operation: u8, name: &str, room: Room, parts: [&[u8]; 3]) {
        assert!([room.list, room.map, room.out].iter().all(|&x| x <= 4096), "buffers that the program has");
        let (states, symbols) = (self.limits.states, self.limits.symbols);
        let numbers = words(&[operation as usize, states, symbols, room.list, room.map, room.out, name.len(), parts[0].len(), parts[1].len()]);
        let case = [&numbers, name.as_bytes(), parts[0], parts[1], parts[2]].concat();
        self.counts[operation as usize] += 1;
        self.input.extend(words(&[case.len()]));
        self.input.extend(case);
    }

    /// The name, and 0 with the answer's values or the refusal's number.
    fn line(&mut self, name: &str, answer: Result<Vec<u64>, u8>) {
        self.output.push_str(name);
        match answer {
            Ok(values) => [vec![0], values].concat().iter().for_each(|v| write!(self.output, " {v}").unwrap()),
            Err(number) => write!(self.output, " {number}").unwrap(),
        }
    }

    /// A buffer at exit, behind a bar.
    fn buffer(&mut self, values: &[u64]) {
        self.output.push_str(" |");
        values.iter().for_each(|v| write!(self.output, " {v}").unwrap());
    }

    /// The end of a line.
    fn end(&mut self) {
        self.output.push('\n');
    }

    /// The five starts.
    pub fn read(&mut self, b: &[u8]) -> Result<[usize; 5], u8> {
        self.frame(1, "read", NONE, [&[], &[], b]);
        let answer = reference::read(self.limits, b);
        self.line("read", answer.map(|starts| starts.map(|x| x as u64).to_vec()));
        self.end();
        answer
    }

    /// The words of the tops and their number; with a refusal, 0 in all of them.
    pub fn tops(&mut self, b: &[u8]) -> Result<([u64; 40], u32), u8> {
        self.frame(2, "tops", NONE, [&[], &[], b]);
        let answer = reference::tops(self.limits, b);
        let (number, top_words, found) = match answer {
            Ok((w, f)) => (0, w, f),
            Err(k) => (k, [0; 40], 0),
        };
        write!(self.output, "tops {number} {found}").unwrap();
        top_words.iter().for_each(|w| write!(self.output, " {w}").unwrap());
        self.end();
        answer
    }

    /// The clause count and the word count.
    pub fn clauses(&mut self, b: &[u8], room: usize) -> Result<(usize, usize), u8> {
        self.frame(3, "clauses", Room { list: room, ..NONE }, [&[], &[], b]);
        let mut list = vec![FILL as u16; room];
        let answer = reference::clauses(self.limits, b, &mut list);
        assert!(answer.is_ok() || list.iter().all(|&x| x == FILL as u16), "outputs keep their bytes");
        self.line("clauses", answer.map(|(c, w)| vec![c as u64, w as u64]));
        self.buffer(&longs(&list));
        self.end();
        answer
    }

    /// The guesses made, and the answer buffer.
    pub fn search(&mut self, list: &[u16], variables: usize, budget: u16, room: usize) -> Result<(u64, Vec<u8>), u8> {
        let bytes: Vec<u8> = list.iter().flat_map(|w| w.to_le_bytes()).collect();
        self.frame(4, "search", Room { list: list.len(), out: room, ..NONE }, [&words(&[variables, budget as usize]), &[], &bytes]);
        let mut values = vec![FILL; room];
        let answer = reference::search(self.limits, list, variables, budget as u64, &mut values);
        assert!(answer.is_ok() || values.iter().all(|&x| x == FILL), "outputs keep their bytes");
        self.line("search", answer.map(|guesses| vec![guesses]));
        self.buffer(&longs(&values));
        self.end();
        answer.map(|guesses| (guesses, values))
    }

    /// The class count.
    pub fn check(&mut self, b: &[u8], map: &[u8]) -> Result<usize, u8> {
        self.frame(5, "check", NONE, [map, &[], b]);
        let answer = reference::check(self.limits, b, map);
        self.line("check", answer.map(|classes| vec![classes as u64]));
        self.end();
        answer
    }

    /// The sums and the total; with a refusal, 0 in all of them.
    pub fn uses(&mut self, b: &[u8], map: &[u8], lines: &[u8]) -> Result<([u64; 40], u64), u8> {
        self.frame(10, "uses", NONE, [map, lines, b]);
        let answer = reference::uses(self.limits, b, map, lines);
        let (number, sums, total) = match answer {
            Ok((sums, total)) => (0, sums, total),
            Err(k) => (k, [0; 40], 0),
        };
        write!(self.output, "uses {number}").unwrap();
        sums.iter().chain([&total]).for_each(|x| write!(self.output, " {x}").unwrap());
        self.end();
        answer
    }

    /// Which of two maps is handed back, and its bytes; with a refusal none.
    pub fn choose(&mut self, b: &[u8], first: &[u8], second: &[u8]) -> Result<u8, u8> {
        self.frame(14, "choose", NONE, [first, second, b]);
        let answer = reference::choose(self.limits, b, first, second);
        write!(self.output, "choose {} {}", answer.err().unwrap_or(0), answer.unwrap_or(0)).unwrap();
        self.buffer(&longs(match answer {
            Ok(1) => first,
            Ok(_) => second,
            Err(_) => &[],
        }));
        self.end();
        answer
    }

    /// The written file. The seed and the density stand as two words each, the lower first; the counts as words.
    pub fn generate(&mut self, load: Load, room: usize) -> Result<Vec<u8>, u8> {
        let long = |x: u32| [x as usize % 65_536, x as usize / 65_536];
        let Load { seed, states, internals, calls, returns, density } = load;
        let numbers = [words(&long(seed)), words(&[states, internals, calls, returns]), words(&long(density))].concat();
        self.frame(12, "generate", Room { out: room, ..NONE }, [&numbers, &[], &[]]);
        let mut out = vec![FILL; room];
        let answer = reference::generate(self.limits, load, &mut out);
        assert!(answer.is_ok() || out.iter().all(|&x| x == FILL), "outputs keep their bytes");
        self.line("generate", answer.map(|length| vec![length as u64]));
        self.buffer(&longs(&out));
        self.end();
        answer.map(|length| out[..length].to_vec())
    }

    /// Whether the table accepts the script.
    pub fn script(&mut self, b: &[u8], script: &[u8]) -> Result<bool, u8> {
        self.frame(8, "script", NONE, [script, &[], b]);
        let answer = reference::script(self.limits, b, script);
        self.line("script", answer.map(|yes| vec![u64::from(yes)]));
        self.end();
        answer
    }

    /// Records, and those of them kept, folded and dead; one byte a record.
    pub fn records(&mut self, b: &[u8], map: &[u8], room: usize) -> Result<[usize; 4], u8> {
        self.frame(9, "records", Room { out: room, ..NONE }, [map, &[], b]);
        let mut out = vec![FILL; room];
        let answer = reference::records(self.limits, b, map, &mut out);
        assert!(answer.is_ok() || out.iter().all(|&x| x == FILL), "outputs keep their bytes");
        self.line("records", answer.map(|counts| counts.map(|x| x as u64).to_vec()));
        self.buffer(&longs(&out));
        self.end();
        answer
    }

    /// Whether the second table accepts every word of the first.
    pub fn fit(&mut self, first: &[u8], second: &[u8]) -> Result<bool, u8> {
        self.frame(13, "fit", NONE, [first, &[], second]);
        let answer = reference::fit(first, second);
        self.line("fit", answer.map(|yes| vec![u64::from(yes)]));
        self.end();
        answer
    }

    /// The written file of two tables combined.
    pub fn combine(&mut self, first: &[u8], second: &[u8], how: How, room: usize) -> Result<Vec<u8>, u8> {
        let (number, name) = if how == How::Union { (16, "union") } else { (15, "intersection") };
        self.frame(number, name, Room { out: room, ..NONE }, [first, &[], second]);
        let mut out = vec![FILL; room];
        let answer = reference::combine(self.limits, first, second, how, &mut out);
        assert!(answer.is_ok() || out.iter().all(|&x| x == FILL), "outputs keep their bytes");
        self.line(name, answer.map(|length| vec![length as u64]));
        self.buffer(&longs(&out));
        self.end();
        answer.map(|length| out[..length].to_vec())
    }

    /// The answers of the tables, and every buffer.
    pub fn season(&mut self, tables: &[u8], lengths: &[u64], guesses: u64, room: Room) -> Result<reference::Season, u8> {
        let long: Vec<u8> = lengths.iter().flat_map(|x| x.to_le_bytes()).collect();
        self.frame(11, "season", room, [&words(&[guesses as usize]), &long, tables]);
        let (mut list, mut maps, mut out) = (vec![FILL as u16; room.list], vec![FILL; room.map], vec![FILL; room.out]);
        let answer = reference::season(self.limits, tables, lengths, guesses, &mut list, &mut maps, &mut out);
        assert!(answer.is_ok() || maps.iter().chain(&out).all(|&x| x == FILL) && list.iter().all(|&x| x == FILL as u16), "buffers keep their content");
        self.line("season", answer.map(|x| x.concat()));
        self.buffer(&longs(&list));
        self.buffer(&longs(&maps));
        self.buffer(&longs(&out));
        self.end();
        answer
    }

    /// The written bytes.
    pub fn quotient(&mut self, b: &[u8], map: &[u8], room: usize) -> Result<Vec<u8>, u8> {
        self.frame(6, "quotient", Room { out: room, ..NONE }, [map, &[], b]);
        let mut out = vec![FILL; room];
        let answer = reference::quotient(self.limits, b, map, &mut out);
        assert!(answer.is_ok() || out.iter().all(|&x| x == FILL), "outputs keep their bytes");
        self.line("quotient", answer.map(|length| vec![length as u64]));
        self.buffer(&longs(&out));
        self.end();
        answer.map(|length| out[..length].to_vec())
    }

    /// The answer, the map buffer and the output.
    pub fn reduce(&mut self, b: &[u8], budget: u64, room: Room) -> (Reduced, Vec<u8>, Vec<u8>) {
        self.frame(7, "reduce", room, [&words(&[budget as usize]), &[], b]);
        let (mut list, mut map, mut out) = (vec![FILL as u16; room.list], vec![FILL; room.map], vec![FILL; room.out]);
        let answer = reference::reduce(self.limits, b, budget, &mut list, &mut map, &mut out);
        assert!(answer.is_ok() || map.iter().chain(&out).all(|&x| x == FILL), "outputs keep their bytes");
        let listed = matches!(answer, Ok(_) | Err(21));
        assert!(listed || list.iter().all(|&x| x == FILL as u16), "the list is written with 21 and a delivery only");
        self.line("reduce", answer.map(|x| x.values().to_vec()));
        self.buffer(&longs(&list));
        self.buffer(&longs(&map));
        self.buffer(&longs(&out));
        self.end();
        (answer, map, out)
    }
}
