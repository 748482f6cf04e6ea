//! The operations at the program's limits, each by the library and in plain Rust, on an input.

use crate::inputs::{BUDGET, Input, WORDS, inputs, pigeons, scripts};
use basilvault_bench::plain;
use basilvault_tests::flat;
use basilvault_tests::reference::LARGEST;

/// What an operation writes to, and the values of its answer.
#[derive(Clone, PartialEq, Debug)]
pub struct Buffers {
    pub list: Vec<u16>,
    pub answer: Vec<u8>,
    pub map: Vec<u8>,
    pub out: Vec<u8>,
    pub values: [u64; 41],
}

impl Buffers {
    /// Buffers of the program's sizes.
    pub fn new() -> Self {
        Buffers { list: vec![7; WORDS], answer: vec![7; 780], map: vec![7; 40], out: vec![7; 22_644], values: [7; 41] }
    }

    /// Keeps an answer's values; the refusal's number or 0.
    fn keep<const K: usize>(&mut self, answer: Result<[u64; K], u8>) -> u8 {
        match answer {
            Err(number) => number,
            Ok(values) => {
                self.values[..K].copy_from_slice(&values);
                0
            }
        }
    }
}

/// An operation on an input: the refusal's number or 0.
pub type Call = fn(&Input, &mut Buffers) -> u8;

/// An operation both ways.
pub struct Stage {
    pub name: &'static str,
    pub library: Call,
    pub plain: Call,
}

/// A stage whose two calls differ in the function only.
macro_rules! stage {
    ($name:ident, $within:ident, |$i:ident, $b:ident| $($argument:expr),+) => {
        Stage {
            name: stringify!($name),
            library: |$i, $b| {
                let answer = flat(basilvault::$within(LARGEST, $($argument),+));
                $b.keep(answer)
            },
            plain: |$i, $b| {
                let answer = plain::$name(LARGEST, $($argument),+);
                $b.keep(answer)
            },
        }
    };
}

/// All of them.
pub static STAGES: [Stage; 8] = [
    stage!(read, read_within, |i, b| &i.table),
    stage!(tops, tops_within, |i, b| &i.table),
    stage!(clauses, clauses_within, |i, b| &i.table, &mut b.list),
    stage!(search, search_within, |i, b| &i.list, i.variables, BUDGET, &mut b.answer),
    stage!(check, check_within, |i, b| &i.table, &i.map),
    stage!(quotient, quotient_within, |i, b| &i.table, &i.map, &mut b.out),
    stage!(reduce, reduce_within, |i, b| &i.table, i.budget, &mut b.list, &mut b.map, &mut b.out),
    stage!(script, script_within, |i, b| &i.table, &i.script),
];

impl Stage {
    /// The inputs of the stage.
    pub fn inputs(&self) -> Vec<Input> {
        if self.name == "script" {
            return scripts();
        }
        let mut all = inputs();
        if self.name == "search" {
            all.push(pigeons(7));
        }
        all
    }

    /// Stops the program where library and plain Rust differ on an input, in the answer or in a buffer.
    pub fn compare(&self, input: &Input) {
        let mut ours = Buffers::new();
        let mut theirs = Buffers::new();
        let numbers = ((self.library)(input, &mut ours), (self.plain)(input, &mut theirs));
        assert_eq!(numbers, (0, 0), "{}: {}", self.name, input.label);
        assert!(ours == theirs, "{}: {}", self.name, input.label);
    }
}
