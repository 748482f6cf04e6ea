//! A load that can be made again: a thousand tables from the library's generator, made and reduced by the library and in plain Rust.

use crate::inputs::BUDGET;
use crate::report::{heading, heads};
use crate::stages::Buffers;
use basilvault_bench::plain;
use basilvault_tests::reference::{LARGEST, Load};
use std::hint::black_box;
use std::time::Instant;

/// How many tables there are.
const TABLES: u32 = 1000;

/// The load with a number: 4 to 11 states, two symbols of each kind; a move has one target every third time.
pub fn load(i: u32) -> Load {
    let states = 4 + i % 8;
    Load { seed: i, states: states as usize, internals: 2, calls: 2, returns: 2, density: 65_536 / (3 * states) }
}

/// Makes a table of a load in a buffer; its length.
type Make = fn(Load, &mut [u8]) -> usize;

/// Reduces a table.
type Reduce = fn(&[u8], &mut Buffers);

/// Seconds until every table of the load was made, and until every one was reduced; and the tables.
fn seconds(make: Make, reduce: Reduce, buffers: &mut Buffers) -> ([f64; 2], Vec<Vec<u8>>) {
    let start = Instant::now();
    for i in 0..TABLES {
        black_box(make(load(i), &mut buffers.out));
    }
    let made = start.elapsed().as_secs_f64();
    let tables = (0..TABLES).map(|i| {
        let length = make(load(i), &mut buffers.out);
        buffers.out[..length].to_vec()
    });
    let tables: Vec<Vec<u8>> = tables.collect();
    let start = Instant::now();
    tables.iter().for_each(|table| reduce(table, buffers));
    ([made, start.elapsed().as_secs_f64()], tables)
}

/// Prints how many tables a second are made and reduced, the best of ten rounds of both in turn.
pub fn print() {
    let sides: [(Make, Reduce); 2] = [
        (
            |load, out| basilvault::generate_within(LARGEST, load, out).expect("the load fits"),
            |table, b| assert!(basilvault::reduce_within(LARGEST, table, BUDGET, &mut b.list, &mut b.map, &mut b.out).is_ok()),
        ),
        (
            |load, out| plain::generate(LARGEST, load, out).expect("the load fits")[0] as usize,
            |table, b| assert!(plain::reduce(LARGEST, table, BUDGET, &mut b.list, &mut b.map, &mut b.out).is_ok()),
        ),
    ];
    let mut buffers = Buffers::new();
    let mut least = [[f64::MAX; 2]; 2];
    let mut bytes = 0;
    for _ in 0..10 {
        let [(ours, tables), (theirs, same)] = sides.map(|(make, reduce)| seconds(make, reduce, &mut buffers));
        assert!(tables == same, "both make the same tables");
        bytes = tables.iter().map(Vec::len).sum();
        for (least, times) in least.iter_mut().zip([ours, theirs]) {
            (0..2).for_each(|i| least[i] = least[i].min(times[i]));
        }
    }
    println!("a load of {TABLES} tables, {bytes} bytes\n");
    heading("load");
    heads("a second; library; plain Rust; ratio of times");
    for (i, what) in ["tables made", "tables reduced"].into_iter().enumerate() {
        let [library, plain] = [0, 1].map(|side| least[side][i]);
        println!("| {what} | {:.0} | {:.0} | {:.2} |", f64::from(TABLES) / library, f64::from(TABLES) / plain, library / plain);
    }
    println!();
}
