//! Two tables combined, by the library and in plain Rust.

use crate::report::{heading, heads};
use basilvault::How;
use basilvault_bench::plain;
use basilvault_tests::reference::{LARGEST, Load};
use std::hint::black_box;
use std::time::Instant;

/// How often each is combined.
const ROUNDS: u32 = 200;

/// Two tables of 5 and 8 states, whose pairs have 40 states and some 4,000 returns, over so many return symbols.
fn tables(symbols: usize) -> [Vec<u8>; 2] {
    [(5, 31), (8, 32)].map(|(states, seed)| {
        let density = (65_536.0 * (4_000.0 / (symbols as f64 * 64_000.0)).sqrt()) as u32;
        let load = Load { seed, states, internals: 2, calls: 2, returns: symbols, density };
        let mut out = vec![0; 22_644];
        let length = basilvault::generate_within(LARGEST, load, &mut out).expect("the load fits");
        out.truncate(length);
        out
    })
}

/// Microseconds of a call, the least of many.
fn least(mut call: impl FnMut() -> usize) -> f64 {
    let one = |_| {
        let start = Instant::now();
        black_box(call());
        start.elapsed().as_secs_f64() * 1e6
    };
    (0..ROUNDS).map(one).fold(f64::MAX, f64::min)
}

/// Prints microseconds of each.
pub fn print() {
    heading("combine");
    heads("microseconds; return symbols; bytes; library; plain Rust; ratio");
    let mut out = vec![0; 22_644];
    for symbols in [1, 4, 20] {
        let [first, second] = tables(symbols);
        for (how, name) in [(How::Intersection, "intersection"), (How::Union, "union")] {
            let length = basilvault::combine_within(LARGEST, &first, &second, how, &mut out).expect("the tables can be combined");
            let library = least(|| basilvault::combine_within(LARGEST, &first, &second, how, &mut out).unwrap_or(0));
            let plain = least(|| plain::combine(LARGEST, &first, &second, how, &mut out).map_or(0, |[length]| length as usize));
            println!("| {name} | {symbols} | {length} | {library:.0} | {plain:.0} | {:.2} |", library / plain);
        }
    }
    println!();
}
