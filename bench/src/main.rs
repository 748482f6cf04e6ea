//! The proved library against plain Rust on the same inputs in one run.
//!   basilvault-bench                        times: the least of many rounds, the library's over plain Rust's
//!   basilvault-bench compare CASES          the answers and the buffers of both on random cases
//!   basilvault-bench instructions FOLDER    instructions by callgrind, whose files go to the folder
//!   basilvault-bench one STAGE SIDE         a stage once over all its inputs, by the `library` or in `plain` Rust
//!   basilvault-bench processes FOLDER       the search as a process against minisat and cadical, on files in the folder
//!   basilvault-bench fit FOLDER             the comparison of two tables on its own inputs; callgrind's files go to the folder
//!   basilvault-bench fit-one SIDE           all of these once, by the `library` or in `plain` Rust
//!   basilvault-bench growth FOLDER FILE     how the instructions of reduce grow, as a figure in the file; callgrind's files go to the folder
//!   basilvault-bench growth-one SIDE        all reductions of the figure once, by the `library` or in `plain` Rust
//!   basilvault-bench worst-tables           seconds of the operations on their worst inputs, and how they grow
//!   basilvault-bench worst                  seconds of the search on its worst lists
//!   basilvault-bench load                   tables a second of a load from the library's generator
//!   basilvault-bench source FILE            the source's own experiments on random automata: pairs joined, and states left by density as a figure in the file
//!   basilvault-bench combine                microseconds of two tables combined
//!   basilvault-bench seeds                  how the inputs' seeds were found

mod automata;
mod before;
mod combine;
mod compare;
mod curve;
mod figure;
mod growth;
mod inputs;
mod instructions;
mod load;
mod pairs;
mod processes;
mod report;
mod rest;
mod source;
mod stages;
mod times;
mod worst;
mod worst_tables;

/// Runs the mode that the arguments name.
fn main() {
    let arguments: Vec<String> = std::env::args().skip(1).collect();
    let words: Vec<&str> = arguments.iter().map(String::as_str).collect();
    match words[..] {
        [] => times::print(),
        ["compare", cases] => compare::compare(cases.parse().expect("a number of cases")),
        ["instructions", folder] => instructions::print(folder),
        ["fit", folder] => pairs::print(folder),
        ["fit-one", side] => pairs::one(side),
        ["one", stage, side] => instructions::one(stage, side),
        ["processes", folder] => processes::print(folder),
        ["growth", folder, file] => growth::print(folder, file),
        ["growth-one", side] => growth::one(side),
        ["worst-tables"] => worst_tables::print(),
        ["worst"] => worst::print(),
        ["load"] => load::print(),
        ["source", file] => source::print(file),
        ["combine"] => combine::print(),
        ["seeds"] => inputs::find(),
        _ => panic!("unknown arguments: {arguments:?}"),
    }
}
