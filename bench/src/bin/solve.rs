//! The search as a program: `solve IN OUT` reads clauses in DIMACS and writes what minisat writes, "SAT" and a model or "UNSAT".

use basilvault::Refusal;
use basilvault_bench::dimacs;

/// Reads, searches with the program's budget, and writes.
fn main() {
    let mut arguments = std::env::args().skip(1);
    let (from, to) = (arguments.next().expect("a file to read"), arguments.next().expect("a file to write"));
    let (list, variables) = dimacs::read(&std::fs::read_to_string(from).expect("a text"));
    let mut values = vec![0; variables];
    let text = match basilvault::search(&list, variables, 100_000, &mut values) {
        Ok(_) => {
            let signed = |(v, x): (usize, &u8)| format!("{}{} ", if *x == 1 { "" } else { "-" }, v + 1);
            format!("SAT\n{}0\n", values.iter().enumerate().map(signed).collect::<String>())
        }
        Err(Refusal::NoAssignment) => "UNSAT\n".to_string(),
        Err(refusal) => format!("refused {}\n", refusal.number()),
    };
    std::fs::write(to, text).expect("the answer is written");
}
