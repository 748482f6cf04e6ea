//! The solving step as a whole process, against minisat and cadical as whole processes, on the same clauses in the same file.

use crate::inputs::{nothing, Input, BUDGET, LABELS};
use crate::report::{cells, heading, heads};
use crate::stages::STAGES;
use basilvault::Refusal;
use basilvault_bench::dimacs;
use std::path::{Path, PathBuf};
use std::process::{Command, Stdio};
use std::time::Instant;

/// How often each process is started.
const ROUNDS: usize = 80;

/// A program that reads clauses in DIMACS and writes a model. With `turned`, true and false have changed places in what it reads and writes. Cadical
/// takes the file that it writes before the one that it reads.
struct Solver {
    name: &'static str,
    program: PathBuf,
    options: &'static [&'static str],
    turned: bool,
    there: bool,
}

/// Whether a program is there.
fn installed(program: &Path) -> bool {
    Command::new(program).arg("--help").stdout(Stdio::null()).stderr(Stdio::null()).status().is_ok()
}

impl Solver {
    /// The library as a program, minisat as it comes, and minisat and cadical made to prefer true and to answer a maximal model.
    fn all() -> Vec<Solver> {
        let ours = std::env::current_exe().expect("this program's path").with_file_name("solve");
        let solver = |name, program: PathBuf, options, turned| Solver { name, there: installed(&program), program, options, turned };
        vec![
            solver("library", ours, &[], false),
            solver("minisat", "minisat".into(), &["-verb=0"], false),
            solver("minisat turned", "minisat".into(), &["-verb=0", "-no-pre", "-phase-saving=0"], true),
            solver("cadical turned", "cadical".into(), &["-q", "--plain", "--lucky=0", "--phase=0", "--forcephase=1", "--rephase=0", "-w"], true),
        ]
    }

    /// Microseconds of a process that solves an input, from its start to its end.
    fn time(&self, from: &Path, to: &Path) -> f64 {
        let files = if self.program.ends_with("cadical") { [to, from] } else { [from, to] };
        let mut command = Command::new(&self.program);
        command.args(self.options).args(files).stdout(Stdio::null()).stderr(Stdio::null());
        let start = Instant::now();
        command.status().expect("the solver runs");
        start.elapsed().as_nanos() as f64 / 1e3
    }
}

/// The words of further clauses that make these literals true.
fn units(literals: impl Iterator<Item = u16>) -> Vec<u16> {
    literals.flat_map(|l| [1, l]).collect()
}

/// Whether the values satisfy the list: with each as a clause of its own there still is a model.
fn satisfies(input: &Input, values: &[bool]) -> bool {
    let literals = values.iter().enumerate().map(|(v, &x)| 2 * v as u16 + !x as u16);
    let list = [&input.list[..], &units(literals)].concat();
    basilvault::search(&list, input.variables, BUDGET, &mut vec![0; input.variables]).is_ok()
}

/// Whether no model has all that the values have true and one more: the list with those and one more has none.
fn maximal(input: &Input, values: &[bool]) -> bool {
    let kept = units((0..values.len()).filter(|&v| values[v]).map(|v| 2 * v as u16));
    (0..values.len()).filter(|&v| !values[v]).all(|v| {
        let list = [&input.list[..], &kept, &[1, 2 * v as u16]].concat();
        basilvault::search(&list, input.variables, BUDGET, &mut vec![0; input.variables]) == Err(Refusal::NoAssignment)
    })
}

/// The model in a solver's output, in which true and false may have changed places: after a line that says that there is one, the literals, in lines that
/// may start with a letter.
fn model(path: &Path, turned: bool) -> Vec<bool> {
    let text = std::fs::read_to_string(path).expect("an answer");
    let mut lines = text.lines();
    assert!(matches!(lines.next(), Some("SAT" | "s SATISFIABLE")), "{}: a model", path.display());
    let literals = lines.flat_map(|line| line.trim_start_matches('v').split_ascii_whitespace());
    literals.map(|l| l.parse::<i32>().expect("a literal")).take_while(|&l| l != 0).map(|l| (l > 0) != turned).collect()
}

/// An input in a file for each solver, and the least times so far, of a solver that is not there none.
struct Task {
    input: Input,
    files: Vec<(PathBuf, PathBuf)>,
    least: Vec<Option<f64>>,
}

impl Task {
    /// Writes the files of the i-th input.
    fn new(i: usize, input: Input, solvers: &[Solver], folder: &Path) -> Self {
        let names = |j: usize| (folder.join(format!("{i}.{j}.cnf")), folder.join(format!("{i}.{j}.model")));
        let files: Vec<(PathBuf, PathBuf)> = (0..solvers.len()).map(names).collect();
        for (solver, (from, to)) in solvers.iter().zip(&files) {
            std::fs::remove_file(to).ok();
            std::fs::write(from, dimacs::write(&input.list, input.variables, solver.turned)).expect("the list is written");
        }
        let least = solvers.iter().map(|solver| solver.there.then_some(f64::MAX)).collect();
        Task { input, files, least }
    }

    /// Every solver that is there once.
    fn round(&mut self, solvers: &[Solver]) {
        for ((solver, (from, to)), least) in solvers.iter().zip(&self.files).zip(&mut self.least) {
            *least = least.map(|least| least.min(solver.time(from, to)));
        }
    }

    /// The cells of a solver: the time, how many variables its model has true, and whether that is maximal, as the library's always is.
    fn cells(&self, i: usize, solver: &Solver) -> Vec<String> {
        let Some(least) = self.least[i] else { return vec![String::new(); 3] };
        let values = model(&self.files[i].1, solver.turned);
        assert!(values.len() == self.input.variables && satisfies(&self.input, &values), "{}: {}", solver.name, self.input.label);
        let most = maximal(&self.input, &values);
        let count = values.iter().filter(|&&x| x).count();
        vec![format!("{least:.0}"), count.to_string(), String::from(if most { "yes" } else { "no" })]
    }

    /// A line: the cells of each solver, and the quickest of those whose model is maximal; of minisat as it comes that is chance.
    fn print(&self, solvers: &[Solver]) {
        let mut line: Vec<String> = self.input.label.split_whitespace().map(String::from).collect();
        let mut quickest = (f64::MAX, "");
        for (i, solver) in solvers.iter().enumerate() {
            let mut cells = self.cells(i, solver);
            if let Some(least) = self.least[i].filter(|&least| cells[2] == "yes" && solver.name != "minisat" && least < quickest.0) {
                quickest = (least, solver.name);
            }
            if i == 0 {
                assert_eq!(cells.pop().as_deref(), Some("yes"), "{}", self.input.label);
            }
            line.extend(cells);
        }
        line.push(quickest.1.to_string());
        cells(line.iter().map(String::as_str));
    }
}

/// A line for each input of the search and one for a list without clauses, all of them measured again and again.
pub fn print(folder: &str) {
    let folder = Path::new(folder);
    std::fs::create_dir_all(folder).expect("a folder for the lists");
    let solvers = Solver::all();
    let search = STAGES.iter().find(|stage| stage.name == "search").expect("the search");
    let mut inputs = search.inputs();
    inputs.insert(inputs.len() - 1, nothing());
    let mut tasks: Vec<Task> = inputs.into_iter().enumerate().map(|(i, input)| Task::new(i, input, &solvers, folder)).collect();
    for _ in 0..ROUNDS {
        tasks.iter_mut().for_each(|task| task.round(&solvers));
    }
    println!("microseconds of a process, variables true, maximal or not\n");
    for solver in solvers.iter().filter(|solver| solver.turned) {
        println!("{}: signs changed, {}", solver.name, solver.options.join(" "));
    }
    println!();
    heading("processes");
    let columns = solvers.iter().map(|solver| if solver.name == "library" { "library; true".into() } else { format!("{}; true; maximal", solver.name) });
    heads(&format!("{}; {}; quickest", LABELS.replace(' ', "; "), columns.collect::<Vec<String>>().join("; ")));
    tasks.iter().for_each(|task| task.print(&solvers));
    println!();
}
