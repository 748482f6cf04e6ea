//! Instructions of the stages, counted by callgrind: unlike times they do not depend on what else runs.

use crate::before;
use crate::inputs::Input;
use crate::report::{self, Row};
use crate::stages::{Buffers, Call, STAGES, Stage};
use std::hint::black_box;
use std::path::Path;
use std::process::Command;

/// The call that callgrind counts.
#[inline(never)]
fn counted(call: Call, input: &Input, buffers: &mut Buffers) -> u8 {
    call(black_box(input), buffers)
}

/// Runs a stage once over inputs, by the library or in plain Rust; the refusal or 0, and the values, of each.
pub fn once(stage: &Stage, side: &str, inputs: &[Input], buffers: &mut Buffers) -> Vec<(u8, [u64; 41])> {
    let call = match side {
        "library" => stage.library,
        "plain" => stage.plain,
        _ => panic!("library or plain"),
    };
    inputs.iter().map(|input| (counted(call, input, buffers), buffers.values)).collect()
}

/// The stage of a name.
pub fn stage(name: &str) -> &'static Stage {
    STAGES.iter().find(|s| s.name == name).expect("a stage")
}

/// Runs a stage once over all its inputs.
pub fn one(name: &str, side: &str) {
    let stage = stage(name);
    black_box(once(stage, side, &stage.inputs(), &mut Buffers::new()));
}

/// The instructions of each call of a function, in their order: this program runs under callgrind, which writes a file at the end of each call. Memory is
/// cleared by plain stores: callgrind counts the machine's one instruction for it byte by byte.
pub fn of_calls(function: &str, arguments: &[&str], calls: usize, out: &Path) -> Vec<f64> {
    let status = Command::new("valgrind")
        .env("GLIBC_TUNABLES", "glibc.cpu.x86_rep_stosb_threshold=1000000000")
        .args(["--quiet", "--tool=callgrind"])
        .args(["toggle-collect", "dump-after"].map(|option| format!("--{option}={function}")))
        .arg(format!("--callgrind-out-file={}", out.display()))
        .arg(std::env::current_exe().expect("this program's path"))
        .args(arguments)
        .status();
    assert!(status.expect("valgrind is there").success());
    let total = |i: usize| {
        let file = std::fs::read_to_string(format!("{}.{i}", out.display())).expect("callgrind's file");
        let line = file.lines().find_map(|l| l.strip_prefix("totals: ")).expect("a line of totals");
        line.parse().expect("a number")
    };
    (1..=calls).map(total).collect()
}

/// Counts each stage on each of its inputs; callgrind's files go to a folder.
pub fn print(folder: &str) {
    std::fs::create_dir_all(folder).expect("a folder for callgrind's files");
    let mut rows = Vec::new();
    for stage in &STAGES {
        let inputs = stage.inputs();
        let [ours, theirs] = ["library", "plain"].map(|side| {
            let out = Path::new(folder).join(format!("{}.{side}", stage.name));
            of_calls("*::counted", &["one", stage.name, side], inputs.len(), &out)
        });
        for ((input, library), plain) in inputs.into_iter().zip(ours).zip(theirs) {
            rows.push(Row { stage: stage.name, label: input.label, library, plain });
        }
    }
    report::print(&rows, "Ir");
    before::print(&rows);
}
