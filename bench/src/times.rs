//! Times of the stages.

use crate::inputs::Input;
use crate::report::{self, Row};
use crate::stages::{Buffers, Stage, STAGES};
use std::hint::black_box;
use std::time::Instant;

/// A stage on an input, how many calls make a round of some 200 microseconds, and the least times so far of a call by the library and in plain Rust.
struct Task {
    stage: &'static Stage,
    input: Input,
    calls: u32,
    least: [f64; 2],
}

impl Task {
    /// A task whose answers were compared.
    fn new(stage: &'static Stage, input: Input, buffers: &mut Buffers) -> Self {
        stage.compare(&input);
        let mut task = Task { stage, input, calls: 1, least: [f64::MAX; 2] };
        while task.time(1, buffers) * (task.calls as f64) < 2e5 {
            task.calls *= 2;
        }
        task
    }

    /// Nanoseconds of one call in a round, by the library (0) or in plain Rust (1).
    fn time(&self, side: usize, buffers: &mut Buffers) -> f64 {
        let call = [self.stage.library, self.stage.plain][side];
        let start = Instant::now();
        for _ in 0..self.calls {
            black_box(call(black_box(&self.input), black_box(buffers)));
        }
        start.elapsed().as_nanos() as f64 / self.calls as f64
    }

    /// Some rounds of both in turn.
    fn rounds(&mut self, buffers: &mut Buffers) {
        for _ in 0..8 {
            for side in 0..2 {
                self.least[side] = self.least[side].min(self.time(side, buffers));
            }
        }
    }
}

/// Times each stage on each of its inputs, all of them again and again, so that what else runs does not meet one of them alone.
pub fn print() {
    let mut buffers = Buffers::new();
    let mut tasks = Vec::new();
    for stage in &STAGES {
        tasks.extend(stage.inputs().into_iter().map(|input| Task::new(stage, input, &mut buffers)));
    }
    for _ in 0..12 {
        tasks.iter_mut().for_each(|task| task.rounds(&mut buffers));
    }
    let row = |task: Task| Row { stage: task.stage.name, label: task.input.label, library: task.least[0], plain: task.least[1] };
    report::print(&tasks.into_iter().map(row).collect::<Vec<_>>(), "ns");
}

/// Seconds that this process has had a processor, in steps of some milliseconds: for calls that take long, whatever else runs.
pub fn on_processor() -> f64 {
    let text = std::fs::read_to_string("/proc/self/schedstat").expect("the system says how long a process ran");
    text.split_whitespace().next().expect("a number").parse::<f64>().expect("a number") / 1e9
}
