//! `reduce`: tables made smaller.

use crate::answer::{self, JSON};
use crate::arguments::{BUDGET, Call, Command, INTO, NAMES, OUT, Opt, ROOM, STATES, SYMBOLS, TEXT};
use crate::exit::{Failure, Outcome, Status, note};
use crate::files::{Spared, folder, is_newer, is_stream, one_streams, places, tables_in};
use crate::facts::Facts;
use crate::input::Input;
use crate::model::Table;
use crate::names::Names;
use crate::{load, maps, solver, text};
use crate::progress::Progress;
use crate::room::Room;
use crate::summary::Summary;
use basilvault::{LONGEST_FILE, Limits, MOST_STATES, Reduced};
use std::path::{Path, PathBuf};
use std::time::Instant;

pub const WITH: Opt = Opt { name: "--with", value: "SOLVER", says: "ask a solver too, such as minisat; the better map is kept" };
const JOBS: Opt = Opt { name: "--jobs", value: "N", says: "reduce N tables at a time, one where it is not given" };
const UPDATE: Opt = Opt { name: "--update", value: "", says: "leave alone what is in the folder and newer than its table" };
const MAP: Opt = Opt { name: "--map", value: "FILE", says: "write the map to this file, by names where there are some" };

pub const COMMAND: Command = Command {
    name: "reduce",
    summary: "merge the states of tables that may be merged, and write the smaller tables",
    usage: "IN.. [-o OUT | --into FOLDER] [--map FILE] [--text FILE]",
    help: "\
Reduces each table and prints a line for it: its states and classes, the guesses that the search made, the words of its clause list, the pairs of
states that are joined and how many no map can exceed, `spent` where the budget was and a coarser map may exist, then its records: how many are
kept, folded into an earlier one, and dead. A reduced table accepts the same scripts as its table.

One table goes to -o OUT; several go to --into FOLDER under their own names, a text's with .bin. Without either nothing is written. Where a table or map
goes to standard output, the line goes to standard error. Where a table is refused the others go on, and the status is the worst of all. A folder stands for
the files in it that end in .bin or .txt. Of one table standard error also says which states no run reaches, and from which nothing is accepted.

With --jobs several tables are reduced at a time; their lines stand in the order in which they were given. A load that was cut short is taken up with
--update: a table whose place in the folder has a newer file is left as it is, whatever the other options are. With either, a last line on standard error adds up the load.

With --with a solver is run on the clauses too, every sign turned, so that it prefers joined pairs. It is not trusted: its map counts only where the check
accepts it, and of two accepted maps the one with fewer classes is kept. The line then ends with whose map it is. SOLVER is a command line: 'minisat', or
'cadical -q --lucky=0 --phase=0', which else takes what is true of every table, that nothing need be joined.

Example:

    basilvault reduce tables/t.bin -o small.bin --map small.map
",
    least: 1,
    most: usize::MAX,
    options: &[OUT, INTO, JOBS, UPDATE, JSON, MAP, TEXT, WITH, NAMES, BUDGET, ROOM, STATES, SYMBOLS],
    run,
};

/// What else is written of a table.
struct Written<'a> {
    map: Option<&'a Path>,
    text: Option<&'a Path>,
}

/// What reductions share: the tables and where they go, limits, budget, and the files that are not written to.
struct Reducer<'a> {
    call: &'a Call,
    files: &'a [&'a Path],
    outs: Vec<PathBuf>,
    written: Written<'a>,
    limits: Limits,
    budget: u64,
    spared: Spared,
}

/// What came of a table: what standard error is told of it, and its line.
struct Done {
    notes: Vec<String>,
    line: String,
    /// its states and classes, where it was reduced now
    counts: Option<(usize, usize)>,
}

/// Reduces the tables that are named.
fn run(call: &Call) -> Outcome {
    let files: Vec<PathBuf> = tables_in(call.plain.iter().map(Path::new))?;
    let files: Vec<&Path> = files.iter().map(PathBuf::as_path).collect();
    once_from_input(&files)?;
    let jobs = jobs(call)?;
    let outs = outs(call, &files)?;
    let written = Written { map: call.path(MAP.name), text: call.path(TEXT.name) };
    let streams = one_streams([call.path(OUT.name), written.map, written.text])?;
    let spared = Spared::of(files.iter().copied());
    let (room, start) = (call.room()?, Instant::now());
    let reducer = Reducer { call, files: &files, outs, written, limits: call.limits()?, budget: call.budget()?, spared };
    let progress = Progress::start("reduce", files.len());
    let mut load = Load::default();
    let tell = |(place, done): (usize, Result<Done, Failure>)| {
        progress.clear();
        load.tell(&reducer, place, streams, done)?;
        progress.step();
        Ok(())
    };
    load::in_order(jobs, files.len(), || Room::new(room), |room, place| (place, reducer.one(room, place)), tell)?;
    drop(progress);
    if call.has(JOBS.name) || call.has(UPDATE.name) {
        note(&load.line(start.elapsed().as_secs_f64()));
    }
    Ok(load.worst.unwrap_or(Status::Done))
}

/// How many tables are reduced at a time.
fn jobs(call: &Call) -> Result<usize, Failure> {
    if call.has(UPDATE.name) && !call.has(INTO.name) {
        return Err(Failure::Wrong("--update needs --into FOLDER".into(), None));
    }
    if call.has(UPDATE.name) && (call.has(MAP.name) || call.has(TEXT.name)) {
        return Err(Failure::Wrong("--update looks at the table in the folder, not at --map and --text".into(), None));
    }
    match call.number(JOBS.name, 1)? {
        0 => Err(Failure::Wrong("--jobs: at least one table is reduced at a time".into(), None)),
        jobs => Ok(usize::try_from(jobs).unwrap_or(usize::MAX)),
    }
}

/// What a load comes to.
#[derive(Default)]
struct Load {
    reduced: usize,
    left: usize,
    failed: usize,
    states: usize,
    classes: usize,
    worst: Option<Status>,
}

impl Load {
    /// Tells what came of a table, and adds it up.
    fn tell(&mut self, reducer: &Reducer, place: usize, streams: bool, done: Result<Done, Failure>) -> Result<(), Failure> {
        let status = match done {
            Ok(Done { notes, line, counts }) => {
                notes.iter().for_each(|line| note(line));
                let (states, classes) = counts.unwrap_or_default();
                self.states += states;
                self.classes += classes;
                *(if counts.is_some() { &mut self.reduced } else { &mut self.left }) += 1;
                answer::put(streams, &line)?;
                Status::Done
            }
            Err(failure) => {
                self.failed += 1;
                answer::failed(reducer.call, Some(reducer.files[place]), streams, failure)?
            }
        };
        self.worst = self.worst.max(Some(status));
        Ok(())
    }

    /// The line that adds it up.
    fn line(&self, seconds: f64) -> String {
        let Load { reduced, left, failed, states, classes, .. } = self;
        let tables = reduced + left + failed;
        format!("basilvault: tables {tables} reduced {reduced} left {left} failed {failed}; states {states} became {classes}; {seconds:.2} s")
    }
}

/// Standard input can be read once, which is seen to before anything is reduced.
pub fn once_from_input(files: &[&Path]) -> Result<(), Failure> {
    match files.iter().filter(|file| is_stream(file)).count() {
        0 | 1 => Ok(()),
        _ => Err(Failure::Wrong("standard input is named twice".into(), None)),
    }
}

/// Where the reduced tables go: nowhere, to one file, or to a folder.
fn outs(call: &Call, files: &[&Path]) -> Result<Vec<PathBuf>, Failure> {
    match (call.path(OUT.name), call.path(INTO.name)) {
        (Some(_), Some(_)) => Err(Failure::Wrong("-o and --into cannot both be given".into(), None)),
        (Some(_), None) if files.len() > 1 => Err(Failure::Wrong("several tables cannot go to one file: --into FOLDER takes them".into(), None)),
        _ if call.has(TEXT.name) && files.len() > 1 => Err(Failure::Wrong("the texts of several tables cannot go to one file".into(), None)),
        _ if call.has(MAP.name) && files.len() > 1 => Err(Failure::Wrong("the maps of several tables cannot go to one file".into(), None)),
        (Some(out), None) => Ok(vec![out.to_path_buf()]),
        (None, Some(into)) => places(into, files).and_then(|places| folder(into).map(|()| places)),
        (None, None) => Ok(Vec::new()),
    }
}

impl Reducer<'_> {
    /// Reduces the table at a place, or leaves it.
    fn one(&self, room: &mut Room, place: usize) -> Result<Done, Failure> {
        let (file, out) = (self.files[place], self.outs.get(place).map(PathBuf::as_path));
        if let Some(out) = out.filter(|out| self.call.has(UPDATE.name) && is_newer(out, file)) {
            let text = || format!("{}: left as it is, {} is newer", file.display(), out.display());
            let line = answer::shown(self.call, file, Status::Done, text, || vec![("left", true.into())]);
            return Ok(Done { notes: Vec::new(), line, counts: None });
        }
        let input = Input::of(self.limits, file)?;
        let (table, names) = input.named(self.limits, self.call)?;
        let (mut map, mut small) = ([0; MOST_STATES], [0; LONGEST_FILE]);
        let list = room.for_tables(self.limits, [&input.bytes[..]])?;
        let reduced = basilvault::reduce_within(self.limits, &input.bytes, self.budget, list, &mut map, &mut small);
        let reduced = reduced.map_err(|refusal| room.refused(self.limits, &input, refusal))?;
        let (reduced, solver) = match self.call.path(WITH.name) {
            Some(command) => proposed(self.limits, &input, table.states.len(), command, (reduced, &mut map, &mut small))?,
            None => (reduced, None),
        };
        let summary = Summary::of(self.limits, &input, reduced, &map).map_err(|refusal| input.refused(refusal))?;
        let mut notes: Vec<String> = summary.spent(&input).into_iter().collect();
        if self.files.len() == 1 {
            let facts = Facts::of(&table, &input.tops()?).told(&names);
            notes.extend(facts.iter().map(|fact| format!("basilvault: {}: {fact}", file.display())));
        }
        self.write(&input, &names, out, (&map[..summary.states], &small[..reduced.length]))?;
        let text = || summary.line(&input) + &solver.map_or(String::new(), |theirs| whose(self.call, theirs));
        let fields = || summary.fields().into_iter().chain(solver.map(|theirs| ("proposed", theirs.into()))).collect();
        let line = answer::shown(self.call, file, Status::Done, text, fields);
        Ok(Done { notes, line, counts: Some((summary.states, reduced.classes)) })
    }

    /// Writes what is asked for of a reduced table.
    fn write(&self, input: &Input, names: &Names, out: Option<&Path>, (map, small): (&[u8], &[u8])) -> Result<(), Failure> {
        let Written { map: maps_to, text: texts_to } = self.written;
        let text = texts_to.map_or(Ok(String::new()), |_| {
            let quotient = Table::from_bytes(self.limits, small).map_err(|refusal| input.refused(refusal))?;
            Ok(text::show(&quotient, &maps::class_names(map, names, &quotient), None))
        })?;
        let own = input.own_names().or(self.call.has(NAMES.name).then_some(names));
        for (path, bytes) in [(out, small), (maps_to, maps::shown(map, own).as_bytes()), (texts_to, text.as_bytes())] {
            path.map_or(Ok(()), |path| self.spared.write(path, bytes))?;
        }
        Ok(())
    }
}

/// The end of a line that says whose map is delivered where a solver was asked too.
fn whose(call: &Call, theirs: bool) -> String {
    let name = call.path(WITH.name).unwrap_or(Path::new("")).display();
    if theirs { format!(" map of {name}, accepted by the check") } else { " map of the library's search".into() }
}

/// Asks a solver too, and puts its map and quotient in place of those that are there where they are better; what is delivered, and whether it is the solver's.
pub fn proposed(
    limits: Limits, input: &Input, states: usize, command: &Path, (reduced, map, small): (Reduced, &mut [u8], &mut [u8]),
) -> Result<(Reduced, Option<bool>), Failure> {
    let refused = |refusal| input.refused(refusal);
    let counts = basilvault::read_within(limits, &input.bytes).map_err(refused)?.counts(input.bytes.len());
    let mut list = vec![0; counts.most_words()];
    let listed = basilvault::clauses_within(limits, &input.bytes, &mut list).map_err(refused)?;
    let variables = states * (states - 1) / 2;
    let name = command.to_string_lossy();
    let answer = solver::run(&name, &solver::dimacs(&list[..listed.words], variables, true))?;
    let values = solver::model(&answer, variables).map_err(|why| Failure::File(format!("{name} has no model of {}: {why}", input.file.display())))?;
    let theirs = solver::map_of(&values.iter().map(|turned| !turned).collect::<Vec<_>>(), states);
    let ours = map[..states].to_vec();
    let chosen = basilvault::choose_within(limits, &input.bytes, &ours, &theirs).map_err(refused)?;
    if std::ptr::eq(chosen, &ours[..]) {
        return Ok((reduced, Some(false)));
    }
    let length = basilvault::quotient_within(limits, &input.bytes, &theirs, small).map_err(refused)?;
    map[..states].copy_from_slice(&theirs);
    let classes = basilvault::check_within(limits, &input.bytes, &theirs).map_err(refused)?;
    Ok((Reduced { classes, length, joined: maps::joined(&theirs), ..reduced }, Some(true)))
}
