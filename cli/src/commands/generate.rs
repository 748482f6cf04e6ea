//! `generate`: random tables.

use crate::arguments::{Call, Opt, Command, INTO, OUT, STATES, SYMBOLS};
use crate::exit::{Failure, Outcome, Status};
use crate::files::{Spared, folder};
use crate::progress::Progress;
use crate::values;
use basilvault::{LONGEST_FILE, Load};

const COUNT: Opt = Opt { name: "--count", value: "N", says: "make N tables, of this seed and those after it" };

pub const COMMAND: Command = Command {
    name: "generate",
    summary: "make random tables from a seed",
    usage: "SEED STATES INTERNALS CALLS RETURNS DENSITY {-o OUT | --into FOLDER --count N}",
    help: "\
Makes a table with so many states, and so many internal, call and return symbols; each possible record is present DENSITY of 65,536 times. The same numbers
give the same table. With --into, the tables of N seeds go to the folder, each as SEED.bin.

Example:

    basilvault generate 7 8 2 2 2 6000 -o random.bin
    basilvault generate 1 8 2 2 2 6000 --count 1000 --into load
",
    least: 6,
    most: 6,
    options: &[OUT, INTO, COUNT, STATES, SYMBOLS],
    run,
};

/// Makes the tables.
fn run(call: &Call) -> Outcome {
    let limits = call.limits()?;
    let size = |place, what| call.plain_number::<usize>(place, what);
    let (seed, density) = (call.plain_number(0, "SEED")?, call.plain_number(5, "DENSITY")?);
    let (states, internals, calls, returns) = (size(1, "STATES")?, size(2, "INTERNALS")?, size(3, "CALLS")?, size(4, "RETURNS")?);
    let table = |seed| {
        let mut out = [0; LONGEST_FILE];
        let load = Load { seed, states, internals, calls, returns, density };
        let made = basilvault::generate_within(limits, load, &mut out);
        made.map(|length| out[..length].to_vec()).map_err(|refusal| Failure::Refused(format!("seed {seed}"), refusal, values::of_load(refusal, limits, load)))
    };
    let spared = Spared::default();
    match (call.path(OUT.name), call.path(INTO.name)) {
        (Some(out), None) if !call.has(COUNT.name) => spared.write(out, &table(seed)?)?,
        (None, Some(into)) => {
            let last = u64::from(seed).checked_add(call.number(COUNT.name, 1)?).filter(|&last| last <= 1 << 32);
            let last = last.ok_or_else(|| Failure::Wrong("the seeds exceed 4,294,967,295".into(), None))?;
            // what is refused makes no folder
            table(seed)?;
            folder(into)?;
            let progress = Progress::start("generate", (last - u64::from(seed)) as usize);
            for seed in u64::from(seed)..last {
                spared.write(&into.join(format!("{seed}.bin")), &table(seed as u32)?)?;
                progress.step();
            }
        }
        _ => return Err(Failure::Wrong("where to write is not clear: -o OUT for one table, --into FOLDER and --count N for several".into(), None)),
    }
    Ok(Status::Done)
}
