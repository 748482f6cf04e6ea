//! The arguments of a command: plain ones, and options with or without a value.

use crate::exit::{Failure, Outcome};
use crate::lexer::{self, meant, nearest};
use basilvault::Limits;
use std::ffi::{OsStr, OsString};
use std::os::unix::ffi::OsStrExt;
use std::path::Path;

/// An option: its name, what its value is called where it has one, and what it does.
pub struct Opt {
    pub name: &'static str,
    pub value: &'static str,
    pub says: &'static str,
}

/// A command of the command: its name, what it does in a few words, its arguments, its help, how many plain arguments it takes, its options.
pub struct Command {
    pub name: &'static str,
    pub summary: &'static str,
    pub usage: &'static str,
    pub help: &'static str,
    pub least: usize,
    pub most: usize,
    pub options: &'static [Opt],
    pub run: fn(&Call) -> Outcome,
}

/// Options that several commands have.
pub const STATES: Opt = Opt { name: "--states", value: "N", says: "the most states of a table, 40 where it is not given" };
pub const SYMBOLS: Opt = Opt { name: "--symbols", value: "N", says: "the most symbols of a table, 64 where it is not given" };
pub const NAMES: Opt = Opt { name: "--names", value: "TEXT", says: "the text with the table's names, where it is no text itself" };
pub const BUDGET: Opt = Opt { name: "--budget", value: "N", says: "make at most N guesses, 1,000,000 where it is not given" };
pub const ROOM: Opt = Opt { name: "--room", value: "WORDS", says: "take at most so many clause words; all that are needed without" };
pub const TEXT: Opt = Opt { name: "--text", value: "FILE", says: "write it as text too, each class named by its states" };
pub const OUT: Opt = Opt { name: "-o", value: "OUT", says: "the file to write, - for standard output" };
pub const INTO: Opt = Opt { name: "--into", value: "FOLDER", says: "the folder to write to, made where there is none" };

/// A command's arguments.
pub struct Call {
    pub command: &'static str,
    pub plain: Vec<OsString>,
    chosen: Vec<(&'static str, OsString)>,
}

impl Call {
    /// The arguments that are given to a command.
    pub fn of(command: &Command, arguments: &[OsString]) -> Result<Call, Failure> {
        let mut call = Call { command: command.name, plain: Vec::new(), chosen: Vec::new() };
        let mut rest = arguments.iter();
        while let Some(argument) = rest.next() {
            match argument.as_bytes() {
                b"--" => call.plain.extend(rest.by_ref().cloned()),
                [b'-', _, ..] => call.choose(command, argument, &mut rest)?,
                _ => call.plain.push(argument.clone()),
            }
        }
        let count = call.plain.len();
        match () {
            () if count < command.least => Err(wrong(command, "there is an argument missing".into())),
            () if count > command.most => Err(wrong(command, format!("there is an argument too much: {}", call.plain[command.most].display()))),
            () => Ok(call),
        }
    }

    /// Notes an option and its value, which stands after `=` or is the next argument.
    fn choose<'a>(&mut self, command: &Command, option: &OsStr, rest: &mut impl Iterator<Item = &'a OsString>) -> Result<(), Failure> {
        let mut parts = option.as_bytes().splitn(2, |&byte| byte == b'=').map(OsStr::from_bytes);
        let (name, joined) = (parts.next().unwrap_or(option), parts.next());
        let shown = name.display();
        let Some(option) = command.options.iter().find(|option| option.name == name) else {
            let nearest = nearest(&name.to_string_lossy(), command.options.iter().map(|option| option.name).chain(["--help"]));
            return Err(wrong(command, format!("there is no option {shown}{}", meant(nearest))));
        };
        if self.has(option.name) {
            return Err(wrong(command, format!("{shown} is given twice")));
        }
        let value = match (option.value.is_empty(), joined) {
            (true, Some(_)) => return Err(wrong(command, format!("{shown} takes no value"))),
            (true, None) => OsString::new(),
            (false, Some(value)) => value.into(),
            (false, None) => rest.next().cloned().ok_or_else(|| wrong(command, format!("{shown} needs a value: {}", option.value)))?,
        };
        self.chosen.push((option.name, value));
        Ok(())
    }

    /// Whether an option is given.
    pub fn has(&self, name: &str) -> bool {
        self.value(name).is_some()
    }

    /// The value of an option.
    fn value(&self, name: &str) -> Option<&OsStr> {
        self.chosen.iter().find(|(chosen, _)| *chosen == name).map(|(_, value)| value.as_os_str())
    }

    /// The file or folder that an option names.
    pub fn path(&self, name: &str) -> Option<&Path> {
        self.value(name).map(Path::new)
    }

    /// The file that must be named to write to.
    pub fn out(&self) -> Result<&Path, Failure> {
        self.path(OUT.name).ok_or_else(|| Failure::Wrong("-o OUT is missing, the file to write".into(), None))
    }

    /// A plain argument as a file.
    pub fn file(&self, place: usize) -> &Path {
        Path::new(&self.plain[place])
    }

    /// The number that an option gives, or this one.
    pub fn number(&self, name: &str, otherwise: u64) -> Result<u64, Failure> {
        self.value(name).map_or(Ok(otherwise), |value| number(value, name))
    }

    /// A plain argument as a number.
    pub fn plain_number<N: TryFrom<u64>>(&self, place: usize, what: &str) -> Result<N, Failure> {
        let given = &self.plain[place];
        N::try_from(number(given, what)?).map_err(|_| Failure::Wrong(format!("{what}: {} is too large", given.display()), None))
    }

    /// The limits that tables are read at.
    pub fn limits(&self) -> Result<Limits, Failure> {
        let limit = |name, most: usize| self.number(name, most as u64).map(|n| usize::try_from(n).unwrap_or(usize::MAX));
        Ok(Limits { states: limit(STATES.name, Limits::LARGEST.states)?, symbols: limit(SYMBOLS.name, Limits::LARGEST.symbols)? })
    }

    /// How many guesses may be made.
    pub fn budget(&self) -> Result<u64, Failure> {
        self.number(BUDGET.name, GUESSES)
    }

    /// How many clause words may be taken: more than the longest list has are of no use.
    pub fn room(&self) -> Result<usize, Failure> {
        let most = basilvault::MOST_WORDS as u64;
        Ok(self.number(ROOM.name, most)?.min(most) as usize)
    }
}

/// The guesses that a reduction may make where no number is given.
pub const GUESSES: u64 = 1_000_000;

/// A number in digits, which may be separated by commas or underscores.
fn number(given: &OsStr, what: &str) -> Result<u64, Failure> {
    let fail = |why: &str| Failure::Wrong(format!("{what}: {} is {why}", given.display()), None);
    let digits = given.to_str().filter(|text| text.starts_with(|c: char| c.is_ascii_digit())).map(|text| text.replace([',', '_'], ""));
    let digits = digits.filter(|digits| lexer::is_number(digits)).ok_or_else(|| fail("no number"))?;
    digits.parse().map_err(|_| fail("too large"))
}

/// A command that is called wrongly: how it is called.
fn wrong(command: &Command, text: String) -> Failure {
    Failure::Wrong(format!("{}: {text}: basilvault {} {}", command.name, command.name, command.usage), None)
}
