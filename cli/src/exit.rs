//! How a command ends: its status, and what it says on standard error.

use basilvault::Refusal;
use std::io::{self, Write};
use std::sync::LazyLock;

/// The status that a command ends with, the worst last.
#[derive(Clone, Copy, Debug, PartialEq, Eq, PartialOrd, Ord)]
pub enum Status {
    /// Done, or yes.
    Done = 0,
    /// No.
    No = 1,
    /// Refused by the library, or not what the file should be.
    Refused = 2,
    /// A file cannot be read or written.
    File = 3,
    /// Called wrongly.
    Wrong = 4,
}

impl From<bool> for Status {
    fn from(yes: bool) -> Status {
        if yes { Status::Done } else { Status::No }
    }
}

/// Why a command, or its work on one file, ends early.
#[derive(Clone, Debug, PartialEq, Eq)]
pub enum Failure {
    /// The library refuses what this file has; the values that it is about, where they say more.
    Refused(String, Refusal, String),
    /// A file is not what it should be: lines that say where and why.
    Mistaken(Vec<String>),
    /// A file cannot be read or written.
    File(String),
    /// The command was called wrongly: why, and the subcommand whose help says more.
    Wrong(String, Option<&'static str>),
    /// Whoever reads standard output has stopped.
    Unread,
}

/// What a command comes to.
pub type Outcome = Result<Status, Failure>;

impl Failure {
    /// The status of a command that ends so.
    pub fn status(&self) -> Status {
        match self {
            Failure::Refused(..) | Failure::Mistaken(_) => Status::Refused,
            Failure::File(_) | Failure::Unread => Status::File,
            Failure::Wrong(..) => Status::Wrong,
        }
    }

    /// What is said of it.
    pub fn lines(&self) -> Vec<String> {
        match self {
            Failure::Refused(what, refusal, values) if values.is_empty() => vec![format!("{what}: {refusal}")],
            Failure::Refused(what, refusal, values) => vec![format!("{what}: {refusal}: {values}")],
            Failure::Mistaken(lines) => lines.clone(),
            Failure::File(text) => vec![text.clone()],
            Failure::Wrong(text, command) => {
                let command = command.map_or(String::new(), |command| format!("{command} "));
                vec![format!("{text}; basilvault {command}--help says more")]
            }
            Failure::Unread => Vec::new(),
        }
    }

    /// Says it on standard error, and hands back the status.
    pub fn tell(&self) -> Status {
        // mistakes begin with where they are
        let before = if matches!(self, Failure::Mistaken(_)) { "" } else { "basilvault: " };
        self.lines().iter().for_each(|line| note(&format!("{before}{line}")));
        self.status()
    }
}

/// Writes a line to standard error, where there is one.
pub fn note(line: &str) {
    let _ = writeln!(io::stderr(), "{line}");
}

/// Whether standard output was closed when the command was called: it is looked up once.
static CLOSED: LazyLock<bool> = LazyLock::new(closed);

/// Where it was closed the system's empty device stands in for it, open for reading too.
fn closed() -> bool {
    let there = std::fs::read_link("/proc/self/fd/1").is_ok_and(|path| path.as_os_str() == "/dev/null");
    let info = std::fs::read_to_string("/proc/self/fdinfo/1").unwrap_or_default();
    let flags = info.lines().find_map(|line| u32::from_str_radix(line.strip_prefix("flags:")?.trim(), 8).ok());
    there && flags.is_some_and(|flags| flags & 3 == 2)
}

/// Writes to standard output.
pub fn say(bytes: &[u8]) -> Result<(), Failure> {
    if *CLOSED {
        return Err(Failure::File("standard output is closed".into()));
    }
    let mut out = io::stdout().lock();
    out.write_all(bytes).and_then(|()| out.flush()).map_err(|error| match error.kind() {
        io::ErrorKind::BrokenPipe => Failure::Unread,
        _ => Failure::File(format!("standard output cannot be written ({error})")),
    })
}
