//! The command `basilvault`.

use std::process::ExitCode;

fn main() -> ExitCode {
    let arguments: Vec<_> = std::env::args_os().skip(1).collect();
    ExitCode::from(basilvault_cli::commands::run(&arguments) as u8)
}
