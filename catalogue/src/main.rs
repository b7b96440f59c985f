//! The command. What it does is in the modules of its subcommands; here is how it ends.

use catalogue::subcommand::{self, Stop};
use catalogue::visible::say;
use std::env;
use std::io::ErrorKind;
use std::process::ExitCode;

fn main() -> ExitCode {
    let (line, status) = match subcommand::run(env::args_os().skip(1)) {
        Ok(()) => return ExitCode::SUCCESS,
        Err(Stop::Output(error)) if error.kind() == ErrorKind::BrokenPipe => return ExitCode::SUCCESS,
        Err(Stop::Output(error)) => (format!("standard output: {error}"), ExitCode::FAILURE),
        Err(Stop::File(line)) => (line, ExitCode::FAILURE),
        Err(Stop::Arguments(words)) => (words, ExitCode::from(2)),
    };
    say(&line);
    status
}
