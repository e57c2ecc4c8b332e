//! The command `axle`: answers of the library for scripts. `axle --help` says what it takes.

mod closed;
mod commands;
mod failure;
mod help;
mod listings;
mod numbers;
mod numbers_text;
mod questions;
mod sensors;
mod streams;

use failure::Failure;
use std::ffi::OsString;
use std::process::ExitCode;

fn main() -> ExitCode {
    let arguments: Vec<OsString> = std::env::args_os().skip(1).collect();
    match answer(&arguments).and_then(|text| streams::write(&text)) {
        Ok(()) => ExitCode::SUCCESS,
        Err(failure) => {
            streams::write_error(&failure);
            ExitCode::from(failure.status())
        }
    }
}

/// What is to be written to standard output.
fn answer(arguments: &[OsString]) -> Result<Vec<u8>, Failure> {
    if arguments
        .iter()
        .any(|word| word == "--help" || word == "-h")
    {
        return Ok(help::text().into_bytes());
    }
    match (commands::find(arguments), arguments.first()) {
        (Some((command, rest)), _) => command.answer(rest),
        (None, Some(word)) => Err(help::wrong_usage(format!("unknown command {word:?}"))),
        (None, None) => Err(help::wrong_usage("no command given".to_string())),
    }
}
