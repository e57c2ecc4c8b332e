//! What the commands have in common: reading a file, writing, and how they end.

use crate::listing::LONGEST_INPUT;
use std::ffi::OsStr;
use std::fs::File;
use std::io::{self, Read, Write};
use std::process::ExitCode;

/// Why a command ends without what it was asked for.
#[derive(Clone, PartialEq, Eq, Debug)]
pub struct Failure {
    pub status: u8,
    pub message: String,
}

/// The input or what was found is not as it must be.
pub fn refused(message: impl ToString) -> Failure {
    Failure {
        status: 1,
        message: message.to_string(),
    }
}

/// The command cannot do its work: wrong usage, or a file that cannot be read or written.
pub fn unable(message: impl ToString) -> Failure {
    Failure {
        status: 2,
        message: message.to_string(),
    }
}

/// The bytes of a file, or of standard input for `-`: as many as the map program reads.
pub fn read(file: &OsStr) -> Result<Vec<u8>, Failure> {
    let mut data = Vec::new();
    let most = LONGEST_INPUT as u64;
    let read = if file == "-" {
        io::stdin().lock().take(most).read_to_end(&mut data)
    } else {
        File::open(file).and_then(|file| file.take(most).read_to_end(&mut data))
    };
    match read {
        Ok(_) => Ok(data),
        Err(error) => Err(unable(format!("{}: {error}", file.display()))),
    }
}

/// Writes a text to standard output.
pub fn write(text: &str) -> Result<(), Failure> {
    let mut output = io::stdout().lock();
    output
        .write_all(text.as_bytes())
        .and_then(|()| output.flush())
        .map_err(|error| unable(format!("standard output: {error}")))
}

/// The exit status of a command; a failure's message goes to standard error.
pub fn ended(result: Result<(), Failure>) -> ExitCode {
    match result {
        Ok(()) => ExitCode::SUCCESS,
        Err(failure) => {
            // Where standard error cannot be written to, the status still tells.
            let _ = writeln!(io::stderr(), "{}", failure.message);
            ExitCode::from(failure.status)
        }
    }
}
