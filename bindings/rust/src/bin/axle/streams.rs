//! Reading and writing, with every error answered. Standard input and output are taken as files,
//! since Rust's own handles hide that a stream is not open for reading or writing.

use crate::closed;
use crate::failure::Failure;
use std::ffi::OsStr;
use std::fmt::Display;
use std::fs::File;
use std::io::{self, Read, Write};
use std::os::unix::io::{AsFd, BorrowedFd};

fn file(stream: BorrowedFd, closed: bool) -> io::Result<File> {
    if closed {
        return Err(io::Error::new(io::ErrorKind::NotConnected, "it is closed"));
    }
    stream.try_clone_to_owned().map(File::from)
}

fn open(name: &OsStr) -> io::Result<File> {
    if name == "-" {
        file(io::stdin().as_fd(), closed::input())
    } else {
        File::open(name)
    }
}

/// No text of numbers need be longer: that of the largest grid has some 65,000 bytes.
const LONGEST_TEXT: usize = 1_048_576;

/// No listing need be longer: without blanks at the ends of its lines it has at most 65,536 bytes.
const LONGEST_LISTING: usize = 67_108_864;

/// More than ten million questions. Input that does not end is told before it has taken all memory.
const LONGEST_QUESTIONS: usize = 268_435_456;

/// Component data, up to the library's limit.
pub fn read_data(name: &OsStr) -> Result<Vec<u8>, Failure> {
    read(name, axle::READING_LIMIT)
}

/// A text of numbers. Bytes that are not UTF-8 may stand in its remarks.
pub fn read_text(name: &OsStr) -> Result<String, Failure> {
    let text = read_whole(name, LONGEST_TEXT)?;
    Ok(String::from_utf8_lossy(&text).into_owned())
}

/// A listing, whatever its bytes are.
pub fn read_listing(name: &OsStr) -> Result<Vec<u8>, Failure> {
    read_whole(name, LONGEST_LISTING)
}

/// The questions on standard input, whatever their bytes are.
pub fn read_questions() -> Result<Vec<u8>, Failure> {
    read_whole(OsStr::new("-"), LONGEST_QUESTIONS)
}

/// A text, which is read whole or not at all.
fn read_whole(name: &OsStr, longest: usize) -> Result<Vec<u8>, Failure> {
    let text = read(name, longest as u64 + 1)?;
    if text.len() > longest {
        let message = format!("the text is longer than {longest} bytes");
        return Err(Failure::Failed(message));
    }
    Ok(text)
}

/// The bytes of a file, or of standard input for `-`, up to a limit.
fn read(name: &OsStr, limit: u64) -> Result<Vec<u8>, Failure> {
    let mut data = Vec::new();
    let read = |file: File| file.take(limit).read_to_end(&mut data);
    match open(name).and_then(read) {
        Ok(_) => Ok(data),
        Err(error) if name == "-" => Err(failed("read standard input", error)),
        Err(error) => Err(failed(&format!("read {name:?}"), error)),
    }
}

/// Writes all of the text to standard output.
pub fn write(text: &[u8]) -> Result<(), Failure> {
    file(io::stdout().as_fd(), closed::output())
        .and_then(|mut output| output.write_all(text))
        .map_err(|error| failed("write standard output", error))
}

/// Writes a message and a line feed to standard error; where that fails, the status still tells.
pub fn write_error(message: &impl Display) {
    let _ = io::stderr().write_all(format!("{message}\n").as_bytes());
}

fn failed(what: &str, error: io::Error) -> Failure {
    Failure::Failed(format!("cannot {what}: {error}"))
}
