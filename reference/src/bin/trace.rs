//! Follows one number of a map back to the data: an entry to its row and sensors, the loss at a point to its four entries.

use reference::command::{ended, read, refused, unable, write, Failure};
use reference::numerals::read_decimal;
use reference::trace::{self, NoTrace};
use std::ffi::{OsStr, OsString};
use std::process::ExitCode;

const USAGE: &str = "\
trace entry FILE SPEED TORQUE
    An entry of the map of FILE, from its bytes to the listing's line, a step a line.
    SPEED and TORQUE are numbers of the map's axes, in whole rpm and whole Nm.
trace point FILE SPEED TORQUE
    The loss at a point of the map of FILE, from the four entries around it.
    SPEED in rpm with at most one digit after the point, TORQUE in Nm with at most two.
trace --help
    This text.
FILE is component data, - for standard input. Exit status: 0 traced; 1 refused, with
`refused N at P` on standard error; 2 not on the grid, wrong usage, or a file that
cannot be read or written.
";

fn main() -> ExitCode {
    let arguments: Vec<OsString> = std::env::args_os().skip(1).collect();
    ended(run(&arguments))
}

fn run(arguments: &[OsString]) -> Result<(), Failure> {
    if arguments.iter().any(|argument| argument == "--help") {
        return write(USAGE);
    }
    let [command, file, speed, torque] = arguments else {
        return Err(wrong_usage("four arguments are due"));
    };
    let text = match command.to_str() {
        Some("entry") => entry(file, speed, torque)?,
        Some("point") => point(file, speed, torque)?,
        _ => return Err(wrong_usage("entry or point is due first")),
    };
    write(&text)
}

fn wrong_usage(what: &str) -> Failure {
    unable(format!("trace: {what}\n{}", USAGE.trim_end()))
}

/// How an argument is written.
struct Form {
    name: &'static str,
    unit: &'static str,
    digits: usize,
}

const fn form(name: &'static str, unit: &'static str, digits: usize) -> Form {
    Form { name, unit, digits }
}

const ENTRY_SPEED: Form = form("SPEED", "whole rpm", 0);
const ENTRY_TORQUE: Form = form("TORQUE", "whole Nm", 0);
const POINT_SPEED: Form = form("SPEED", "rpm with at most one digit after the point", 1);
const POINT_TORQUE: Form = form("TORQUE", "Nm with at most two digits after the point", 2);

impl Form {
    fn read(&self, argument: &OsStr) -> Result<u32, Failure> {
        let text = argument.to_str();
        let number = text.and_then(|text| read_decimal(text, self.digits));
        number.ok_or_else(|| {
            let (name, unit, argument) = (self.name, self.unit, argument.display());
            unable(format!(
                "{name}: {argument} is no number in {unit}, or too large"
            ))
        })
    }
}

fn entry(file: &OsStr, speed: &OsStr, torque: &OsStr) -> Result<String, Failure> {
    let speed = ENTRY_SPEED.read(speed)?;
    let torque = ENTRY_TORQUE.read(torque)?;
    trace::entry(&read(file)?, speed, torque).map_err(|reason| match reason {
        NoTrace::Refused(refusal) => refused(refusal),
        NoTrace::NotOnGrid(message) => unable(message),
    })
}

fn point(file: &OsStr, speed: &OsStr, torque: &OsStr) -> Result<String, Failure> {
    let speed = POINT_SPEED.read(speed)?;
    let torque = POINT_TORQUE.read(torque)?;
    trace::point(&read(file)?, speed, torque).map_err(refused)
}
