//! The words of the command, in one table, and what each answers.

use crate::failure::Failure;
use crate::listings;
use crate::numbers::{
    lines_of_hundredths, short, Quantity, BEARING_LOSSES, RATIO, READINGS, SPEED, TORQUE,
};
use crate::numbers_text;
use crate::questions;
use crate::sensors;
use crate::streams;
use axle::{Map, Sensor};
use std::cmp::Ordering;
use std::ffi::{OsStr, OsString};
use std::os::unix::ffi::OsStrExt;

/// A word of the command, alone or with an option: the names of its arguments, its help and its
/// function, which is called with as many arguments as there are names and answers what is written to
/// standard output.
pub struct Command {
    pub name: &'static str,
    pub arguments: &'static [&'static str],
    pub help: &'static str,
    /// Whether it reads questions from standard input, which is then not its FILE too.
    questions_on_input: bool,
    function: fn(&[OsString]) -> Result<Vec<u8>, Failure>,
}

pub const COMMANDS: &[Command] = &[
    Command {
        name: "list",
        arguments: &["FILE"],
        help: "the listing of the map",
        questions_on_input: false,
        function: list,
    },
    Command {
        name: "loss",
        arguments: &["FILE", "SPEED", "TORQUE"],
        help: "the loss at a point, in Nm",
        questions_on_input: false,
        function: loss,
    },
    Command {
        name: "losses",
        arguments: &["FILE"],
        help: "the losses at the points of standard input, in Nm",
        questions_on_input: true,
        function: losses,
    },
    Command {
        name: "nearest",
        arguments: &["FILE", "SPEED", "TORQUE"],
        help: "the nearest grid point: rpm,Nm",
        questions_on_input: false,
        function: nearest,
    },
    Command {
        name: "check",
        arguments: &["FILE"],
        help: "whether the data is accepted, and its axes",
        questions_on_input: false,
        function: check,
    },
    Command {
        name: "load",
        arguments: &["LISTING"],
        help: "whether a listing is taken in, and its axes",
        questions_on_input: false,
        function: load,
    },
    Command {
        name: "load --list",
        arguments: &["LISTING"],
        help: "the listing of the map that a listing says",
        questions_on_input: false,
        function: load_and_list,
    },
    Command {
        name: "write",
        arguments: &["NUMBERS"],
        help: "the component data that says these numbers",
        questions_on_input: false,
        function: write,
    },
    Command {
        name: "steps",
        arguments: &STEPS_ARGUMENTS,
        help: "the steps of a sensor's uncertainty, in grains",
        questions_on_input: false,
        function: steps,
    },
    Command {
        name: "drag",
        arguments: &[RATIO.name, SPEED.name, READINGS.name, BEARING_LOSSES.name],
        help: "the drag of a retarder, in Nm",
        questions_on_input: false,
        function: drag,
    },
];

/// The arguments that are names of files.
const FILES: [&str; 3] = ["FILE", "LISTING", "NUMBERS"];

/// The command that is called, the one with its option where that is given, and its arguments.
pub fn find(words: &[OsString]) -> Option<(&'static Command, &[OsString])> {
    let called = COMMANDS
        .iter()
        .filter_map(|command| Some((command, command.arguments_of(words)?)));
    called.min_by_key(|(_, arguments)| arguments.len())
}

impl Command {
    /// What follows the name, where the words begin with it.
    fn arguments_of<'a>(&self, words: &'a [OsString]) -> Option<&'a [OsString]> {
        let mut rest = words;
        for part in self.name.split(' ') {
            let (word, later) = rest.split_first()?;
            if word != part {
                return None;
            }
            rest = later;
        }
        Some(rest)
    }

    /// The command as it is typed.
    pub fn usage(&self) -> String {
        format!("axle {} {}", self.name, self.arguments.join(" "))
    }

    pub fn answer(&self, arguments: &[OsString]) -> Result<Vec<u8>, Failure> {
        if let Some(message) = self.fault(arguments) {
            let usage = self.usage();
            return Err(Failure::WrongUsage { message, usage });
        }
        (self.function)(arguments)
    }

    /// What is wrong with the arguments, before their own text is looked at.
    fn fault(&self, arguments: &[OsString]) -> Option<String> {
        match arguments.len().cmp(&self.arguments.len()) {
            Ordering::Less => Some(format!("too few arguments for {}", self.name)),
            Ordering::Greater => Some(format!("too many arguments for {}", self.name)),
            Ordering::Equal => self
                .option_fault(arguments)
                .or_else(|| self.input_fault(arguments)),
        }
    }

    /// An option that is known is part of a command's name: a file's name is not taken for one by mistake.
    fn option_fault(&self, arguments: &[OsString]) -> Option<String> {
        let mut pairs = self.arguments.iter().zip(arguments);
        let (_, option) = pairs.find(|(name, text)| FILES.contains(name) && is_option(text))?;
        let mut file = OsString::from("./");
        file.push(option);
        Some(format!(
            "unknown option {option:?}; a file of this name is given as {file:?}"
        ))
    }

    /// Data and questions do not come from one standard input.
    fn input_fault(&self, arguments: &[OsString]) -> Option<String> {
        if !self.questions_on_input || arguments[0] != "-" {
            return None;
        }
        Some(format!(
            "FILE of {} cannot be -: standard input has the questions",
            self.name
        ))
    }
}

fn is_option(text: &OsStr) -> bool {
    text != "-" && text.as_bytes().starts_with(b"-")
}

fn map(file: &OsStr) -> Result<Map, Failure> {
    let data = streams::read_data(file)?;
    Map::build(&data).map_err(|refusal| Failure::Refused {
        refusal,
        sensor: sensors::in_data(&data, &refusal),
    })
}

fn list(arguments: &[OsString]) -> Result<Vec<u8>, Failure> {
    Ok(map(&arguments[0])?.listing()?.into_bytes())
}

fn loss(arguments: &[OsString]) -> Result<Vec<u8>, Failure> {
    let speed = SPEED.number(&arguments[1])?;
    let torque = TORQUE.number(&arguments[2])?;
    let loss = map(&arguments[0])?.loss(speed, torque)?;
    Ok(lines_of_hundredths(&[loss]))
}

/// The data comes first: where it is refused, no questions are waited for.
fn losses(arguments: &[OsString]) -> Result<Vec<u8>, Failure> {
    let map = map(&arguments[0])?;
    let text = streams::read_questions()?;
    let points = questions::points(&text)?;
    let losses = map.losses(&points);
    let losses = losses.map_err(|refused| questions::failure(&text, &refused))?;
    Ok(lines_of_hundredths(&losses))
}

fn nearest(arguments: &[OsString]) -> Result<Vec<u8>, Failure> {
    let speed = SPEED.number(&arguments[1])?;
    let torque = TORQUE.number(&arguments[2])?;
    let (speed, torque) = map(&arguments[0])?.nearest(speed, torque)?;
    Ok(format!("{speed},{torque}\n").into_bytes())
}

fn check(arguments: &[OsString]) -> Result<Vec<u8>, Failure> {
    Ok(accepted(&map(&arguments[0])?))
}

/// That a map is accepted, and its axes.
fn accepted(map: &Map) -> Vec<u8> {
    let (speeds, torques) = (map.speeds(), map.torques());
    let line = format!(
        "accepted: {} speeds from {} to {} rpm, {} torques from {} to {} Nm\n",
        speeds.len(),
        speeds[0],
        speeds[speeds.len() - 1],
        torques.len(),
        torques[0],
        torques[torques.len() - 1],
    );
    line.into_bytes()
}

fn loaded_map(listing: &OsStr) -> Result<Map, Failure> {
    let text = streams::read_listing(listing)?;
    Map::load(&text).map_err(|refusal| match listings::words(&text, &refusal) {
        Some(words) => Failure::NotLoaded { refusal, words },
        None => Failure::from(refusal),
    })
}

fn load(arguments: &[OsString]) -> Result<Vec<u8>, Failure> {
    Ok(accepted(&loaded_map(&arguments[0])?))
}

fn load_and_list(arguments: &[OsString]) -> Result<Vec<u8>, Failure> {
    Ok(loaded_map(&arguments[0])?.listing()?.into_bytes())
}

fn write(arguments: &[OsString]) -> Result<Vec<u8>, Failure> {
    let text = streams::read_text(&arguments[0])?;
    let numbers = numbers_text::numbers(&text)?;
    numbers.write().map_err(|refusal| Failure::Refused {
        refusal,
        sensor: sensors::in_numbers(&numbers, &refusal),
    })
}

/// The letters of a sensor's numbers in the order of the data, and the torque.
const STEPS_ARGUMENTS: [&str; 10] = ["N", "w", "z", "c", "k", "s", "p", "d", "R", TORQUE.name];

/// Document 01's letters of the steps, in the order of `Steps::in_order`.
const STEPS: [&str; 5] = ["a", "b", "g", "h", "U"];

/// A number that is too large for the library is the largest that it takes, which is refused too.
fn steps(arguments: &[OsString]) -> Result<Vec<u8>, Failure> {
    let capped = |quantity: Quantity, text| quantity.capped(text).map_err(Failure::Failed);
    let mut numbers = [0; 9];
    for ((number, name), text) in numbers.iter_mut().zip(STEPS_ARGUMENTS).zip(arguments) {
        let quantity = Quantity {
            name,
            form: "whole number",
            digits: 0,
        };
        *number = short(capped(quantity, text)?);
    }
    let torque = capped(TORQUE, &arguments[numbers.len()])?;
    let steps = Sensor::from(numbers).steps(torque)?;
    let lines = STEPS.iter().zip(steps.in_order());
    let lines: String = lines
        .map(|(name, grains)| format!("{name} {grains}\n"))
        .collect();
    Ok(lines.into_bytes())
}

/// A number that is too large for the library is a failure, as in a question: a reading or a bearing loss cut
/// to the largest that it takes would be another drag.
fn drag(arguments: &[OsString]) -> Result<Vec<u8>, Failure> {
    let ratio = RATIO.number(&arguments[0])?;
    let speed = SPEED.number(&arguments[1])?;
    let readings = READINGS.list(&arguments[2])?;
    let bearing_losses = BEARING_LOSSES.list(&arguments[3])?;
    let drag = axle::retarder_drag(&readings, &bearing_losses, ratio, speed)?;
    Ok(lines_of_hundredths(&[i64::from(drag)]))
}
