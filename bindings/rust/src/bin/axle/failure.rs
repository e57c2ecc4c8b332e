//! Why a command was not answered, and the status that it ends with.

use axle::Refusal;
use std::fmt;

pub enum Failure {
    /// The library refused the data, the numbers or the question; and the sensor that it is of,
    /// where it refused a sensor's number.
    Refused {
        refusal: Refusal,
        sensor: Option<&'static str>,
    },
    /// The library refused a listing: what was wrong and in which line.
    NotLoaded { refusal: Refusal, words: String },
    /// The library refused a question, and the line of standard input that it stands in.
    QuestionRefused { refusal: Refusal, line: usize },
    /// Something could not be read or written, or is not allowed as an argument or in a text.
    Failed(String),
    /// Other arguments than those of a command: what is wrong, and the usage.
    WrongUsage { message: String, usage: String },
}

impl Failure {
    pub fn status(&self) -> u8 {
        match self {
            Failure::Refused { .. }
            | Failure::NotLoaded { .. }
            | Failure::QuestionRefused { .. } => 1,
            Failure::Failed(_) | Failure::WrongUsage { .. } => 2,
        }
    }
}

impl From<Refusal> for Failure {
    fn from(refusal: Refusal) -> Failure {
        let sensor = None;
        Failure::Refused { refusal, sensor }
    }
}

impl fmt::Display for Failure {
    fn fmt(&self, f: &mut fmt::Formatter) -> fmt::Result {
        match self {
            Failure::Refused { refusal, sensor } => {
                write!(f, "axle: {refusal}")?;
                match sensor {
                    Some(sensor) => write!(f, ", of the {sensor} sensor"),
                    None => Ok(()),
                }
            }
            Failure::NotLoaded { refusal, words } => {
                let Refusal { number, place, .. } = refusal;
                write!(f, "axle: refused {number} at {place}: {words}")
            }
            Failure::QuestionRefused { refusal, line } => {
                write!(f, "axle: {refusal}, line {line} of standard input")
            }
            Failure::Failed(message) => write!(f, "axle: {message}"),
            Failure::WrongUsage { message, usage } => write!(f, "axle: {message}\nusage: {usage}"),
        }
    }
}
