//! Writes the listing of the component data on standard input, and the loss at the middle of its map.

use axle::{Map, Refusal};
use std::fmt::Display;
use std::io::{self, Read, Write};
use std::process::ExitCode;

fn main() -> ExitCode {
    let mut data = Vec::new();
    let input = io::stdin().take(axle::READING_LIMIT).read_to_end(&mut data);
    if let Err(error) = input {
        return stopped(2, error);
    }
    let text = match report(&data) {
        Ok(text) => text,
        Err(refusal) => return stopped(1, refusal),
    };
    let mut output = io::stdout();
    match output
        .write_all(text.as_bytes())
        .and_then(|()| output.flush())
    {
        Ok(()) => ExitCode::SUCCESS,
        Err(error) => stopped(2, error),
    }
}

fn stopped(status: u8, message: impl Display) -> ExitCode {
    let _ = writeln!(io::stderr(), "map: {message}");
    ExitCode::from(status)
}

fn report(data: &[u8]) -> Result<String, Refusal> {
    let map = Map::build(data)?;
    let middle = |axis: &[u16]| u32::from(axis[0]) + u32::from(axis[axis.len() - 1]);
    let (speed, torque) = (5 * middle(map.speeds()), 50 * middle(map.torques()));
    let loss = map.loss(speed, torque)?;
    Ok(format!(
        "{}{loss} hundredths of Nm at {speed} tenths of rpm and {torque} hundredths of Nm\n",
        map.listing()?
    ))
}
