//! Makes a file of component data from the numbers of a bench and writes it to standard output:
//! measured data with a sensor on each half-shaft, two speeds and two torques.

use axle::{Numbers, Sensor};
use std::io::{self, Write};
use std::process::ExitCode;

/// A sensor that is uncertain by its calibration alone.
fn sensor(nominal: u16) -> Sensor {
    Sensor {
        nominal,
        calibration: 100,
        advancement: 1_000,
        span: 10,
        ..Sensor::default()
    }
}

fn numbers() -> Numbers {
    Numbers {
        kind: 3,
        line: 1,
        ratio: 3_000,
        speeds: vec![100, 200],
        torques: vec![1_000, 3_000],
        input: sensor(10_000),
        output: sensor(30_000),
        right: sensor(15_000),
        // Input, left and right torque of each point, in hundredths of Nm.
        rows: [
            [34_000, 60_000, 40_000],    // 100 rpm, 1000 Nm
            [102_000, 200_000, 100_000], // 100 rpm, 3000 Nm
            [34_500, 35_000, 65_200],    // 200 rpm, 1000 Nm
            [110_000, 120_000, 180_000], // 200 rpm, 3000 Nm
        ]
        .concat(),
    }
}

fn main() -> ExitCode {
    let file = match numbers().write() {
        Ok(file) => file,
        Err(refusal) => {
            eprintln!("write: {refusal}");
            return ExitCode::from(1);
        }
    };
    let mut output = io::stdout();
    match output.write_all(&file).and_then(|()| output.flush()) {
        Ok(()) => ExitCode::SUCCESS,
        Err(error) => {
            eprintln!("write: {error}");
            ExitCode::from(2)
        }
    }
}
