//! The command `axle` as scripts run it.

mod answers;
mod drag;
mod examples;
mod load;
mod losses;
#[path = "../parsed/mod.rs"]
mod parsed;
mod steps;
mod streams;
mod usage;
mod write;

use std::ffi::OsStr;
use std::io::Write;
use std::path::PathBuf;
use std::process::{Command, Output, Stdio};

const STANDARD: &str = "standard.axle";
const MEASURED: &str = "measured.axle";
const HALF_SHAFTS: &str = "half-shafts.axle";
const REFUSED: &str = "refused.axle";

/// What a sensor's numbers are called, in their order.
const SENSOR_NUMBERS: [&str; 9] = [
    "N, nominal torque",
    "w, influence of temperature on sensitivity",
    "z, influence of temperature on zero",
    "c, calibration",
    "k, calibration advancement",
    "s, parasitic sensitivity",
    "p, parasitic share",
    "d, temperature difference",
    "R, reference span",
];

fn examples_folder() -> PathBuf {
    PathBuf::from(env!("CARGO_MANIFEST_DIR")).join("../../examples")
}

/// The command, run where the examples are.
fn axle<I: IntoIterator<Item = S>, S: AsRef<OsStr>>(arguments: I) -> Command {
    let mut command = Command::new(env!("CARGO_BIN_EXE_axle"));
    command
        .args(arguments)
        .current_dir(examples_folder())
        .stdin(Stdio::null())
        .stdout(Stdio::piped())
        .stderr(Stdio::piped());
    command
}

fn run<I: IntoIterator<Item = S>, S: AsRef<OsStr>>(arguments: I) -> Output {
    axle(arguments).output().expect("the command runs")
}

/// Runs the command with data on standard input.
fn run_with_input(arguments: &[&str], data: &[u8]) -> Output {
    let mut command = axle(arguments);
    let mut child = command.stdin(Stdio::piped()).spawn().expect("it runs");
    let mut input = child.stdin.take().expect("a pipe");
    input.write_all(data).expect("it reads");
    drop(input);
    child.wait_with_output().expect("it ends")
}

fn text(bytes: &[u8]) -> &str {
    std::str::from_utf8(bytes).expect("UTF-8")
}

/// The parts of an output: status, standard output, standard error.
fn parts(output: &Output) -> (Option<i32>, &str, &str) {
    let status = output.status.code();
    (status, text(&output.stdout), text(&output.stderr))
}

/// Answered: status 0, the text on standard output, nothing on standard error.
#[track_caller]
fn assert_answered(output: Output, answer: &str) {
    assert_eq!(parts(&output), (Some(0), answer, ""));
}

/// Not answered: the status, nothing on standard output, the message on standard error.
#[track_caller]
fn assert_failed(output: Output, status: i32, message: &str) {
    assert_eq!(parts(&output), (Some(status), "", message));
}

/// Not answered: the message begins so and is one line.
#[track_caller]
fn assert_failed_with(output: Output, status: i32, beginning: &str) {
    let (code, answer, message) = parts(&output);
    assert_eq!((code, answer), (Some(status), ""));
    assert!(message.starts_with(beginning), "{}", message);
    assert_eq!(message.matches('\n').count(), 1, "{}", message);
    assert!(message.ends_with('\n'), "{}", message);
}
