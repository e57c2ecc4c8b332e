//! Compares the proved libraries with the second implementation: generates as many cases as asked for, gives them to the program `vectors`, and holds what it writes against the second implementation's answers.

use reference::at_scale::{by_chance, systematic};
use reference::cases::Case;
use reference::reply::Seen;
use reference::stored::{broken, input_and_output};
use std::io::{Read, Write};
use std::process::{Command, ExitCode, Stdio};

const BATCH: u64 = 2_000;

/// What the program writes when it is given the input.
fn run(program: &str, input: Vec<u8>) -> std::io::Result<Vec<u8>> {
    let mut child = Command::new(program)
        .stdin(Stdio::piped())
        .stdout(Stdio::piped())
        .spawn()?;
    let mut to_child = child.stdin.take().expect("a piped input");
    let writer = std::thread::spawn(move || to_child.write_all(&input));
    let mut output = Vec::new();
    child
        .stdout
        .take()
        .expect("a piped output")
        .read_to_end(&mut output)?;
    let written = writer.join().expect("the writer ends");
    child.wait()?;
    written.map(|()| output)
}

/// The answers of the cases, each from its line `case N` on.
fn answers(output: &[u8]) -> Vec<&[u8]> {
    let mut starts: Vec<usize> = Vec::new();
    let mut at = 0;
    for line in output.split_inclusive(|byte| *byte == b'\n') {
        if line.starts_with(b"case ") {
            starts.push(at);
        }
        at += line.len();
    }
    starts.push(output.len());
    starts
        .windows(2)
        .map(|ends| &output[ends[0]..ends[1]])
        .collect()
}

fn show(name: &str, answer: &[u8]) {
    let text = String::from_utf8_lossy(&answer[..answer.len().min(2_000)]).into_owned();
    eprintln!("{name}:\n{text}");
}

/// How many answers differ; the first is shown.
fn differences(cases: &[Case], program: &[u8], reference: &[u8]) -> usize {
    if program == reference {
        return 0;
    }
    let (ours, theirs) = (answers(program), answers(reference));
    let at = |all: &[&[u8]], i: usize| all.get(i).map_or(Vec::new(), |answer| answer.to_vec());
    let differing: Vec<usize> = (0..cases.len())
        .filter(|i| at(&ours, *i) != at(&theirs, *i))
        .collect();
    if let Some(first) = differing.first() {
        let digits: String = cases[*first]
            .bytes()
            .iter()
            .map(|b| format!("{b:02X}"))
            .collect();
        eprintln!("case: {digits}");
        show("vectors", &at(&ours, *first));
        show("reference", &at(&theirs, *first));
    }
    differing.len().max(1)
}

fn cases_from(seed: u64, from: u64, to: u64) -> Vec<Case> {
    let mut cases = if from == 0 {
        systematic(seed)
    } else {
        Vec::new()
    };
    cases.extend((from..to).map(|number| by_chance(seed, number)));
    cases
}

fn main() -> ExitCode {
    let arguments: Vec<String> = std::env::args().skip(1).collect();
    let number = |i: usize| {
        arguments
            .get(i)
            .and_then(|text: &String| text.parse::<u64>().ok())
    };
    let (Some(program), Some(count), Some(seed)) = (arguments.first(), number(1), number(2)) else {
        eprintln!("compare PROGRAM COUNT SEED");
        return ExitCode::from(2);
    };
    let mut seen = Seen::default();
    let (mut compared, mut differ) = (0, 0);
    let mut from = 0;
    while from < count {
        let to = count.min(from + BATCH);
        let cases = cases_from(seed, from, to);
        let (input, expected) = input_and_output(&cases, &mut seen);
        match run(program, input) {
            Ok(output) => differ += differences(&cases, &output, &expected),
            Err(error) => {
                eprintln!("{program}: {error}");
                return ExitCode::from(2);
            }
        }
        compared += cases.len();
        from = to;
        eprintln!("{from} of {count} generated, {compared} compared, {differ} differ");
    }
    print!("{seen}");
    println!("{compared} compared, {differ} differ");
    ExitCode::from(u8::from(differ > 0 || broken(&seen) > 0))
}
