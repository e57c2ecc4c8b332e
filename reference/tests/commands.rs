//! The commands: what they write, what they say of a failure, and their exit statuses.

use reference::examples::files;
use reference::trace;
use std::fs::{self, File};
use std::io::{self, ErrorKind, PipeWriter, Write};
use std::iter;
use std::path::{Path, PathBuf};
use std::process::{Command, Output, Stdio};

const TRACE: &str = env!("CARGO_BIN_EXE_trace");
const MAKE_EXAMPLES: &str = env!("CARGO_BIN_EXE_make_examples");
const VECTORS: &str = env!("CARGO_BIN_EXE_vectors");

/// An empty folder for one test.
fn folder(name: &str) -> PathBuf {
    let folder = Path::new(env!("CARGO_TARGET_TMPDIR")).join(name);
    let _ = fs::remove_dir_all(&folder);
    fs::create_dir_all(&folder).unwrap();
    folder
}

fn example(name: &str) -> Vec<u8> {
    let found = files().into_iter().find(|file| file.name == name);
    found.unwrap().content
}

/// The example's file in a test's folder.
fn example_file(folder: &Path, name: &str) -> String {
    let path = folder.join(name);
    fs::write(&path, example(name)).unwrap();
    path.to_str().unwrap().to_string()
}

fn run(program: &str, arguments: &[&str]) -> Output {
    Command::new(program).args(arguments).output().unwrap()
}

/// Standard output, standard error and the exit status.
fn ended(output: Output) -> (String, String, Option<i32>) {
    let text = |bytes| String::from_utf8(bytes).unwrap();
    (
        text(output.stdout),
        text(output.stderr),
        output.status.code(),
    )
}

fn expect_failure(output: Output, status: i32, message: &str) {
    let (stdout, stderr, code) = ended(output);
    assert_eq!((stdout.as_str(), code), ("", Some(status)), "{stderr}");
    assert!(
        stderr.contains(message) && !stderr.contains("panicked"),
        "{stderr}"
    );
}

#[test]
fn traces_are_written() {
    let folder = folder("traces");
    let file = example_file(&folder, "measured.axle");
    let data = example("measured.axle");
    let entry = trace::entry(&data, 100, 3_000).unwrap();
    let written = run(TRACE, &["entry", &file, "100", "3000"]);
    assert_eq!(ended(written), (entry, String::new(), Some(0)));
    let point = trace::point(&data, 1_505, 200_025).unwrap();
    let written = run(TRACE, &["point", &file, "150.5", "2000.25"]);
    assert_eq!(ended(written), (point, String::new(), Some(0)));
}

/// The command with data on standard input.
fn run_with_input(arguments: &[&str], data: &[u8]) -> Output {
    let mut child = Command::new(TRACE)
        .args(arguments)
        .stdin(Stdio::piped())
        .stdout(Stdio::piped())
        .stderr(Stdio::piped())
        .spawn()
        .unwrap();
    child.stdin.take().unwrap().write_all(data).unwrap();
    child.wait_with_output().unwrap()
}

#[test]
fn standard_input_is_read() {
    let data = example("standard.axle");
    let entry = trace::entry(&data, 200, 1_000).unwrap();
    let written = run_with_input(&["entry", "-", "200", "1000"], &data);
    assert_eq!(ended(written), (entry, String::new(), Some(0)));
    let written = run_with_input(&["point", "-", "200", "1000"], b"");
    let refusal = "refused 2 at 0\n".to_string();
    assert_eq!(ended(written), (String::new(), refusal, Some(1)));
}

#[test]
fn refused_data_and_points() {
    let folder = folder("refused");
    let refused = example_file(&folder, "refused.axle");
    let short = example_file(&folder, "cut-short.axle");
    let standard = example_file(&folder, "standard.axle");
    for (arguments, refusal) in [
        (["entry", &refused, "100", "3000"], "refused 9 at 80\n"),
        (["entry", &refused, "7", "7"], "refused 9 at 80\n"),
        (["point", &refused, "100", "3000"], "refused 9 at 80\n"),
        (["point", &short, "100", "3000"], "refused 1 at 129\n"),
        (["point", &standard, "99.9", "0"], "refused 20 at 0\n"),
        (
            ["point", &standard, "200.1", "1000.01"],
            "refused 20 at 0\n",
        ),
        (["point", &standard, "200", "1000.01"], "refused 21 at 0\n"),
    ] {
        let expected = (String::new(), refusal.to_string(), Some(1));
        assert_eq!(ended(run(TRACE, &arguments)), expected);
    }
}

#[test]
fn what_is_not_on_the_grid() {
    let folder = folder("grid");
    let file = example_file(&folder, "standard.axle");
    let no_speed = "150 rpm is no speed of the map, which has 100 200\n";
    expect_failure(run(TRACE, &["entry", &file, "150", "0"]), 2, no_speed);
    let no_torque = "1 Nm is no torque of the map, which has 0 1000\n";
    expect_failure(run(TRACE, &["entry", &file, "100", "1"]), 2, no_torque);
}

#[test]
fn files_that_cannot_be_read() {
    let folder = folder("unreadable");
    let missing = folder.join("missing.axle");
    let missing = missing.to_str().unwrap();
    for command in ["entry", "point"] {
        expect_failure(run(TRACE, &[command, missing, "1", "1"]), 2, missing);
        let directory = folder.to_str().unwrap();
        expect_failure(run(TRACE, &[command, directory, "1", "1"]), 2, directory);
    }
}

#[test]
fn wrong_usage() {
    let usage: [&[&str]; 6] = [
        &[],
        &["entry"],
        &["entry", "-", "100"],
        &["entry", "-", "100", "0", "0"],
        &["listing", "-", "100", "0"],
        &["", "-", "100", "0"],
    ];
    for arguments in usage {
        expect_failure(run(TRACE, arguments), 2, "trace entry FILE SPEED TORQUE");
    }
}

#[test]
fn numbers_that_are_none() {
    for (command, speed, torque, message) in [
        (
            "entry",
            "100.5",
            "0",
            "SPEED: 100.5 is no number in whole rpm, or too large\n",
        ),
        (
            "entry",
            "100",
            "-1",
            "TORQUE: -1 is no number in whole Nm, ",
        ),
        ("entry", "4294967296", "0", "SPEED: 4294967296 is no number"),
        (
            "point",
            "100.05",
            "0",
            "SPEED: 100.05 is no number in rpm with at most one digit",
        ),
        (
            "point",
            "100",
            "0.005",
            "TORQUE: 0.005 is no number in Nm with at most two digits",
        ),
        ("point", "", "0", "SPEED:  is no number"),
        ("point", "1e2", "0", "SPEED: 1e2 is no number"),
    ] {
        expect_failure(run(TRACE, &[command, "-", speed, torque]), 2, message);
    }
}

#[test]
fn help_is_given() {
    for arguments in [&["--help"][..], &["entry", "--help"]] {
        let (stdout, stderr, code) = ended(run(TRACE, arguments));
        assert!(stdout.starts_with("trace entry FILE SPEED TORQUE\n"));
        assert_eq!((stderr.as_str(), code), ("", Some(0)));
    }
}

/// A place that takes no byte.
fn full() -> Stdio {
    File::options()
        .write(true)
        .open("/dev/full")
        .unwrap()
        .into()
}

#[test]
fn a_full_output() {
    let folder = folder("full");
    let file = example_file(&folder, "standard.axle");
    for arguments in [
        &["entry", &file, "100", "0"][..],
        &["point", &file, "100", "0"],
        &["--help"],
    ] {
        let output = Command::new(TRACE).args(arguments).stdout(full()).output();
        expect_failure(output.unwrap(), 2, "standard output: ");
    }
    // Nor does a full standard error take the status away.
    let arguments = ["point", &file, "99", "0"];
    let output = Command::new(TRACE).args(arguments).stderr(full()).output();
    expect_failure(output.unwrap(), 1, "");
}

/// A pipe without a reader. A child of another test may hold the reading end until it runs its program: it is written to until no one does.
fn unread_pipe() -> PipeWriter {
    let (reader, mut writer) = io::pipe().unwrap();
    drop(reader);
    let mut writes = iter::repeat_with(|| writer.write_all(b"\n"));
    let failure = writes.find_map(Result::err).unwrap();
    assert_eq!(failure.kind(), ErrorKind::BrokenPipe);
    writer
}

#[test]
fn an_output_whose_reader_is_gone() {
    let folder = folder("reader-gone");
    let file = example_file(&folder, "standard.axle");
    let mut command = Command::new(TRACE);
    command.args(["entry", &file, "100", "0"]);
    let output = command.stdout(unread_pipe()).output().unwrap();
    expect_failure(output, 2, "standard output: ");
}

#[test]
fn a_closed_output() {
    // The script sees to it: to a program in Rust a closed output looks like an open one.
    let script = concat!(env!("CARGO_MANIFEST_DIR"), "/trace");
    let output = run("bash", &["-c", "\"$0\" --help >&-", script]);
    expect_failure(output, 2, "standard output is closed\n");
}

#[test]
fn examples_are_made_and_checked() {
    let folder = folder("examples");
    let path = folder.to_str().unwrap();
    let count = |text: &str, verdict: &str| text.matches(verdict).count();
    let (stdout, stderr, code) = ended(run(MAKE_EXAMPLES, &["--check", path]));
    assert_eq!((count(&stdout, ": is missing\n"), code), (16, Some(1)));
    assert_eq!(stderr, "16 files differ, 0 are none of the examples\n");
    assert_eq!(fs::read_dir(&folder).unwrap().count(), 0);
    let (_, stderr, code) = ended(run(MAKE_EXAMPLES, &[path]));
    assert_eq!((stderr.as_str(), code), ("", Some(0)));
    let (stdout, stderr, code) = ended(run(MAKE_EXAMPLES, &["--check", path]));
    assert_eq!((count(&stdout, ": is the same\n"), code), (16, Some(0)));
    assert_eq!(stderr, "");
    for file in files() {
        assert_eq!(fs::read(folder.join(file.name)).unwrap(), file.content);
    }
}

#[test]
fn other_examples_are_named() {
    let folder = folder("other-examples");
    let path = folder.to_str().unwrap();
    assert!(run(MAKE_EXAMPLES, &[path]).status.success());
    fs::write(folder.join("bench-run.csv"), "speed,torque,loss\n").unwrap();
    fs::write(folder.join("notes.txt"), "").unwrap();
    fs::create_dir(folder.join("old")).unwrap();
    let (stdout, stderr, code) = ended(run(MAKE_EXAMPLES, &["--check", path]));
    assert!(stdout.contains("bench-run.csv: differs\n"));
    assert!(stdout.contains("notes.txt: is none of these files\n"));
    assert!(stdout.contains("old: is none of these files\n"));
    let message = "1 files differ, 2 are none of the examples\n";
    assert_eq!((stderr.as_str(), code), (message, Some(1)));
}

#[test]
fn stored_files_need_their_folder() {
    for program in [MAKE_EXAMPLES, VECTORS] {
        for arguments in [&[][..], &["--check"], &["--other", "."], &[".", "--check"]] {
            expect_failure(run(program, arguments), 2, "[--check] FOLDER");
        }
    }
    let missing = folder("no-examples").join("missing");
    let (_, stderr, code) = ended(run(MAKE_EXAMPLES, &[missing.to_str().unwrap()]));
    assert!(stderr.contains("missing"), "{stderr}");
    assert_eq!(code, Some(2));
}
