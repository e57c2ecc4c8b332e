//! Files that cannot be read, output that cannot be written, and names of all kinds.

use super::*;
use std::ffi::OsString;
use std::fs::File;
use std::io::ErrorKind;
use std::os::unix::ffi::OsStringExt;
use std::os::unix::io::OwnedFd;
use std::os::unix::net::UnixStream;

fn writable(name: &str) -> File {
    let mut options = File::options();
    options.write(true).open(name).expect("opened")
}

#[test]
fn files_that_cannot_be_read() {
    for word in ["list", "losses", "check", "load", "write"] {
        let missing = "axle: cannot read \"missing.axle\": No such file";
        assert_failed_with(run([word, "missing.axle"]), 2, missing);
        assert_failed_with(run([word, "."]), 2, "axle: cannot read \".\": Is a dir");
        assert_failed_with(run([word, ""]), 2, "axle: cannot read \"\": No such file");
    }
    assert_failed_with(
        run(["loss", "missing.axle", "100", "0"]),
        2,
        "axle: cannot read \"missing.axle\": ",
    );
}

#[test]
fn standard_input_that_cannot_be_read() {
    let calls = [
        ["list", "-"],
        ["load", "-"],
        ["write", "-"],
        ["losses", STANDARD],
    ];
    for call in calls {
        for stream in [File::open(".").expect("opened"), writable("/dev/null")] {
            let output = axle(call).stdin(stream).output().expect("it runs");
            assert_failed_with(output, 2, "axle: cannot read standard input: ");
        }
    }
}

/// Data that is whole so far is not taken where the next read fails.
#[test]
fn a_read_that_fails_after_some_data() {
    let example = |name: &str| std::fs::read(examples_folder().join(name)).expect("read");
    let calls = [
        (["list", "-"], example(STANDARD)),
        (["load", "-"], example("standard.csv")),
        (["write", "-"], example("standard.numbers")),
        (["losses", STANDARD], b"100 500\n".to_vec()),
    ];
    for (call, data) in calls {
        let (mut written, read) = UnixStream::pair().expect("a pair");
        read.set_nonblocking(true).expect("set");
        written.write_all(&data).expect("room for it");
        let mut command = axle(call);
        let output = command
            .stdin(OwnedFd::from(read))
            .output()
            .expect("it runs");
        assert_failed_with(output, 2, "axle: cannot read standard input: ");
        // Open until here: the command met no end of its input.
        drop(written);
    }
}

/// Each call has a question on standard input; `losses` reads it.
#[test]
fn output_that_cannot_be_written() {
    let questions = PathBuf::from(env!("CARGO_TARGET_TMPDIR")).join("a-question");
    std::fs::write(&questions, "100 500\n").expect("written");
    let calls: [&[&str]; 9] = [
        &["list", STANDARD],
        &["loss", STANDARD, "100", "0"],
        &["losses", STANDARD],
        &["nearest", STANDARD, "100", "0"],
        &["check", STANDARD],
        &["load", "standard.csv"],
        &["load", "--list", "standard.csv"],
        &["write", "standard.numbers"],
        &["--help"],
    ];
    for call in calls {
        let streams = [
            (writable("/dev/full"), "No space left"),
            (File::open("/dev/null").expect("opened"), "Bad file desc"),
        ];
        for (stream, reason) in streams {
            let input = File::open(&questions).expect("opened");
            let mut command = axle(call);
            let output = command.stdin(input).stdout(stream).output();
            let message = format!("axle: cannot write standard output: {}", reason);
            assert_failed_with(output.expect("it runs"), 2, &message);
        }
    }
    std::fs::remove_file(questions).expect("removed");
}

/// A stream whose other end is closed. A child of another test may hold that end until it runs its program: the stream is written to until no one does.
fn unread_stream() -> UnixStream {
    let (mut written, read) = UnixStream::pair().expect("a pair");
    drop(read);
    let mut writes = std::iter::repeat_with(|| written.write_all(b"\n"));
    let failure = writes.find_map(Result::err).expect("it fails");
    assert_eq!(failure.kind(), ErrorKind::BrokenPipe);
    written
}

#[test]
fn a_closed_pipe() {
    let mut command = axle(["list", STANDARD]);
    let stream = OwnedFd::from(unread_stream());
    let output = command.stdout(stream).output().expect("it runs");
    let message = "axle: cannot write standard output: Broken pipe";
    assert_failed_with(output, 2, message);
}

/// Runs the command with a standard stream closed by the shell.
fn run_closed(words: &str, closed: &str) -> Output {
    let program = env!("CARGO_BIN_EXE_axle");
    let call = format!("exec \"$0\" {} {}", words, closed);
    let mut shell = Command::new("sh");
    shell.args(["-c", &call, program]);
    shell.current_dir(examples_folder());
    shell.output().expect("it runs")
}

#[test]
fn streams_that_are_closed() {
    let closed = "axle: cannot write standard output: it is closed\n";
    for words in ["list standard.axle", "check standard.axle", "--help"] {
        assert_failed(run_closed(words, ">&-"), 2, closed);
    }
    let closed = "axle: cannot read standard input: it is closed\n";
    for words in [
        "check -",
        "load -",
        "load --list -",
        "write -",
        "losses standard.axle",
    ] {
        assert_failed(run_closed(words, "<&-"), 2, closed);
    }
    let listing = std::fs::read_to_string(examples_folder().join("standard.csv")).expect("read");
    assert_answered(run_closed("list standard.axle", "<&-"), &listing);
    let status = run_closed("list refused.axle", "2>&-").status.code();
    assert_eq!(status, Some(1));
}

#[test]
fn messages_that_cannot_be_written() {
    let status = |arguments: &[&str]| {
        let mut command = axle(arguments);
        let status = command.stderr(writable("/dev/full")).status();
        status.expect("it runs").code()
    };
    assert_eq!(status(&["list", REFUSED]), Some(1));
    assert_eq!(status(&["list", "missing.axle"]), Some(2));
    assert_eq!(status(&[]), Some(2));
}

#[test]
fn names_of_all_kinds() {
    let folder = PathBuf::from(env!("CARGO_TARGET_TMPDIR")).join("names");
    std::fs::create_dir_all(&folder).expect("made");
    for name in [
        &b"-x"[..],
        b"./-",
        b"\xFF\xFE.axle",
        b"two words",
        b"new\nline",
    ] {
        let name = OsString::from_vec(name.to_vec());
        std::fs::copy(examples_folder().join(STANDARD), folder.join(&name)).expect("copied");
        let mut argument = OsString::from("./");
        argument.push(&name);
        let mut command = axle([OsStr::new("loss"), &argument, "100".as_ref(), "0".as_ref()]);
        let output = command.current_dir(&folder).output().expect("it runs");
        assert_answered(output, "130.00\n");
    }
    std::fs::remove_dir_all(&folder).expect("removed");
}

#[test]
fn messages_show_names_on_one_line() {
    let name = OsString::from_vec(b"\xFF\n".to_vec());
    let shown = "axle: cannot read \"\\xFF\\n\": No such file";
    assert_failed_with(run([OsStr::new("list"), &name]), 2, shown);
    let word = OsString::from_vec(b"\xFF".to_vec());
    let (number, file) = (OsStr::new("0"), OsStr::new(STANDARD));
    let shown = "axle: SPEED \"\\xFF\" is not allowed: ";
    assert_failed_with(run([OsStr::new("loss"), file, &word, number]), 2, shown);
}
