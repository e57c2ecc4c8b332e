//! The word `losses`: questions on standard input, and the losses of all of them or none.

use super::*;
use axle::Map;
use std::fs::File;

const USAGE: &str = "usage: axle losses FILE\n";

fn losses(file: &str, questions: impl AsRef<[u8]>) -> Output {
    run_with_input(&["losses", file], questions.as_ref())
}

/// Questions to the standard example.
fn asked(questions: impl AsRef<[u8]>) -> Output {
    losses(STANDARD, questions)
}

#[track_caller]
fn assert_unreadable(questions: impl AsRef<[u8]>, line: usize, message: &str) {
    let message = format!("axle: line {line} of standard input: {message}\n");
    assert_failed(asked(questions), 2, &message);
}

#[track_caller]
fn assert_refused(questions: impl AsRef<[u8]>, number: u32, line: usize) {
    let words = match number {
        20 => "speed outside the axis",
        _ => "torque above the axis",
    };
    let message = format!("axle: refused {number} at 0: {words}, line {line} of standard input\n");
    assert_failed(asked(questions), 1, &message);
}

/// Of the measured example 27.00 Nm at 1,000 Nm and 0.1365 Nm more for each Nm.
#[test]
fn a_line_for_each_question() {
    assert_answered(asked("100 500\n"), "140.21\n");
    assert_answered(
        asked("200 1000\n100 500\n150.5 0\n100 500\n"),
        "150.41\n140.21\n130.00\n140.21\n",
    );
    assert_answered(
        losses(MEASURED, "100 0\n100 801.2\n100 802.19\n150 2000\n"),
        "-109.50\n-0.13\n0.00\n163.50\n",
    );
    // 107.787625 and -26.23695 Nm, rounded up; answers.rs reckons both.
    assert_answered(
        losses(HALF_SHAFTS, "150 2000.5\n200 500.1\n"),
        "107.79\n-26.23\n",
    );
}

#[test]
fn numbers_as_they_are_typed_for_loss() {
    for speed in ["100", "100.0", "0100", "199.9", "200"] {
        for torque in ["500", "500.0", "500.00", "0500"] {
            let question = format!("{speed} {torque}\n");
            assert_answered(asked(question), "140.21\n");
        }
    }
}

#[test]
fn blanks_in_a_line() {
    for question in [
        "100\t500",
        "100  500",
        " 100 500",
        "\t100 500",
        "100 500 ",
        "100 500\t",
        " \t100\t \t500\t \t",
    ] {
        assert_answered(asked(question), "140.21\n");
        let questions = format!("{question}\n{question}\n");
        assert_answered(asked(questions), "140.21\n140.21\n");
    }
}

#[test]
fn a_last_line_without_its_line_feed() {
    assert_answered(asked("100 0\n100 500"), "130.00\n140.21\n");
    assert_answered(asked("100 0\n100 500 \t"), "130.00\n140.21\n");
    assert_answered(asked("100 0\n \t"), "130.00\n");
    assert_refused("100 0\n99 500", 20, 2);
    assert_unreadable("100 0\n100", 2, NOT_TWO);
}

#[test]
fn no_questions() {
    for questions in ["", "\n", "\n\n", " ", "\t\n", " \t \n\n \n"] {
        assert_answered(asked(questions), "");
    }
    assert_answered(run(["losses", STANDARD]), "");
}

/// Lines of blanks alone are passed over, and counted.
#[test]
fn lines_of_blanks() {
    let questions = "\n100 0\n\n \t\n100 500\n\n";
    assert_answered(asked(questions), "130.00\n140.21\n");
    assert_refused("\n100 0\n\n \t\n99 500\n", 20, 5);
    assert_unreadable("\n100 0\n\n \t\n-1 500\n", 5, &not_a_speed("-1"));
}

#[test]
fn the_first_question_that_is_refused() {
    for speed in ["0", "99.9", "200.1", "429496729.5"] {
        assert_refused(format!("{speed} 0\n"), 20, 1);
        assert_refused(format!("100 0\n{speed} 1000.01\n100 0\n"), 20, 2);
    }
    for torque in ["1000.01", "42949672.95"] {
        assert_refused(format!("100 {torque}\n"), 21, 1);
        assert_refused(format!("100 0\n200 0\n100 {torque}\n"), 21, 3);
    }
    assert_refused("100 0\n100 1000.01\n99 0\n99 1000.01\n", 21, 2);
    assert_refused("100 0\n99 0\n100 1000.01\n", 20, 2);
    let many = "100 500\n".repeat(9_999);
    assert_refused(many.clone() + "99 0\n" + &many, 20, 10_000);
}

const NOT_TWO: &str = "not two numbers, SPEED and TORQUE";

fn not_a_speed(text: &str) -> String {
    format!("SPEED {text:?} is not allowed: a number in rpm without a sign, at most one digit after the point")
}

fn not_a_torque(text: &str) -> String {
    format!("TORQUE {text:?} is not allowed: a number in Nm without a sign, at most two digits after the point")
}

#[test]
fn lines_that_are_not_two_numbers() {
    for line in ["100", "100 500 0", "100,500", "100 500 # half", "x"] {
        assert_unreadable(line, 1, NOT_TWO);
        assert_unreadable(format!("100 500\n{line}\n100 500\n"), 2, NOT_TWO);
    }
    for text in [
        "-1", "+1", "1.", ".5", "1e3", "x", "1,5", "1_0", "\u{0661}", "\u{a0}",
    ] {
        assert_unreadable(format!("100 0\n{text} 500\n"), 2, &not_a_speed(text));
        assert_unreadable(format!("100 0\n100 {text}\n"), 2, &not_a_torque(text));
        // The speed is told where both are wrong.
        assert_unreadable(format!("{text} {text}"), 1, &not_a_speed(text));
    }
    assert_unreadable("100.05 500\n", 1, &not_a_speed("100.05"));
    assert_unreadable("100 500.005\n", 1, &not_a_torque("500.005"));
}

/// A line ends with its line feed alone, and a blank is a space or a tab.
#[test]
fn lines_of_another_system() {
    assert_unreadable("100 500\r\n", 1, &not_a_torque("500\r"));
    assert_unreadable("100 0\n\r\n", 2, NOT_TWO);
    assert_unreadable("100\u{b}500\n", 1, NOT_TWO);
    let message = not_a_speed("?").replace('?', "\\xFF");
    assert_unreadable(b"100 0\n\xFF 500\n", 2, &message);
}

#[test]
fn numbers_beyond_the_library() {
    for speed in ["429496729.6", "99999999999999999999"] {
        let message = format!("SPEED {speed:?} is too large for a number in rpm");
        assert_unreadable(format!("100 0\n{speed} 0\n"), 2, &message);
    }
    for torque in ["42949672.96", "99999999999999999999"] {
        let message = format!("TORQUE {torque:?} is too large for a number in Nm");
        assert_unreadable(format!("100 0\n100 {torque}\n"), 2, &message);
    }
}

/// All lines are read before the map is asked, and the first that cannot be read is told.
#[test]
fn lines_that_cannot_be_read_come_first() {
    assert_unreadable("99 0\n100 1000.01\n100\n", 3, NOT_TWO);
    assert_unreadable("99 0\n100\nx 0\n", 2, NOT_TWO);
    assert_unreadable("99 0\nx 0\n100\n", 2, &not_a_speed("x"));
}

/// A loss in hundredths of Nm as it is printed.
fn printed(loss: i64) -> String {
    let sign = if loss < 0 { "-" } else { "" };
    let (whole, part) = (loss.abs() / 100, loss.abs() % 100);
    format!("{sign}{whole}.{part:02}\n")
}

/// 30,000 questions, over all of the bench run's map and below its first torque.
#[test]
fn many_questions() {
    let file = "bench-run.axle";
    let data = std::fs::read(examples_folder().join(file)).expect("read");
    let map = Map::build(&data).expect("accepted");
    let (mut questions, mut answers) = (String::new(), String::new());
    for index in 0..30_000 {
        let (speed, torque) = (500 + index * 7_919 % 6_001, index * 104_729 % 2_000_001);
        questions += &format!(
            "{}.{} {}.{:02}\n",
            speed / 10,
            speed % 10,
            torque / 100,
            torque % 100
        );
        answers += &printed(map.loss(speed, torque).expect("within the map"));
    }
    assert_answered(losses(file, &questions), &answers);
    assert_answered(losses(file, questions.trim_end()), &answers);
}

/// The command with a file that has this text on its standard input: it need not be read.
fn run_with_file(arguments: &[&str], name: &str, text: &str) -> Output {
    let name = PathBuf::from(env!("CARGO_TARGET_TMPDIR")).join(name);
    std::fs::write(&name, text).expect("written");
    let stream = File::open(&name).expect("opened");
    let output = axle(arguments).stdin(stream).output().expect("it runs");
    std::fs::remove_file(name).expect("removed");
    output
}

#[test]
fn data_that_is_no_map() {
    let refused = "axle: refused 9 at 80: measured loss under zero (the row's offset)\n";
    for questions in ["", "100 1000\n", "x\n"] {
        let output = run_with_file(&["losses", REFUSED], "no-map", questions);
        assert_failed(output, 1, refused);
        let output = run_with_file(&["losses", "missing.axle"], "no-file", questions);
        assert_failed_with(
            output,
            2,
            "axle: cannot read \"missing.axle\": No such file",
        );
    }
}

/// Standard input has the questions, whatever they are.
#[test]
fn data_from_standard_input() {
    let message = "axle: FILE of losses cannot be -: standard input has the questions\n";
    let message = format!("{message}{USAGE}");
    for questions in ["", "100 500\n"] {
        let output = run_with_file(&["losses", "-"], "questions-alone", questions);
        assert_failed(output, 2, &message);
    }
}

#[test]
fn questions_that_do_not_end() {
    let stream = File::open("/dev/zero").expect("opened");
    let mut command = axle(["losses", STANDARD]);
    let output = command.stdin(stream).output().expect("it runs");
    let message = "axle: the text is longer than 268435456 bytes\n";
    assert_failed(output, 2, message);
}

#[test]
fn other_arguments() {
    let few = format!("axle: too few arguments for losses\n{USAGE}");
    assert_failed(run(["losses"]), 2, &few);
    let many = format!("axle: too many arguments for losses\n{USAGE}");
    assert_failed(run(["losses", STANDARD, "100", "500"]), 2, &many);
    assert_failed(run(["losses", "-", "-"]), 2, &many);
}
