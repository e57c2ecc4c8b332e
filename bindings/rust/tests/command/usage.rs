//! Help, and calls that are none.

use super::*;

#[test]
fn help() {
    let output = run(["--help"]);
    let (status, help, errors) = parts(&output);
    assert_eq!((status, errors), (Some(0), ""));
    for word in [
        "axle list FILE ",
        "axle loss FILE SPEED TORQUE ",
        "axle losses FILE ",
        "axle nearest FILE SPEED TORQUE ",
        "axle check FILE ",
        "axle load LISTING ",
        "axle load --list LISTING ",
        "axle write NUMBERS ",
        "axle steps N w z c k s p d R TORQUE ",
        "axle drag RATIO SPEED READINGS BEARING_LOSSES ",
        "  kind  ",
        "  row  ",
        "rpm",
        "Nm",
        "Status 2",
        "examples, in",
    ] {
        assert!(help.contains(word), "{}", word);
    }
    assert_answered(run(["-h"]), help);
    assert_answered(run(["list", "--help"]), help);
    assert_answered(run(["load", "--list", "--help"]), help);
}

#[test]
fn examples_in_the_help() {
    let output = run(["--help"]);
    let (_, help, _) = parts(&output);
    let examples = help.lines().filter_map(|line| line.split_once(" prints "));
    let mut count = 0;
    for (call, answer) in examples {
        let arguments = call.split_whitespace().skip(1);
        assert_answered(run(arguments), &format!("{}\n", answer));
        count += 1;
    }
    assert_eq!(count, 4);
}

#[track_caller]
fn assert_wrong_usage(arguments: &[&str], what: &str, usage: &str) {
    let message = format!("axle: {}\nusage: {}\n", what, usage);
    assert_failed(run(arguments), 2, &message);
}

#[test]
fn no_command() {
    let usage = "axle list|loss|losses|nearest|check|load|write|steps|drag .., or axle --help";
    assert_wrong_usage(&[], "no command given", usage);
    assert_wrong_usage(&["lists"], "unknown command \"lists\"", usage);
    assert_wrong_usage(&["", STANDARD], "unknown command \"\"", usage);
    assert_wrong_usage(&["-v"], "unknown command \"-v\"", usage);
}

#[test]
fn too_few_or_too_many_arguments() {
    let usage = "axle list FILE";
    let (few, many) = ("too few arguments for list", "too many arguments for list");
    assert_wrong_usage(&["list"], few, usage);
    assert_wrong_usage(&["list", STANDARD, STANDARD], many, usage);
    let usage = "axle loss FILE SPEED TORQUE";
    let (few, many) = ("too few arguments for loss", "too many arguments for loss");
    assert_wrong_usage(&["loss", STANDARD, "100"], few, usage);
    assert_wrong_usage(&["loss", STANDARD, "1", "2", "3"], many, usage);
    let few = "too few arguments for write";
    assert_wrong_usage(&["write"], few, "axle write NUMBERS");
    let usage = "axle load LISTING";
    let (few, many) = ("too few arguments for load", "too many arguments for load");
    assert_wrong_usage(&["load"], few, usage);
    assert_wrong_usage(&["load", "standard.csv", "--list"], many, usage);
    let usage = "axle load --list LISTING";
    let few = "too few arguments for load --list";
    let many = "too many arguments for load --list";
    assert_wrong_usage(&["load", "--list"], few, usage);
    assert_wrong_usage(&["load", "--list", "-", "-"], many, usage);
}

#[test]
fn unknown_options() {
    let what = "unknown option \"-x\"; a file of this name is given as \"./-x\"";
    assert_wrong_usage(&["list", "-x"], what, "axle list FILE");
    assert_wrong_usage(
        &["nearest", "-x", "100", "0"],
        what,
        "axle nearest FILE SPEED TORQUE",
    );
    assert_wrong_usage(&["losses", "-x"], what, "axle losses FILE");
    assert_wrong_usage(&["write", "-x"], what, "axle write NUMBERS");
    assert_wrong_usage(&["load", "-x"], what, "axle load LISTING");
    assert_wrong_usage(&["load", "--list", "-x"], what, "axle load --list LISTING");
    let what = "unknown option \"--list\"; a file of this name is given as \"./--list\"";
    assert_wrong_usage(&["list", "--list"], what, "axle list FILE");
}

/// Numbers are looked at before the file, which is not there.
#[test]
fn malformed_numbers() {
    let malformed = [
        "", "abc", "1.", ".5", ".", "+1", "-5", "-0", "1e3", "1,5", "1.234", " 1", "1 ", "1_000",
        "0x10", "1.2.3", "1..2", "1.-1", "\u{0661}", "NaN", "inf",
    ];
    for number in malformed {
        for word in ["loss", "nearest"] {
            let speed = format!("axle: SPEED {:?} is not allowed: ", number);
            assert_failed_with(run([word, "missing.axle", number, "0"]), 2, &speed);
            let torque = format!("axle: TORQUE {:?} is not allowed: ", number);
            assert_failed_with(run([word, "missing.axle", "0", number]), 2, &torque);
        }
    }
}

#[test]
fn numbers_beyond_the_units() {
    for speed in ["100.05", "100.50"] {
        let allowed = "a number in rpm without a sign, at most one digit after the point";
        let message = format!("axle: SPEED {:?} is not allowed: {}\n", speed, allowed);
        assert_failed(run(["loss", STANDARD, speed, "0"]), 2, &message);
    }
    let allowed = "a number in Nm without a sign, at most two digits after the point";
    let message = format!("axle: TORQUE \"100.005\" is not allowed: {}\n", allowed);
    assert_failed(run(["nearest", STANDARD, "100", "100.005"]), 2, &message);
}

#[test]
fn numbers_beyond_the_library() {
    for speed in ["429496729.6", "429496730", "99999999999999999999"] {
        let message = format!("axle: SPEED {:?} is too large for a number in rpm\n", speed);
        assert_failed(run(["loss", STANDARD, speed, "0"]), 2, &message);
    }
    for torque in ["42949672.96", "99999999999999999999"] {
        let message = format!(
            "axle: TORQUE {:?} is too large for a number in Nm\n",
            torque
        );
        assert_failed(run(["nearest", STANDARD, "100", torque]), 2, &message);
    }
}
