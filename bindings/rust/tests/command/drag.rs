//! The word `drag`: a retarder's drag from the readings as they are typed.

use super::*;

/// 10.00 Nm less 1.00 Nm at 200 rpm, and 15.00 Nm less 2.00 Nm at 400 rpm.
const READINGS: &str = "10.00,15.00";
const BEARING_LOSSES: &str = "1,2";

fn drag(ratio: &str, speed: &str, readings: &str, bearing_losses: &str) -> Output {
    run(["drag", ratio, speed, readings, bearing_losses])
}

/// Asked of the two readings.
fn asked(ratio: &str, speed: &str) -> Output {
    drag(ratio, speed, READINGS, BEARING_LOSSES)
}

#[track_caller]
fn assert_refused(output: Output, number: u32) {
    let words = match number {
        45 => "step-up ratio out of range, or not 2 to 13 readings with as many bearing losses",
        46 => "bearing loss above its reading, or drag above 100000.00 Nm",
        _ => "retarder speed outside the points that have readings",
    };
    assert_failed(
        output,
        1,
        &format!("axle: refused {number} at 0: {words}\n"),
    );
}

#[test]
fn a_drag_in_newton_metres() {
    // At 300 rpm, half of the way from 9.00 Nm to 13.00 Nm.
    for ratio in ["1.5", "1.50", "1.500", "01.5"] {
        for speed in ["200", "200.0", "0200"] {
            assert_answered(asked(ratio, speed), "11.00\n");
        }
    }
    assert_answered(drag("1.5", "200", "10,15", "1.00,2.0"), "11.00\n");
    assert_answered(drag("1.5", "200", "010.0,15.00", "01,2"), "11.00\n");
    // At 266.6 rpm: 9.00 + 4.00 × 66.6 / 200 = 10.332.
    assert_answered(asked("1.333", "200"), "10.34\n");
    assert_answered(asked("1", "200"), "9.00\n");
    assert_answered(asked("1", "400"), "13.00\n");
    assert_answered(asked("0.1", "2000"), "9.00\n");
    assert_answered(asked("10", "40"), "13.00\n");
    assert_answered(drag("1", "200", "0.05,0", "0,0"), "0.05\n");
    assert_answered(drag("1", "200", "100000.01,1", "0.01,1"), "100000.00\n");
    // Of all thirteen points, at 4,600 rpm: 0.10 + 0.05 × 100 / 500 = 0.11.
    let readings = ["0.20"; 11].join(",") + ",0.10,0.15";
    let none = ["0"; 13].join(",");
    assert_answered(drag("2", "2300", &readings, &none), "0.11\n");
}

#[test]
fn a_ratio_or_a_count_outside_its_limits() {
    for ratio in ["0.099", "0", "10.001", "4294967.295"] {
        assert_refused(asked(ratio, "200"), 45);
    }
    assert_refused(drag("1", "200", "10.00", "1"), 45);
    assert_refused(
        drag("1", "200", &["1"; 14].join(","), &["0"; 14].join(",")),
        45,
    );
    assert_refused(drag("1", "200", READINGS, "1"), 45);
    assert_refused(drag("1", "200", READINGS, "1,2,3"), 45);
}

/// An empty list has no numbers, and there is nothing in it that could be wrong.
#[test]
fn an_empty_list() {
    assert_refused(drag("1", "200", "", ""), 45);
    assert_refused(drag("1", "200", READINGS, ""), 45);
    assert_refused(drag("1", "200", "", BEARING_LOSSES), 45);
}

#[test]
fn a_drag_out_of_range() {
    assert_refused(drag("1", "200", READINGS, "10.01,2"), 46);
    assert_refused(drag("1", "200", READINGS, "1,15.01"), 46);
    assert_refused(drag("1", "200", "100000.01,15.00", "0,2"), 46);
    assert_refused(drag("0.1", "0", "0.10,0.10", "0.11,0"), 46);
    assert_refused(drag("0.099", "0", "0.10,0.10", "0.11,0"), 45);
}

#[test]
fn a_retarder_speed_outside_the_points() {
    // 199.9998 rpm and 400.1 rpm.
    assert_refused(asked("0.999", "200.2"), 47);
    assert_refused(asked("1", "400.1"), 47);
    assert_refused(asked("1", "0"), 47);
    assert_refused(asked("10", "429496729.5"), 47);
}

/// The argument and, of a list, which of its numbers.
#[test]
fn numbers_that_cannot_be_read() {
    let message = |name: &str, text: &str, form: &str, place: &str| {
        format!("axle: {name} {text:?} is not allowed: a {form} after the point{place}\n")
    };
    let ratio = "step-up ratio without a sign, at most three digits";
    let speed = "number in rpm without a sign, at most one digit";
    let torque = "number in Nm without a sign, at most two digits";
    for text in [
        "", "-1", "+1", "1.", ".5", "1e3", "x", " 1", "1.0001", "1,5",
    ] {
        let output = asked(text, "200");
        assert_failed(output, 2, &message("RATIO", text, ratio, ""));
    }
    for text in ["", "-1", "1.05", "x", "1,5"] {
        let output = asked("1", text);
        assert_failed(output, 2, &message("SPEED", text, speed, ""));
    }
    for text in [
        "", "-1", "+1", "1.", ".5", "1e3", "x", " 1", "1 ", "1.005", "1;2",
    ] {
        for (list, place) in [
            (format!("{text},2"), " (number 1 of 2)"),
            (format!("1,{text}"), " (number 2 of 2)"),
            (format!("1,{text},3"), " (number 2 of 3)"),
        ] {
            let output = drag("1", "200", &list, BEARING_LOSSES);
            assert_failed(output, 2, &message("READINGS", text, torque, place));
            let output = drag("1", "200", READINGS, &list);
            assert_failed(output, 2, &message("BEARING_LOSSES", text, torque, place));
        }
    }
    let output = drag("1", "200", ",", BEARING_LOSSES);
    assert_failed(
        output,
        2,
        &message("READINGS", "", torque, " (number 1 of 2)"),
    );
}

/// The first argument that is wrong is told, and before any refusal.
#[test]
fn what_is_told_first() {
    let names = ["RATIO", "SPEED", "READINGS", "BEARING_LOSSES"];
    for first in 0..4 {
        let mut arguments = ["0", "0", "1", "2"];
        arguments[first..].fill("x");
        let [ratio, speed, readings, bearing_losses] = arguments;
        let beginning = format!("axle: {} \"x\" is not allowed: ", names[first]);
        assert_failed_with(drag(ratio, speed, readings, bearing_losses), 2, &beginning);
    }
}

/// None is taken for a smaller one: a reading less its bearing loss would be another drag.
#[test]
fn numbers_beyond_the_library() {
    let message = "axle: RATIO \"4294967.296\" is too large for a step-up ratio\n";
    assert_failed(asked("4294967.296", "200"), 2, message);
    let message = "axle: SPEED \"429496729.6\" is too large for a number in rpm\n";
    assert_failed(asked("1", "429496729.6"), 2, message);
    let (largest, beyond) = ("42949672.95", "42949672.96");
    let list = |last: &str| format!("42949672.95,{last}");
    assert_answered(drag("1", "400", &list(largest), &list(largest)), "0.00\n");
    assert_answered(
        drag("1", "400", &list(largest), &list("42949672.90")),
        "0.05\n",
    );
    let message = |name: &str, text: &str| {
        format!("axle: {name} {text:?} is too large for a number in Nm (number 2 of 2)\n")
    };
    for text in [beyond, "99999999999999999999"] {
        let output = drag("1", "400", &list(text), &list(largest));
        assert_failed(output, 2, &message("READINGS", text));
        let output = drag("1", "400", &list(largest), &list(text));
        assert_failed(output, 2, &message("BEARING_LOSSES", text));
    }
}

#[test]
fn a_list_that_is_no_text() {
    use std::os::unix::ffi::OsStrExt;
    let list = OsStr::from_bytes(b"1,\xFF");
    let arguments = ["1", "200"].map(OsStr::new);
    let beginning = "axle: READINGS \"\\xFF\" is not allowed: ";
    let output = run([
        OsStr::new("drag"),
        arguments[0],
        arguments[1],
        list,
        OsStr::new("1,2"),
    ]);
    assert_failed_with(output, 2, beginning);
}

#[test]
fn other_arguments() {
    let usage = "usage: axle drag RATIO SPEED READINGS BEARING_LOSSES\n";
    let few = format!("axle: too few arguments for drag\n{usage}");
    assert_failed(run(["drag", "1", "200", READINGS]), 2, &few);
    let many = format!("axle: too many arguments for drag\n{usage}");
    assert_failed(run(["drag", "1", "200", "10", "15", "1", "2"]), 2, &many);
}
