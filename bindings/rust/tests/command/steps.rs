//! The word `steps`: a sensor's numbers and its torque as they are typed.

use super::*;

fn steps(arguments: &str) -> Output {
    run(std::iter::once("steps").chain(arguments.split(' ')))
}

/// A sensor with one of its numbers replaced, and its torque.
fn with(index: usize, number: &str) -> Output {
    let mut arguments = [
        "1000", "100", "50", "200", "2000", "30", "100", "200", "50", "500.00",
    ];
    arguments[index] = number;
    steps(&arguments.join(" "))
}

#[test]
fn a_line_for_each_step() {
    let lines = "a 200\nb 200\ng 1000\nh 30\nU 2027\n";
    for torque in ["500", "500.0", "500.00", "0500"] {
        assert_answered(with(9, torque), lines);
    }
    assert_answered(with(9, "1000.00"), "a 400\nb 200\ng 1000\nh 30\nU 2066\n");
    let lines = "a 0\nb 0\ng 10000\nh 0\nU 20000\n";
    assert_answered(steps("10000 0 0 100 1000 0 0 0 10 340"), lines);
}

#[test]
fn a_torque_above_the_nominal_torque() {
    assert_eq!(with(9, "1000").status.code(), Some(0));
    let message = "axle: refused 7 at 0: measured torque above the sensor's nominal torque\n";
    for torque in ["1000.01", "42949672.96", "99999999999999999999"] {
        assert_failed(with(9, torque), 1, message);
    }
}

#[test]
fn a_number_out_of_its_range() {
    for (index, name) in SENSOR_NUMBERS.iter().enumerate() {
        let message = format!(
            "axle: refused 32 at 0: sensor number out of range: number {index} from 0, {name}\n"
        );
        for number in ["65535", "65536", "4294967296"] {
            assert_failed(with(index, number), 1, &message);
        }
    }
}

#[test]
fn numbers_that_cannot_be_read() {
    let letters = ["N", "w", "z", "c", "k", "s", "p", "d", "R"];
    for (index, letter) in letters.iter().enumerate() {
        for number in ["-1", "+1", "1.0", "1e3", "", "N"] {
            let message = format!(
                "axle: {letter} {number:?} is not allowed: a whole number without a sign\n"
            );
            assert_failed(with(index, number), 2, &message);
        }
    }
    let message = "axle: TORQUE \"1.005\" is not allowed: a number in Nm without a sign, at most two digits after the point\n";
    assert_failed(with(9, "1.005"), 2, message);
}

#[test]
fn other_arguments() {
    let usage = "usage: axle steps N w z c k s p d R TORQUE\n";
    let few = format!("axle: too few arguments for steps\n{usage}");
    assert_failed(steps("1000 100 50 200 2000 30 100 200 50"), 2, &few);
    let many = format!("axle: too many arguments for steps\n{usage}");
    assert_failed(steps("1000 100 50 200 2000 30 100 200 50 500 0"), 2, &many);
}
