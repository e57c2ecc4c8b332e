//! What each word answers, and refusals.

use super::*;

const LISTING: &str =
    "speed,torque,loss\n100,0,130.00\n100,1000,150.41\n200,0,130.00\n200,1000,150.41\n";

const REFUSAL: &str = "axle: refused 9 at 80: measured loss under zero (the row's offset)\n";

#[test]
fn list() {
    assert_answered(run(["list", STANDARD]), LISTING);
    assert_failed(run(["list", REFUSED]), 1, REFUSAL);
}

#[test]
fn check() {
    assert_answered(
        run(["check", STANDARD]),
        "accepted: 2 speeds from 100 to 200 rpm, 2 torques from 0 to 1000 Nm\n",
    );
    assert_answered(
        run(["check", MEASURED]),
        "accepted: 2 speeds from 100 to 200 rpm, 2 torques from 1000 to 3000 Nm\n",
    );
    assert_failed(run(["check", REFUSED]), 1, REFUSAL);
}

#[test]
fn loss() {
    let loss = |file, speed, torque| run(["loss", file, speed, torque]);
    for speed in ["100", "100.0", "0100", "199.9", "200"] {
        assert_answered(loss(STANDARD, speed, "500"), "140.21\n");
        assert_answered(loss(STANDARD, speed, "500.0"), "140.21\n");
        assert_answered(loss(STANDARD, speed, "500.00"), "140.21\n");
    }
    assert_answered(loss(MEASURED, "150.5", "3000"), "300.00\n");
    assert_answered(loss(MEASURED, "100", "0"), "-109.50\n");
    assert_answered(loss(MEASURED, "100", "801.2"), "-0.13\n");
    assert_answered(loss(MEASURED, "100", "802.19"), "0.00\n");
    assert_failed(loss(REFUSED, "100", "0"), 1, REFUSAL);
}

/// Left and right are added: 26.00 and 66.00 Nm at 100 rpm, 39.00 and 300.00 Nm at 200 rpm.
#[test]
fn data_of_kind_3() {
    let listing =
        "speed,torque,loss\n100,1000,26.00\n100,3000,66.00\n200,1000,39.00\n200,3000,300.00\n";
    let axes = "accepted: 2 speeds from 100 to 200 rpm, 2 torques from 1000 to 3000 Nm\n";
    let data = std::fs::read(examples_folder().join(HALF_SHAFTS)).expect("read");
    for (word, answer) in [("list", listing), ("check", axes)] {
        assert_answered(run([word, HALF_SHAFTS]), answer);
        assert_answered(run_with_input(&[word, "-"], &data), answer);
    }
    let loss = |speed, torque| run(["loss", HALF_SHAFTS, speed, torque]);
    assert_answered(loss("100", "3000"), "66.00\n");
    assert_answered(loss("100", "2000"), "46.00\n");
    // 46.01 and 169.56525 Nm at the two speeds: 107.787625 Nm between them, rounded up.
    assert_answered(loss("150", "2000.5"), "107.79\n");
    // 39.00 Nm less 499.90 Nm at 0.1305 each: -26.23695 Nm, rounded up.
    assert_answered(loss("200", "500.1"), "-26.23\n");
    assert_failed_with(loss("99.9", "2000"), 1, "axle: refused 20 at 0: ");
    assert_failed_with(loss("100", "3000.01"), 1, "axle: refused 21 at 0: ");
    let nearest = |speed, torque| run(["nearest", HALF_SHAFTS, speed, torque]);
    assert_answered(nearest("150", "2000"), "100,1000\n");
    assert_answered(nearest("150.1", "2000.01"), "200,3000\n");
}

#[test]
fn refused_data_of_kind_3() {
    let data = std::fs::read(examples_folder().join(HALF_SHAFTS)).expect("read");
    let refused = |offset: usize, bytes: &[u8], message: &str| {
        let mut data = data.clone();
        data[offset..offset + bytes.len()].copy_from_slice(bytes);
        for word in ["list", "check"] {
            assert_failed(run_with_input(&[word, "-"], &data), 1, message);
        }
    };
    // Tag 8 where 9 is due, the right torque above its sensor's, 5.01 Nm too much in all.
    refused(
        69,
        &[8],
        "axle: refused 2 at 69: missing or wrong field (the field's offset)\n",
    );
    refused(
        113,
        &1_500_001u32.to_be_bytes(),
        "axle: refused 7 at 113: measured torque above the sensor's nominal torque \
         (the torque's offset)\n",
    );
    refused(
        113,
        &100_501u32.to_be_bytes(),
        "axle: refused 8 at 109: output torque more than 5.00 Nm off the axis torque \
         (the torque's offset, for kind 3 the left torque's)\n",
    );
}

#[test]
fn which_number_of_which_sensor() {
    let refused = |file: &str, place: usize, message: &str| {
        let mut data = std::fs::read(examples_folder().join(file)).expect("read");
        data[place..place + 2].copy_from_slice(&[255; 2]);
        let message = format!("axle: refused {}\n", message);
        for word in ["list", "check"] {
            assert_failed(run_with_input(&[word, "-"], &data), 1, &message);
        }
    };
    let ratio = "31 at 11: ratio out of range (the number's offset)";
    refused(MEASURED, 11, ratio);
    let sensors = [
        (MEASURED, 30, "input"),
        (MEASURED, 51, "output"),
        (HALF_SHAFTS, 30, "input"),
        (HALF_SHAFTS, 51, "left"),
        (HALF_SHAFTS, 72, "right"),
    ];
    for (file, body, sensor) in sensors {
        for (index, name) in SENSOR_NUMBERS.into_iter().enumerate() {
            let place = body + 2 * index;
            let message = format!(
                "32 at {place}: sensor number out of range: number {index} from 0, {name} \
                 (the number's offset), of the {sensor} sensor"
            );
            refused(file, place, &message);
        }
    }
}

#[test]
fn questions_outside_the_map() {
    let loss = |speed, torque| run(["loss", STANDARD, speed, torque]);
    let outside = "axle: refused 20 at 0: speed outside the axis\n";
    for speed in ["0", "99.9", "200.1", "429496729.5"] {
        assert_failed(loss(speed, "0"), 1, outside);
    }
    let above = "axle: refused 21 at 0: torque above the axis\n";
    for torque in ["1000.01", "42949672.95"] {
        assert_failed(loss("100", torque), 1, above);
    }
}

#[test]
fn nearest() {
    let nearest = |speed, torque| run(["nearest", STANDARD, speed, torque]);
    assert_answered(nearest("150", "500"), "100,0\n");
    assert_answered(nearest("150.1", "500.01"), "200,1000\n");
    assert_answered(nearest("0", "0"), "100,0\n");
    assert_answered(nearest("429496729.5", "42949672.95"), "200,1000\n");
    assert_failed(run(["nearest", REFUSED, "100", "0"]), 1, REFUSAL);
}

#[test]
fn standard_input() {
    let data = std::fs::read(examples_folder().join(STANDARD)).expect("read");
    assert_answered(run_with_input(&["list", "-"], &data), LISTING);
    assert_answered(
        run_with_input(&["loss", "-", "100", "500"], &data),
        "140.21\n",
    );
    assert_answered(
        run_with_input(&["nearest", "-", "150.1", "0"], &data),
        "200,0\n",
    );
    assert_failed_with(run(["check", "-"]), 1, "axle: refused 2 at 0: ");
}

#[test]
fn data_that_goes_on() {
    assert_failed_with(run(["check", "/dev/zero"]), 1, "axle: refused 2 at 0: ");
    let mut data = std::fs::read(examples_folder().join(STANDARD)).expect("read");
    data.resize(32_768, 0);
    let output = run_with_input(&["list", "-"], &data);
    assert_failed_with(output, 1, "axle: refused 12 at 27: ");
}
