//! "Reckoned by hand", with the allowance of document 02, C-13, "Wrong turns" and
//! "The map program".

use crate::support::*;
use reference::component;
use reference::listing::{listing, report};
use reference::lookup::{loss, nearest};
use reference::loss::*;

const LISTING: &str = "speed,torque,loss\n\
    100,0,130.00\n\
    100,1000,150.41\n\
    200,0,130.00\n\
    200,1000,150.41\n";

#[test]
fn the_listing_and_its_map() {
    let bytes = [
        0x01, 0x00, 0x01, 0x01, 0x02, 0x00, 0x01, 0x01, 0x03, 0x00, 0x02, 0x0B, 0xB8, 0x04, 0x00,
        0x04, 0x00, 0x64, 0x00, 0xC8, 0x05, 0x00, 0x04, 0x00, 0x00, 0x03, 0xE8,
    ];
    assert_eq!(example().bytes(), bytes);
    assert_eq!(report(&bytes), LISTING.as_bytes());
    let map = example().build().unwrap();
    assert_eq!(map.entries, [13_000, 15_041, 13_000, 15_041]);
    assert_eq!(loss(&lent(&map), 1_000, 50_000), Ok(14_021));
}

#[test]
fn the_program_refuses_in_one_line() {
    assert_eq!(report(&[]), b"refused 2 at 0\n");
    assert_eq!(report(&[1]), b"refused 1 at 0\n");
    let mut data = example().bytes();
    data.resize(50_000, 0);
    assert_eq!(report(&data), b"refused 12 at 27\n");
    assert_eq!(report(&data[..32_768]), report(&data));
}

#[test]
fn standard_losses() {
    assert_eq!(standard_entry(1, 3_000, 9_800), 33_000);
    assert_eq!(standard_entry(5, 7_000, 950), 28_000);
    assert_eq!(standard_entry(5, 20_000, 50_000), 312_158);
    // The other lines, without torque and at their efficiency's own number.
    assert_eq!(standard_entry(2, 1_000, 0), 10_000);
    assert_eq!(standard_entry(2, 1_000, 96), 10_400);
    assert_eq!(standard_entry(3, 1_000, 96), 10_400);
    assert_eq!(standard_entry(4, 1_000, 97), 9_300);
}

#[test]
fn continued_below_the_first_torque() {
    let numbers = Numbers::standard(1, 3_000, &[100, 200], &[1_000, 2_000]);
    let map = numbers.build().unwrap();
    assert_eq!(map.entries, [15_041, 17_082, 15_041, 17_082]);
    assert_eq!(loss(&lent(&map), 1_500, 0), Ok(13_000));
    assert_eq!(loss(&lent(&map), 1_500, 50_000), Ok(14_021));
}

#[test]
fn uncertainties() {
    assert_eq!(sensor_uncertainty([1, 0, 0, 0]), 2);
    assert_eq!(sensor_uncertainty([0, 0, 1, 0]), 2);
    let component = component::read(&calibrated(110_000).bytes()).unwrap();
    let component::Kind::Measured(measured) = component.kind else {
        panic!("measured data");
    };
    assert_eq!(sensor_parts(&measured.input, 110_000), [0, 0, 10_000, 0]);
    assert_eq!(
        sensor_parts(&measured.outputs[0], 300_000),
        [0, 0, 40_000, 0]
    );
    assert_eq!(sensor_uncertainty([0, 0, 10_000, 0]), 20_000);
    assert_eq!(sensor_uncertainty([0, 0, 40_000, 0]), 80_000);
    // The ratio on the square of U would give 87,178 and a bit.
    assert_eq!(loss_uncertainty(20_000, 3_000, &[80_000]), 100_000);
}

#[test]
fn parts_are_rounded_up() {
    let sensor = component::Sensor {
        nominal: 3,
        sensitivity: 7,
        zero: 11,
        calibration: 13,
        advancement: 1_001,
        parasitic: 17,
        share: 19,
        difference: 23,
        span: 29,
    };
    // 45,080,000 / 2,900,000; 759 / 29,000; 390 / 1,001; 969 / 100,000.
    assert_eq!(sensor_parts(&sensor, 280_000), [16, 1, 1, 1]);
    let exact = component::Sensor {
        difference: 100,
        span: 100,
        ..sensor
    };
    // 7 x 100 x 200,000 / 10,000,000 is whole, 11 x 100 x 3 / 100,000 is not.
    assert_eq!(sensor_parts(&exact, 200_000)[..2], [14, 1]);
}

#[test]
fn measured_losses() {
    // 10.00 Nm above 15.00, 3.00 and 3.00 Nm: the last is 1 Nm x 3.000, and the
    // middle one 5 % of 60.00 Nm as well.
    for (input, entry) in [(110_000, 30_000), (102_000, 6_700), (100_000, 700)] {
        let map = calibrated(input).build().unwrap();
        assert_eq!(map.entries[0], entry);
        assert_eq!(map.entries[2], entry);
    }
    let numbers = calibrated(99_999);
    assert_eq!(numbers.build(), refused(9, numbers.rows_start()));
}

/// The sensors of "Reckoned by hand" under another ratio: the entry for this input
/// torque and 3,000.00 Nm.
fn entry_under(ratio: u16, input: u32) -> u32 {
    let mut numbers = calibrated(input);
    numbers.ratio = ratio;
    // No loss under zero at 6,000 Nm.
    for row in [1, 3] {
        numbers.rows[row][0] = 600_000_000_u32.div_ceil(ratio.into());
    }
    numbers.build().unwrap().entries[0]
}

#[test]
fn the_newton_metre_at_the_ends_of_the_ratio() {
    // U 20,000 x 1.000 and 80,000: the root of 6,800,000,000 is 82,462.1, hence
    // 82,463 grains: 824.63 hundredths, 724.63 of them above 1 Nm.
    assert_eq!(loss_uncertainty(20_000, 1_000, &[80_000]), 82_463);
    assert_eq!(entry_under(1_000, 300_000), 725);
    // 20,000 x 20.000 and 80,000: the root of 166,400,000,000 is 407,921.6, hence
    // 407,922 grains: 4,079.22 hundredths, 2,079.22 of them above 20 Nm.
    assert_eq!(loss_uncertainty(20_000, 20_000, &[80_000]), 407_922);
    assert_eq!(entry_under(20_000, 15_000), 2_080);
}

#[test]
fn each_allowance_on_its_own_side() {
    // 5 % of the loss and 1 Nm x 3.000 are both 3.00 Nm at 60.00 Nm. 3 Nm are
    // 6,000,000 parts; 5 % of 59.40, 59.97, 60.00, 60.03 and 60.60 Nm are 5,940,000,
    // 5,997,000, 6,000,000, 6,003,000 and 6,060,000. The loss and 10.00 Nm less the
    // allowance: 66.40, 66.97, 67.00, 67.0285 and 67.57 Nm.
    for (input, allowance, entry) in [
        (101_980, 6_000_000, 6_640),
        (101_999, 6_000_000, 6_697),
        (102_000, 6_000_000, 6_700),
        (102_001, 6_003_000, 6_703),
        (102_020, 6_060_000, 6_757),
    ] {
        let component = component::read(&calibrated(input).bytes()).unwrap();
        let component::Kind::Measured(measured) = component.kind else {
            panic!("measured data");
        };
        let steps = measured_steps(3_000, &measured, &measured.rows[0]).unwrap();
        assert_eq!(steps.allowance, allowance);
        assert_eq!(entry_under(3_000, input), entry);
    }
}

#[test]
fn entry_is_rounded_up_once() {
    // Loss 1 x 1.001 hundredths, no uncertainty.
    let rows = [[1, 0], [2_000, 1_000]];
    let sensors = [quiet_sensor(100); 2];
    let numbers = Numbers::measured(1_001, &[0, 10], sensors, &rows);
    assert_eq!(numbers.build().unwrap().entries, [2, 1_002, 2, 1_002]);
}

#[test]
fn nearest_speeds() {
    let map = lent(&example().build().unwrap());
    assert_eq!(nearest(&map, 1_500, 0), Ok((100, 0)));
    assert_eq!(nearest(&map, 1_501, 0), Ok((200, 0)));
}

#[test]
fn one_rounding_for_both_axes() {
    // Per axis it would be 1 and 2, then 2.
    let map = lent_of(&[100, 200], &[0, 10], &[0, 1, 1, 2]);
    assert_eq!(loss(&map, 1_500, 500), Ok(1));
}

#[test]
fn negative_answers_are_rounded_towards_zero() {
    let map = lent_of(&[100, 200], &[10, 20], &[0, 1, 0, 1]);
    assert_eq!(loss(&map, 1_000, 500), Ok(0));
    assert_eq!(loss(&map, 1_000, 0), Ok(-1));
    let steep = lent_of(&[100, 200], &[10, 20], &[0, 3, 0, 3]);
    assert_eq!(loss(&steep, 2_000, 500), Ok(-1));
}

#[test]
fn largest_maps() {
    for (kind, length) in [(1, 211), (2, 16_640), (3, 24_853)] {
        let numbers = largest(kind);
        let data = numbers.bytes();
        let map = numbers.build().unwrap();
        assert_eq!(map.entries.len(), 2_048);
        assert_eq!(data.len(), length);
        let text = listing(&lent(&map), usize::MAX).unwrap();
        assert_eq!(report(&data), text);
        assert_eq!(text.iter().filter(|byte| **byte == b'\n').count(), 2_049);
        assert!(text.starts_with(b"speed,torque,loss\n90,0,"));
    }
}
