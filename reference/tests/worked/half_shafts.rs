//! Kind 3, the output measured at two half-shafts: cases reckoned by hand from
//! requests C-11 and C-13.

use crate::support::*;
use reference::component::{self, Kind, Measured};
use reference::loss::{loss_uncertainty, measured_steps, sensor_parts, sensor_uncertainty};
use reference::map::build;
use reference::refusal::Refusal;
use reference::reply::component_line;

/// The entry of the row, which is the first of each speed.
fn entry(row: [u32; 3]) -> Result<u32, Refusal> {
    let map = half_shafts(row).build()?;
    assert_eq!(map.entries[0], map.entries[2]);
    Ok(map.entries[0])
}

fn measured(numbers: &Numbers) -> Measured {
    match component::read(&numbers.bytes()).unwrap().kind {
        Kind::Measured(measured) => measured,
        Kind::Standard => panic!("measured data"),
    }
}

#[test]
fn three_squares_under_one_root() {
    // U 20,000, 60,000 and 30,000: 60,000 60,000 + 60,000 60,000 + 30,000 30,000
    // is 90,000 90,000. Left and right joined first would give 90,001.
    let uncertainties = [10_000, 30_000, 15_000].map(|g| sensor_uncertainty([0, 0, g, 0]));
    assert_eq!(uncertainties, [20_000, 60_000, 30_000]);
    assert_eq!(loss_uncertainty(20_000, 3_000, &[60_000, 30_000]), 90_000);
    assert_eq!(loss_uncertainty(20_000, 3_000, &[30_000, 60_000]), 90_000);
    // 4 + 4 + 16 is 24. Joined first: the root of 20 is 5, that of 4 + 25 is 6.
    assert_eq!(loss_uncertainty(2, 1_000, &[2, 4]), 5);
    // Rounded up: 1 + 1 + 1 is 3, and 4 is reached.
    assert_eq!(loss_uncertainty(1, 1_000, &[1, 1]), 2);
    assert_eq!(loss_uncertainty(0, 1_000, &[0, 0]), 0);
    assert_eq!(loss_uncertainty(0, 1_000, &[0, 7]), 7);
}

#[test]
fn small_uncertainties_of_data() {
    // N 100, k 1,000, c 1, 1 and 2: g 1, 1 and 2, U 2, 2 and 4.
    let sensor = |c| [100, 0, 0, c, 1_000, 0, 0, 0, 10];
    let rows = [[1_100, 400, 600], [2_100, 1_500, 500]];
    let numbers = Numbers::measured(1_000, &[10, 20], [1, 1, 2].map(sensor), &rows);
    let measured = measured(&numbers);
    let steps = measured_steps(1_000, &measured, &measured.rows[1]).unwrap();
    assert_eq!(steps.input.uncertainty, 2);
    let outputs: Vec<u128> = steps.outputs.iter().map(|s| s.uncertainty).collect();
    assert_eq!(outputs, [2, 4]);
    assert_eq!(steps.loss_uncertainty.sum_of_squares, 24);
    assert_eq!(steps.loss_uncertainty.uncertainty, 5);
    // Far below 1 Nm x 1.000: the entries are the losses.
    assert_eq!(numbers.build().unwrap().entries, [100; 4]);
}

#[test]
fn entries() {
    // 1,020.00 x 3 - 3,000.00 is 60.00 Nm; 9.00 Nm is 6.00 Nm above 5 % of it.
    assert_eq!(entry([102_000, 200_000, 100_000]), Ok(6_600));
    // No loss: 9.00 Nm is 6.00 Nm above 1 Nm x 3.000.
    assert_eq!(entry([100_000, 200_000, 100_000]), Ok(600));
    // 300.00 Nm, and 9.00 Nm is below 5 % of it.
    assert_eq!(entry([110_000, 200_000, 100_000]), Ok(30_000));
    let numbers = half_shafts([99_999, 200_000, 100_000]);
    assert_eq!(numbers.build(), refused(9, numbers.rows_start()));
}

#[test]
fn the_sum_stands_against_the_axis_torque() {
    let place = half_shafts([0; 3]).rows_start() + 4;
    // 3,060.00 - 3,005.00 is 55.00 Nm, 5 % of it 2.75 Nm, below 1 Nm x 3.000; 9.00 -
    // 3.00 is 6.00 Nm.
    assert_eq!(entry([102_000, 150_000, 150_500]), Ok(6_100));
    assert_eq!(entry([102_000, 150_500, 150_000]), Ok(6_100));
    assert_eq!(entry([102_000, 150_000, 150_501]), refused(8, place));
    assert_eq!(entry([102_000, 150_501, 150_000]), refused(8, place));
    // 3,060.00 - 2,995.00 is 65.00 Nm; 9.00 - 3.25 is 5.75 Nm.
    assert_eq!(entry([102_000, 150_000, 149_500]), Ok(7_075));
    assert_eq!(entry([102_000, 150_000, 149_499]), refused(8, place));
    assert_eq!(entry([102_000, 149_499, 150_000]), refused(8, place));
    // One side has it all, or nearly none of it.
    assert_eq!(entry([102_000, 300_000, 0]), Ok(6_600));
    assert_eq!(entry([102_000, 0, 300_000]), Ok(6_600));
    assert_eq!(entry([102_000, 1, 299_999]), Ok(6_600));
}

#[test]
fn the_layout() {
    let numbers = half_shafts([102_000, 200_000, 100_000]);
    let data = numbers.bytes();
    assert_eq!((data.len(), numbers.rows_start()), (141, 93));
    assert_eq!((data[69], data[90]), (9, 10));
    assert_eq!(component::body_start(&data, 7), Some(51));
    assert_eq!(component::body_start(&data, 9), Some(72));
    assert_eq!(component::body_start(&data, 10), Some(93));
    assert_eq!(component::body_start(&data, 8), None);
    let mut eight = data.clone();
    eight[69] = 8;
    assert_eq!(build(&eight, 4), refused(2, 69));
    let mut eight = data.clone();
    eight[90] = 8;
    assert_eq!(build(&eight, 4), refused(2, 90));
    // Row 1 starts at 105; its right torque above 15,000 Nm.
    let mut numbers = numbers;
    numbers.rows[1][2] = 1_500_001;
    assert_eq!(numbers.build(), refused(7, 113));
    // No output torque alone is told by 8.
    numbers.rows[1][2] = 1_500_000;
    assert_eq!(numbers.build(), refused(8, 109));
}

#[test]
fn the_highest_numbers_of_four_bytes() {
    const MOST: u32 = u32::MAX;
    let place = half_shafts([0; 3]).rows_start();
    assert_eq!(entry([102_000, MOST, MOST]), refused(7, place + 4));
    assert_eq!(entry([102_000, 200_000, MOST]), refused(7, place + 8));
    assert_eq!(entry([MOST, MOST, MOST]), refused(7, place));
    // In four bytes the sum would be 300,000.
    assert_eq!(entry([102_000, MOST, 300_001]), refused(7, place + 4));
    assert_eq!(entry([102_000, 300_001, MOST]), refused(7, place + 8));
}

#[test]
fn an_output_above_what_one_sensor_can_have() {
    // 50,005.00 Nm, of which no sensor has more than 50,000 Nm.
    let quiet = [quiet_sensor(50_000); 3];
    let rows = [[0, 0, 0], [2_500_250, 5_000_000, 500]];
    let numbers = Numbers::measured(2_000, &[0, 50_000], quiet, &rows);
    assert_eq!(numbers.build().unwrap().entries, [0; 4]);
    let rows = [[0, 0, 0], [2_500_251, 5_000_000, 501]];
    let numbers = Numbers::measured(2_000, &[0, 50_000], quiet, &rows);
    assert_eq!(numbers.build(), refused(8, numbers.rows_start() + 12 + 4));
}

#[test]
fn each_side_has_its_own_torque_and_sensor() {
    // w 10,000, d 10.0 K and R 10 K: a is as many grains as the torque has
    // hundredths, and U is twice that over the root of 3.
    let warm = [1_000, 10_000, 0, 0, 1_000, 0, 0, 100, 10];
    let quiet = quiet_sensor(1_000);
    let rows = [[40_000, 30_000, 10_000], [80_000, 0, 80_000]];
    let with = |left, right| {
        let sensors = [quiet, left, right];
        let numbers = Numbers::measured(1_000, &[400, 800], sensors, &rows);
        numbers.build().unwrap().entries[..2].to_vec()
    };
    // 34,641.02 grains are 34,642: 246.42 hundredths above 1 Nm x 1.000. At 0 none are.
    assert_eq!(with(warm, quiet), [247, 0]);
    // 11,547.01 are 11,548: 15.48. 92,376.04 are 92,377: 823.77.
    assert_eq!(with(quiet, warm), [16, 824]);
    let component = component::read(&half_shafts([1, 2, 3]).bytes()).unwrap();
    let Kind::Measured(measured) = component.kind else {
        panic!("measured data");
    };
    assert_eq!(measured.rows[0].outputs, [2, 3]);
    assert_eq!(sensor_parts(&measured.outputs[0], 2), [0, 0, 30_000, 0]);
    assert_eq!(sensor_parts(&measured.outputs[1], 3), [0, 0, 15_000, 0]);
}

#[test]
fn read_into_a_line() {
    let data = half_shafts([102_000, 200_000, 100_000]).bytes();
    let component = component::read(&data).unwrap();
    assert_eq!(
        component_line(&component),
        "kind 3 line 1 ratio 3000 speeds 100 200 torques 3000 6000 \
         input 10000 0 0 100 1000 0 0 0 10 \
         output 30000 0 0 100 1000 0 0 0 10 \
         right 15000 0 0 100 1000 0 0 0 10 \
         rows 93 to 141\n"
    );
}
