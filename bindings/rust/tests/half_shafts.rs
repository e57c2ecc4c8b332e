//! Component data of kind 3, with an output sensor on each half-shaft: cases reckoned by hand for
//! request C-11 of document 02, through the library.
//!
//! The example has ratio 3.000 and sensors that are uncertain by their calibration alone, N 10,000
//! at the input, 30,000 at the left and 15,000 at the right: V is 60,000 grains, W 60,000 and W'
//! 30,000, so that the loss uncertainty is 90,000 grains, 9.00 Nm.

use axle::{build, Map, Refusal};

const HALF_SHAFTS: &[u8] = include_bytes!("../../../examples/half-shafts.axle");
const MEASURED: &[u8] = include_bytes!("../../../examples/measured.axle");

/// The heads of tags 9 and 10, and the first row.
const RIGHT_SENSOR: usize = 69;
const ROWS_HEAD: usize = 90;
const ROWS: usize = 93;

/// The second row: at 100 rpm and 3,000 Nm.
const SECOND_ROW: usize = ROWS + 12;

/// The example with other numbers of two bytes at these offsets.
fn with_numbers(numbers: &[(usize, u16)]) -> Vec<u8> {
    let mut data = HALF_SHAFTS.to_vec();
    for (offset, number) in numbers {
        data[*offset..][..2].copy_from_slice(&number.to_be_bytes());
    }
    data
}

/// Puts a row's torques, in hundredths of Nm, at an offset: input, left, right.
fn put_row(data: &mut [u8], offset: usize, torques: [u32; 3]) {
    let bytes: Vec<u8> = torques.into_iter().flat_map(u32::to_be_bytes).collect();
    data[offset..][..12].copy_from_slice(&bytes);
}

/// The second entry of the example, or the refusal, with these torques in its second row.
fn entry(torques: [u32; 3]) -> Result<u32, Refusal> {
    let mut data = HALF_SHAFTS.to_vec();
    put_row(&mut data, SECOND_ROW, torques);
    Map::build(&data).map(|map| map.entries()[1])
}

fn refused<T>(number: u32, place: usize) -> Result<T, Refusal> {
    Err(Refusal {
        number,
        place,
        index: None,
    })
}

/// A number of a sensor, by its index.
fn sensor_refused<T>(place: usize, index: usize) -> Result<T, Refusal> {
    Err(Refusal {
        number: 32,
        place,
        index: Some(index),
    })
}

/// At 1,000 Nm and 100 rpm 20.00 Nm are lost, with an allowance of 1 Nm × 3.000, 3.00 Nm: 26.00 Nm.
/// Had left and right been rounded up together before the input joins them, it would be 26.01 Nm. At
/// 200 rpm 33.00 Nm are lost, with the same allowance, and then 300.00 Nm, with one of 15.00 Nm.
#[test]
fn the_example() {
    let map = Map::build(HALF_SHAFTS).expect("accepted");
    assert_eq!(map.speeds(), [100, 200]);
    assert_eq!(map.torques(), [1_000, 3_000]);
    assert_eq!(map.entries(), [2_600, 6_600, 3_900, 30_000]);
    let listing =
        "speed,torque,loss\n100,1000,26.00\n100,3000,66.00\n200,1000,39.00\n200,3000,300.00\n";
    assert_eq!(map.listing(), Ok(listing.to_string()));
    assert_eq!(map.loss(1_000, 200_000), Ok(4_600));
    // 4,601 and 16,956.525 hundredths at the two speeds: 10,778.7625 between them.
    assert_eq!(map.loss(1_500, 200_050), Ok(10_779));
    // 3,900 less 499.90 Nm at 13.05 each: -2,623.695 hundredths, rounded towards plus infinity.
    assert_eq!(map.loss(2_000, 50_010), Ok(-2_623));
    assert_eq!(map.loss(999, 200_000), refused(20, 0));
    assert_eq!(map.loss(1_000, 300_001), refused(21, 0));
    assert_eq!(map.nearest(1_500, 200_000), Ok((100, 1_000)));
    assert_eq!(map.nearest(1_501, 200_001), Ok((200, 3_000)));
}

#[test]
fn losses() {
    // 60.00 Nm, and 9.00 Nm of uncertainty with an allowance of 3.00 Nm.
    assert_eq!(entry([102_000, 200_000, 100_000]), Ok(6_600));
    // Nothing, and 9.00 Nm with an allowance of 3.00 Nm.
    assert_eq!(entry([100_000, 200_000, 100_000]), Ok(600));
    assert_eq!(entry([99_999, 200_000, 100_000]), refused(9, SECOND_ROW));
}

#[test]
fn left_and_right_are_set_against_the_axis_together() {
    // 55.00 Nm with an allowance of 3.00 Nm, and 65.00 Nm with one of 3.25 Nm.
    assert_eq!(entry([102_000, 150_000, 150_500]), Ok(6_100));
    assert_eq!(entry([102_000, 149_500, 150_000]), Ok(7_075));
    let off_axis = refused(8, SECOND_ROW + 4);
    for (left, right) in [
        (150_000, 150_501),
        (150_501, 150_000),
        (149_499, 150_000),
        (150_000, 149_499),
    ] {
        assert_eq!(entry([102_000, left, right]), off_axis);
    }
    // 8 comes before 9.
    assert_eq!(entry([0, 150_000, 150_501]), off_axis);
    assert_eq!(entry([0, 150_000, 150_500]), refused(9, SECOND_ROW));
}

#[test]
fn the_sides_share_in_any_way() {
    for left in [0, 1, 150_000, 299_999, 300_000] {
        assert_eq!(entry([102_000, left, 300_000 - left]), Ok(6_600));
    }
}

#[test]
fn torques_above_their_sensors() {
    let (input, left, right) = (SECOND_ROW, SECOND_ROW + 4, SECOND_ROW + 8);
    assert_eq!(right, 113);
    assert_eq!(entry([1_000_001, 200_000, 100_000]), refused(7, input));
    assert_eq!(entry([102_000, 3_000_001, 100_000]), refused(7, left));
    assert_eq!(entry([102_000, 200_000, 1_500_001]), refused(7, right));
    // The first of them is told, and all of them before 8.
    assert_eq!(entry([1_000_001, 3_000_001, 1_500_001]), refused(7, input));
    assert_eq!(entry([102_000, 3_000_001, 1_500_001]), refused(7, left));
    assert_eq!(entry([102_000, 3_000_000, 1_500_001]), refused(7, right));
    assert_eq!(entry([102_000, 3_000_000, 1_500_000]), refused(8, left));
}

/// Added in four bytes, the last two would come round to 3,000.00 Nm.
#[test]
fn sums_beyond_four_bytes() {
    let (left, right) = (SECOND_ROW + 4, SECOND_ROW + 8);
    assert_eq!(entry([102_000, u32::MAX, u32::MAX]), refused(7, left));
    assert_eq!(entry([102_000, u32::MAX, 300_001]), refused(7, left));
    assert_eq!(entry([102_000, 300_001, u32::MAX]), refused(7, right));
}

/// A torque axis ends at 50,000 Nm, and so does what one sensor measures; two of them together may
/// be 5.00 Nm above. With N 50,000 at each, V is 300,000 grains, W and W' are 100,000, and the loss
/// uncertainty is 331,663 grains, 33.17 Nm: of it 3.00 Nm are allowed without a loss, and all of it
/// where 995.00 Nm are lost.
#[test]
fn more_than_one_sensor_can_have() {
    let mut data = with_numbers(&[
        (23, 0),
        (25, 50_000),
        (30, 50_000),
        (51, 50_000),
        (72, 50_000),
    ]);
    for speed in 0..2 {
        put_row(&mut data, ROWS + 24 * speed, [0, 0, 0]);
        put_row(
            &mut data,
            ROWS + 24 * speed + 12,
            [1_700_000, 5_000_000, 500],
        );
    }
    let map = Map::build(&data).expect("accepted");
    assert_eq!(map.torques(), [0, 50_000]);
    assert_eq!(map.entries(), [3_017, 99_500, 3_017, 99_500]);
    put_row(&mut data, SECOND_ROW, [1_700_000, 5_000_000, 501]);
    assert_eq!(Map::build(&data), refused(8, SECOND_ROW + 4));
    put_row(&mut data, SECOND_ROW, [1_700_000, 5_000_001, 0]);
    assert_eq!(Map::build(&data), refused(7, SECOND_ROW + 4));
}

/// With w 10,000 and a difference of temperature as large as its span, a sensor is uncertain by a
/// hundredth of its torque, times 2 / √3. At 2,000.00 Nm a is 200,000 grains and U 230,941, at
/// 1,000.00 Nm 100,000 and 115,471: each side has its own torque and its own sensor. The loss is
/// 60.00 Nm, the allowance 3.00 Nm, and V and the other W as the example has them.
#[test]
fn each_side_has_its_own_uncertainty() {
    let at =
        |sensor: usize| with_numbers(&[(sensor + 2, 10_000), (sensor + 6, 0), (sensor + 14, 100)]);
    let entry = |data: Vec<u8>| Map::build(&data).expect("accepted").entries()[1];
    // The root of 60,000² + 230,941² + 30,000² is 240,486.5: 60.00 + 24.0487 - 3.00 Nm.
    assert_eq!(entry(at(51)), 8_105);
    // The root of 60,000² + 60,000² + 115,471² is 143,295.3: 60.00 + 14.3296 - 3.00 Nm.
    assert_eq!(entry(at(72)), 7_133);
}

#[test]
fn fields_and_their_places() {
    assert_eq!(HALF_SHAFTS.len(), 141);
    assert_eq!(HALF_SHAFTS[RIGHT_SENSOR..][..3], [9, 0, 18]);
    assert_eq!(HALF_SHAFTS[ROWS_HEAD..][..3], [10, 0, 48]);
    let with = |offset: usize, byte: u8| {
        let mut data = HALF_SHAFTS.to_vec();
        data[offset] = byte;
        Map::build(&data)
    };
    for tag in (0..=255).filter(|tag| *tag != 9) {
        assert_eq!(with(RIGHT_SENSOR, tag), refused(2, RIGHT_SENSOR));
    }
    for tag in (0..=255).filter(|tag| *tag != 10) {
        assert_eq!(with(ROWS_HEAD, tag), refused(2, ROWS_HEAD));
    }
    for length in [0, 32, 36, 47, 49, 60] {
        assert_eq!(with(ROWS_HEAD + 2, length), refused(3, ROWS_HEAD));
    }
    // The fields of one kind under the number of another.
    assert_eq!(with(3, 1), refused(12, 27));
    assert_eq!(with(3, 2), refused(2, RIGHT_SENSOR));
    let mut data = MEASURED.to_vec();
    data[3] = 3;
    assert_eq!(Map::build(&data), refused(2, RIGHT_SENSOR));
    for kind in [0, 4, 5, 255] {
        assert_eq!(with(3, kind), refused(4, 3));
    }
}

#[test]
fn numbers_of_the_right_sensor() {
    let limits = [
        (1, 50_000),
        (0, 10_000),
        (0, 10_000),
        (0, 10_000),
        (1_000, 10_000),
        (0, 10_000),
        (0, 1_000),
        (0, 500),
        (10, 100),
    ];
    for (index, (lowest, highest)) in limits.into_iter().enumerate() {
        let place = RIGHT_SENSOR + 3 + 2 * index;
        let answer = |number: u16| Map::build(&with_numbers(&[(place, number)]));
        for inside in [lowest, highest] {
            let refused_there = answer(inside)
                .err()
                .filter(|refusal| refusal.place == place);
            assert_eq!(refused_there, None);
        }
        assert_eq!(answer(highest + 1), sensor_refused(place, index));
        if lowest > 0 {
            assert_eq!(answer(lowest - 1), sensor_refused(place, index));
        }
    }
}

#[test]
fn data_cut_short_or_too_long() {
    let heads = [0, 4, 8, 13, 20, 27, 48, RIGHT_SENSOR, ROWS_HEAD];
    for length in 0..HALF_SHAFTS.len() {
        let head = heads.into_iter().rev().find(|head| *head <= length);
        let head = head.expect("0 is the first");
        let number = if head == length { 2 } else { 1 };
        assert_eq!(Map::build(&HALF_SHAFTS[..length]), refused(number, head));
    }
    for byte in [0, 8, 10] {
        let mut data = HALF_SHAFTS.to_vec();
        data.push(byte);
        assert_eq!(Map::build(&data), refused(12, 141));
    }
}

#[test]
fn what_is_lent() {
    let mut entries = [7; 6];
    assert_eq!(build(HALF_SHAFTS, &mut entries[..3]), refused(11, 4));
    let mut data = HALF_SHAFTS.to_vec();
    put_row(&mut data, ROWS + 36, [0, 120_000, 180_000]);
    assert_eq!(build(&data, &mut entries), refused(9, ROWS + 36));
    assert_eq!(entries, [7; 6]);
    build(HALF_SHAFTS, &mut entries).expect("accepted");
    assert_eq!(entries, [2_600, 6_600, 3_900, 30_000, 7, 7]);
}
