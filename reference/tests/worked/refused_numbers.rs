//! Request C-14, which number of a field was refused: cases reckoned by hand.
//! With two speeds and two torques the ratio is at 11, and the numbers of the
//! sensors begin at 30, 51 and 72.

use crate::support::*;
use reference::component::read;
use reference::listing::report;
use reference::map::build;
use reference::refusal::Refusal;
use reference::writer::write;

fn measured() -> Numbers {
    calibrated(110_000)
}

fn sides() -> Numbers {
    half_shafts([110_000, 200_000, 100_000])
}

fn changed(mut numbers: Numbers, change: impl FnOnce(&mut Numbers)) -> Numbers {
    change(&mut numbers);
    numbers
}

/// Read, built without lent entries, and written without room.
fn refusals(numbers: &Numbers) -> [Refusal; 3] {
    let data = numbers.bytes();
    [
        read(&data).unwrap_err(),
        build(&data, 0).unwrap_err(),
        write(&numbers.handed(), &mut []).unwrap_err(),
    ]
}

/// The refusal with this number and index, by the reader and the build at this place, by the writer at 0.
fn expect(numbers: &Numbers, number: u8, place: usize, index: Option<usize>) {
    let at = |place| Refusal {
        number,
        place,
        index,
    };
    assert_eq!(refusals(numbers), [at(place), at(place), at(0)]);
}

#[test]
fn a_ratio_is_the_only_number_of_its_field() {
    for numbers in [example(), measured(), sides()] {
        for ratio in [0, 999, 20_001, 65_535] {
            let wrong = changed(numbers.clone(), |n| n.ratio = ratio);
            expect(&wrong, 31, 11, Some(0));
        }
    }
}

#[test]
fn numbers_are_counted_within_their_sensor() {
    let r_of_input = changed(measured(), |n| n.sensors[0][8] = 101);
    expect(&r_of_input, 32, 46, Some(8));
    for numbers in [measured(), sides()] {
        let k_of_output = changed(numbers, |n| n.sensors[1][4] = 999);
        expect(&k_of_output, 32, 59, Some(4));
    }
    let n_of_right = changed(sides(), |n| n.sensors[2][0] = 0);
    expect(&n_of_right, 32, 72, Some(0));
}

#[test]
fn kind_line_and_axis_numbers_keep_4() {
    let line = changed(sides(), |n| (n.line, n.ratio) = (6, 999));
    expect(&line, 4, 7, None);
    let speed = changed(measured(), |n| n.speeds[0] = 0);
    expect(&speed, 4, 16, None);
    let torque = changed(measured(), |n| n.torques[1] = 50_001);
    expect(&torque, 4, 25, None);
    let mut data = changed(example(), |n| n.ratio = 999).bytes();
    data[3] = 4;
    assert_eq!(read(&data), refused(4, 3));
}

#[test]
fn the_first_of_several_is_told() {
    let r_of_left = |n: &mut Numbers| n.sensors[1][8] = 101;
    let numbers = changed(sides(), r_of_left);
    expect(&numbers, 32, 67, Some(8));
    let two_sensors = changed(numbers.clone(), |n| n.sensors[2][0] = 0);
    expect(&two_sensors, 32, 67, Some(8));
    let one_sensor = changed(numbers.clone(), |n| n.sensors[1][7] = 501);
    expect(&one_sensor, 32, 65, Some(7));
    let ratio = changed(numbers.clone(), |n| n.ratio = 20_001);
    expect(&ratio, 31, 11, Some(0));
    let ratio_and_speed = changed(ratio, |n| n.speeds[0] = 0);
    expect(&ratio_and_speed, 31, 11, Some(0));
    let equal_speeds = changed(numbers.clone(), |n| n.speeds[0] = 200);
    expect(&equal_speeds, 5, 18, None);
    let no_torque_rows = changed(numbers, |n| n.rows.clear());
    expect(&no_torque_rows, 32, 67, Some(8));
}

#[test]
fn the_map_program_tells_no_index() {
    let ratio = changed(example(), |n| n.ratio = 999);
    assert_eq!(report(&ratio.bytes()), b"refused 31 at 11\n");
    let r_of_input = changed(measured(), |n| n.sensors[0][8] = 101);
    assert_eq!(report(&r_of_input.bytes()), b"refused 32 at 46\n");
    let n_of_right = changed(sides(), |n| n.sensors[2][0] = 0);
    assert_eq!(report(&n_of_right.bytes()), b"refused 32 at 72\n");
}
