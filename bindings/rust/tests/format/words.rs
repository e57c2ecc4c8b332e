//! What the page says in words, with the numbers of document 01.

use super::*;
use axle::Map;

/// Document 01: the lines in their order, each with its efficiency in per cent and T0 in Nm.
const LINES: [(&str, u32, u32); 5] = [
    ("SR", 98, 70),
    ("SRT", 96, 80),
    ("SP", 96, 80),
    ("HR", 97, 70),
    ("HRT", 95, 90),
];

/// The entry of document 01 in hundredths of Nm, rounded up, with T1 of 20 Nm and a ratio of 3.
fn standard_entry(efficiency: u32, t0: u32, torque: u32) -> u32 {
    let rising = 100 * torque * (100 - efficiency);
    100 * (t0 + 20 * 3) + (rising + efficiency - 1) / efficiency
}

#[test]
fn the_lines_are_in_the_order_of_the_table() {
    assert_eq!(line_names(), LINES.map(|(name, _, _)| name));
    let mut data = example_named("standard.axle");
    for (index, (name, efficiency, t0)) in LINES.into_iter().enumerate() {
        data[7] = index as u8 + 1;
        let map = Map::build(&data).expect("accepted");
        assert_eq!(map.torques(), [0, 1_000]);
        let entries = [0, 1_000].map(|torque| standard_entry(efficiency, t0, torque));
        assert_eq!(map.entries()[..2], entries, "{}", name);
    }
}

/// An example with other numbers of four bytes at these offsets.
fn with_torques(example: Vec<u8>, torques: &[(usize, u32)]) -> Vec<u8> {
    let mut data = example;
    for (offset, torque) in torques {
        data[*offset..][..4].copy_from_slice(&torque.to_be_bytes());
    }
    data
}

#[test]
fn output_torques_off_their_grid_point() {
    let page = page();
    let told: Vec<&str> = page.split(" Nm off").collect();
    let (_, before) = told.split_last().expect("a page");
    assert!(!before.is_empty(), "the page says how far off");
    for text in before {
        assert_eq!(text.split_whitespace().last(), Some("5.00"));
    }
    let answer = |output| refusal_of(&with_torques(measured(), &[(76, output)]));
    for passes in [99_500, 100_500] {
        assert_eq!(answer(passes), None);
    }
    for beyond in [99_499, 100_501] {
        assert_eq!(answer(beyond), refused(8, 76));
    }
}

/// The refusal of kind 3 with these torques, in hundredths of Nm, at the left and at the right of its second row, whose
/// grid point has 3,000 Nm.
fn shared(left: u32, right: u32) -> Option<Refusal> {
    refusal_of(&with_torques(half_shafts(), &[(109, left), (113, right)]))
}

#[test]
fn left_and_right_are_added() {
    assert!(page().contains("The output torque of kind 3 is the left and the right torque added."));
    for (left, right) in [(150_000, 150_500), (150_500, 150_000), (149_500, 150_000)] {
        assert_eq!(shared(left, right), None);
    }
    for (left, right) in [(150_000, 150_501), (150_501, 150_000), (149_499, 150_000)] {
        assert_eq!(shared(left, right), refused(8, 109));
    }
}

#[test]
fn left_and_right_share_as_they_do() {
    assert!(page().contains(": either may be 0."));
    for left in [0, 1, 299_999, 300_000] {
        assert_eq!(shared(left, 300_000 - left), None);
    }
}

#[test]
fn the_first_step() {
    assert!(page().contains("10 and 20 are right, 11 and 21 are not"));
    let answer = |torques: [u8; 2]| {
        let mut data = example_named("standard.axle");
        data[23..].copy_from_slice(&[0, torques[0], 0, torques[1]]);
        refusal_of(&data)
    };
    assert_eq!(answer([10, 20]), None);
    assert_eq!(answer([11, 21]), refused(6, 23));
}

/// With a ratio of 20.000 the first row loses 20 times its input less its output; 5 % of that is
/// far above the uncertainty, so that the entry is the loss itself.
#[test]
fn the_largest_entry() {
    assert!(page().contains("above 100,000.00 Nm"));
    let built = |input, output| {
        let mut data = with_torques(measured(), &[(72, input), (76, output)]);
        data[11..13].copy_from_slice(&20_000u16.to_be_bytes());
        Map::build(&data).map(|map| map.entries()[0])
    };
    assert_eq!(built(505_000, 100_000), Ok(10_000_000));
    assert_eq!(built(505_000, 99_999).err(), refused(10, 72));
    assert_eq!(built(505_001, 100_000).err(), refused(10, 72));
}
