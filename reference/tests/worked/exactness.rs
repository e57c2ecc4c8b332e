//! "Accuracy over whole numbers": the checker, against values known by hand
//! and over many maps.

use crate::support::*;
use reference::component::{self, Component};
use reference::exact::{ExactMap, Verdict};
use reference::lookup::loss;

fn component(numbers: &Numbers) -> Component {
    component::read(&numbers.bytes()).unwrap()
}

fn exact(numbers: &Numbers) -> ExactMap {
    ExactMap::new(&component(numbers))
}

fn verdict(holds: bool, excess_millionths: i64) -> Verdict {
    Verdict {
        holds,
        undecided: false,
        excess_millionths,
    }
}

#[test]
fn worked_entries_are_exact() {
    for (numbers, entry) in [
        (calibrated(110_000), 30_000),
        (calibrated(102_000), 6_700),
        (calibrated(100_000), 700),
        (half_shafts([102_000, 200_000, 100_000]), 6_600),
        (half_shafts([100_000, 0, 300_000]), 600),
        (half_shafts([102_000, 150_500, 150_000]), 6_100),
    ] {
        let map = exact(&numbers);
        for speed_index in 0..2 {
            let check = |entry| map.check_entry(speed_index, 0, entry);
            assert_eq!(check(entry - 1), verdict(false, -1_000_000));
            assert_eq!(check(entry), verdict(true, 0));
            assert_eq!(check(entry + 1), verdict(true, 1_000_000));
            assert_eq!(check(entry + 2), verdict(false, 2_000_000));
        }
    }
}

#[test]
fn the_allowance_of_an_exact_entry() {
    // Losses 59.97, 60.00 and 60.03 Nm, and 10.00 Nm less the allowance: 3.00 Nm
    // twice, 1 Nm x 3.000, then 5 % of the loss, 3.0015 Nm; hence 67.0285 Nm.
    for (input, entry, excess) in [
        (101_999, 6_697, 0),
        (102_000, 6_700, 0),
        (102_001, 6_703, 150_000),
    ] {
        let map = exact(&calibrated(input));
        assert_eq!(map.check_entry(0, 0, entry), verdict(true, excess));
    }
}

#[test]
fn limits_of_answers() {
    // Exact entries 700 at 3,000 Nm and 60,000 at 6,000 Nm.
    let map = exact(&calibrated(100_000));
    assert_eq!(map.check_entry(0, 1, 60_000), verdict(true, 0));
    // At 4,500 Nm in the middle of the speeds: 30,350.
    let check = |answer| map.check_answer(1_500, 450_000, answer);
    assert_eq!(check(30_349), verdict(false, -1_000_000));
    assert_eq!(check(30_350), verdict(true, 0));
    assert_eq!(check(30_352), verdict(true, 2_000_000));
    assert_eq!(check(30_353), verdict(false, 3_000_000));
    // At the first torque the lower limit is still met without loss.
    assert!(!map.check_answer(1_000, 300_000, 699).holds);
    assert!(map.check_answer(1_000, 300_000, 700).holds);
    assert!(!map.check_answer(1_000, 300_000, 703).holds);
    // At 0 Nm: 2 x 700 - 60,000.
    let check = |answer| map.check_answer(2_000, 0, answer);
    assert_eq!(check(-58_602), verdict(false, -2_000_000));
    assert_eq!(check(-58_601), verdict(true, -1_000_000));
    assert_eq!(check(-58_596), verdict(true, 4_000_000));
    assert_eq!(check(-58_595), verdict(false, 5_000_000));
}

#[test]
fn far_answers_are_cut() {
    let map = exact(&calibrated(100_000));
    let check = |answer| map.check_answer(2_000, 0, answer);
    assert_eq!(check(i128::MAX), verdict(false, i64::MAX));
    assert_eq!(check(i128::MIN), verdict(false, -i64::MAX));
}

#[test]
fn standard_excess() {
    // 15,041 is above 13,000 + 200,000 / 98 by 18 / 98.
    let map = exact(&Numbers::standard(1, 3_000, &[100, 200], &[1_000, 2_000]));
    assert_eq!(map.check_entry(1, 0, 15_041), verdict(true, 183_674));
    assert_eq!(map.check_entry(1, 1, 17_082), verdict(true, 367_347));
    assert_eq!(map.check_entry(1, 1, 17_081), verdict(false, -632_653));
    assert_eq!(map.check_answer(1_234, 0, 13_000), verdict(true, 0));
}

#[test]
fn an_irrational_root() {
    // h is 10,000 grains: the root is 20,000 / root of 3 = 11,547.00538379...
    // grains, 15.4700538379... hundredths above 1 Nm x 1.000.
    let influenced = [1_000, 0, 0, 0, 1_000, 1_000, 1_000, 0, 10];
    let rows = [[0, 0], [1_000, 1_000]];
    let sensors = [influenced, quiet_sensor(100)];
    let numbers = Numbers::measured(1_000, &[0, 10], sensors, &rows);
    assert_eq!(numbers.build().unwrap().entries, [16; 4]);
    let map = exact(&numbers);
    assert_eq!(map.check_entry(0, 0, 15), verdict(false, -470_053));
    assert_eq!(map.check_entry(0, 0, 16), verdict(true, 529_947));
    assert_eq!(map.check_entry(0, 0, 17), verdict(true, 1_529_947));
    assert_eq!(map.check_entry(0, 0, 18), verdict(false, 2_529_947));
}

#[test]
fn each_part_has_its_factor() {
    // w, z and c in turn; the root in grains by hand, under a ratio of 2. The
    // excess of 0, rounded up, is 2.00 Nm, 1 Nm x 2.000, less the root.
    // a: 10,000 x 100 x 10,000 / (100,000 x 10) = 10,000, root 40,000 / r3.
    // b: 1,000 x 100 x 1,000 / (1,000 x 10) = 10,000, the same.
    // g: 1,000 x 1,000 x 10 / 1,000 = 10,000, root 40,000.
    let sensors = [
        ([1_000, 10_000, 0, 0, 1_000, 0, 0, 100, 10], 30_940_107),
        ([1_000, 0, 1_000, 0, 1_000, 0, 0, 100, 10], 30_940_107),
        ([1_000, 0, 0, 1_000, 1_000, 0, 0, 0, 10], 200_000_000),
    ];
    for (sensor, above) in sensors {
        // Input 100.00 Nm, output 200.00 Nm, no loss.
        let rows = [[10_000, 20_000], [20_000, 40_000]];
        let pair = [sensor, quiet_sensor(1_000)];
        let map = exact(&Numbers::measured(2_000, &[200, 400], pair, &rows));
        assert_eq!(-map.check_entry(0, 0, 0).excess_millionths, above);
        // The same sensor at the output, there without the ratio.
        let pair = [
            quiet_sensor(1_000),
            [sensor[0], 0, 0, 2_000, 1_000, 0, 0, 0, 10],
        ];
        let map = exact(&Numbers::measured(2_000, &[200, 400], pair, &rows));
        assert_eq!(map.check_entry(0, 0, 200), verdict(true, 0));
    }
}

#[test]
fn each_side_has_its_own_square() {
    // a is as many grains as the torque has hundredths: 30,000 at the left and
    // 10,000 at the right. The roots are 60,000, 20,000 and the root of
    // 4,000,000,000 over the root of 3, in grains: 34,641.016151...,
    // 11,547.005383... and 36,514.837167...
    let warm = [1_000, 10_000, 0, 0, 1_000, 0, 0, 100, 10];
    let quiet = quiet_sensor(1_000);
    let rows = [[40_000, 30_000, 10_000], [80_000, 0, 80_000]];
    for (left, right, entry, excess) in [
        (warm, quiet, 247, 589_839),
        (quiet, warm, 16, 529_947),
        (warm, warm, 266, 851_629),
    ] {
        let numbers = Numbers::measured(1_000, &[400, 800], [quiet, left, right], &rows);
        assert_eq!(numbers.build().unwrap().entries[0], entry);
        let map = exact(&numbers);
        assert_eq!(map.check_entry(1, 0, entry), verdict(true, excess));
        assert_eq!(
            map.check_entry(1, 0, entry - 1),
            verdict(false, excess - 1_000_000)
        );
    }
}

#[test]
fn a_wide_rounding() {
    // The exact value is near 1,306.264: well over a hundredth is rounding.
    let sensor = [4_474, 9_848, 54, 784, 7_444, 309, 325, 422, 18];
    let rows = [[2_432, 47_931], [5_000, 96_300]];
    let pair = [sensor, quiet_sensor(50_000)];
    let numbers = Numbers::measured(19_905, &[480, 963], pair, &rows);
    assert_eq!(numbers.build().unwrap().entries[0], 1_308);
    let map = exact(&numbers);
    assert_eq!(map.check_entry(0, 0, 1_308), verdict(true, 1_736_488));
    assert_eq!(map.check_entry(0, 0, 1_309), verdict(false, 2_736_488));
}

/// The least whole number above the exact value, and its excess, by the places
/// on the axes; found beforehand by decimal arithmetic of 60 digits and more.
fn expect_exact(numbers: &Numbers, expected: [(usize, usize, u32, i64); 5]) {
    let map = exact(numbers);
    for (speed_index, torque_index, entry, excess) in expected {
        let found = map.check_entry(speed_index, torque_index, entry);
        assert_eq!(found, verdict(true, excess));
    }
}

#[test]
fn all_parts_at_all_sensors() {
    expect_exact(
        &largest(2),
        [
            (0, 0, 3_511, 554_905),
            (0, 5, 3_823, 677_317),
            (0, 63, 16_441, 278_483),
            (20, 31, 34_104, 770_277),
            (31, 63, 55_903, 162_878),
        ],
    );
    expect_exact(
        &largest(3),
        [
            (0, 0, 4_529, 828_617),
            (0, 5, 4_815, 592_128),
            (0, 63, 16_783, 377_282),
            (20, 31, 34_690, 853_230),
            (31, 63, 56_243, 957_163),
        ],
    );
}

#[test]
fn the_largest_influences_of_all_sensors() {
    // No whole number on the way leaves its range: the largest parts have the
    // least k and R, the largest denominators the highest.
    for (k, r) in [(1_000, 10), (10_000, 100)] {
        let most = [50_000, 10_000, 10_000, 10_000, k, 10_000, 1_000, 500, r];
        let rows = [[5_000, 60_000, 40_000], [250_025, 2_500_000, 2_500_500]];
        let numbers = Numbers::measured(20_000, &[1_000, 50_000], [most; 3], &rows);
        let built = numbers.build().unwrap();
        let map = exact(&numbers);
        for (index, entry) in built.entries.iter().enumerate() {
            assert!(map.check_entry(index / 2, index % 2, *entry).holds);
        }
    }
}

/// Any valid axes, sensors and rows; the build may still say 9 or 10.
fn any_numbers(chance: &mut Chance) -> Numbers {
    let sensor = |chance: &mut Chance| {
        [
            chance.between(500, 50_000),
            chance.between(0, 10_000),
            chance.between(0, 10_000),
            chance.between(0, 10_000),
            chance.between(1_000, 10_000),
            chance.between(0, 10_000),
            chance.between(0, 1_000),
            chance.between(0, 500),
            chance.between(10, 100),
        ]
    };
    let first_speed = chance.between(1, 1_500);
    let first = chance.between(0, 100);
    let second = 2 * first + chance.between(1, 100);
    let torques = [first, second, second + chance.between(1, 200)];
    let ratio = chance.between(1_000, 20_000);
    let mut numbers = Numbers::standard(1, ratio, &[], &torques);
    numbers.line = u8::try_from(chance.between(1, 5)).unwrap();
    numbers.speeds = vec![first_speed, first_speed + chance.between(1, 1_500)];
    if chance.up_to(4) == 0 {
        return numbers;
    }
    let sensors = 2 + chance.up_to(1);
    numbers.sensors = (0..sensors).map(|_| sensor(chance)).collect();
    for torque in torques.repeat(2) {
        let output = 100 * u32::from(torque) + u32::from(chance.between(0, 500));
        let at_input = (output * 1_000).div_ceil(u32::from(ratio));
        let most = u64::from(5 * chance.between(1, 1_000));
        let input = at_input + u32::try_from(chance.up_to(most)).unwrap();
        let right = if sensors == 3 {
            u32::try_from(chance.up_to(u64::from(output))).unwrap()
        } else {
            0
        };
        let row = [input, output - right, right];
        numbers.rows.push(row[..numbers.sensors.len()].to_vec());
    }
    numbers
}

/// All entries of the map, and answers at chosen and at any points.
fn check_map(numbers: &Numbers, chance: &mut Chance) {
    let Ok(built) = numbers.build() else {
        return;
    };
    let (map, exact) = (lent(&built), exact(numbers));
    for (index, entry) in built.entries.iter().enumerate() {
        let count = built.torques.len();
        assert!(
            exact
                .check_entry(index / count, index % count, *entry)
                .holds
        );
    }
    let ends = |axis: &[u16]| (u32::from(axis[0]), u32::from(axis[axis.len() - 1]));
    let (first, last) = ends(&built.speeds);
    let (first_torque, last_torque) = ends(&built.torques);
    for torque in [0, first_torque, last_torque].map(|torque| 100 * torque) {
        for speed in [10 * first, 10 * last] {
            let answer = loss(&map, speed, torque).unwrap();
            assert!(exact.check_answer(speed, torque, answer).holds);
        }
    }
    for _ in 0..10 {
        let any = |chance: &mut Chance, most: u32| chance.up_to(u64::from(most)) as u32;
        let speed = 10 * first + any(chance, 10 * (last - first));
        let most = [100 * last_torque, 100 * first_torque][chance.up_to(1) as usize];
        let torque = any(chance, most);
        let answer = loss(&map, speed, torque).unwrap();
        assert!(exact.check_answer(speed, torque, answer).holds);
        assert!(!exact.check_answer(speed, torque, answer - 7).holds);
        assert!(!exact.check_answer(speed, torque, answer + 7).holds);
    }
}

#[test]
fn many_small_maps() {
    let mut chance = Chance(20_172_400);
    // By the number of sensors.
    let mut accepted = [0; 4];
    for _ in 0..3_000 {
        let numbers = any_numbers(&mut chance);
        accepted[numbers.sensors.len()] += usize::from(numbers.build().is_ok());
        check_map(&numbers, &mut chance);
    }
    let [standard, _, measured, sides] = accepted;
    assert!(
        standard > 500 && measured > 800 && sides > 800,
        "accepted of 3,000: {accepted:?}"
    );
}

#[test]
fn largest_maps_keep_their_limits() {
    let mut chance = Chance(1);
    for kind in 1..=3 {
        let numbers = largest(kind);
        assert!(numbers.build().is_ok());
        check_map(&numbers, &mut chance);
    }
}
