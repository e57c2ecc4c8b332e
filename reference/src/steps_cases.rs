//! Cases of request C-15: sensors and torques asked for their steps. Each number at its limits and beyond them, torques about 100 × N, sensors without some influences, parts that are just whole and just not, squares that are just enough and just not; and cases by chance.

use crate::cases::Case;
use crate::data::SENSOR_RANGES;
use crate::loss::Fraction;
use crate::random::Source;
use crate::refused_number_cases::Place;
use crate::remainders::least_factor;
use crate::steps::checked_steps;

/// Changes the seed: the draws for these cases are none of those for others.
const SEQUENCE: u64 = 0x9FB2_1C65_1E98_DF25;

/// The random numbers for one case.
fn source_of(seed: u64, number: u64) -> Source {
    Source::new(seed ^ SEQUENCE, number)
}

fn case(sensor: [u16; 9], torque: u32) -> Case {
    Case::Steps { sensor, torque }
}

/// The highest torque that a sensor with this N may have.
fn limit(nominal: u16) -> u32 {
    100 * u32::from(nominal)
}

/// A sensor's number with this index. The ranges are the same under each tag.
fn place(index: usize) -> Place {
    Place { tag: 6, index }
}

/// A case by chance; the number and the seed decide it.
pub fn by_chance(seed: u64, number: u64) -> Case {
    let source = &mut source_of(seed, number);
    let mut sensor = chance_sensor(source);
    let torque = chance_torque(source, sensor[0]);
    let wrong_numbers = match source.below(16) {
        0..=4 => 1,
        5 => 2,
        _ => 0,
    };
    for _ in 0..wrong_numbers {
        let index = source.index(sensor.len());
        sensor[index] = place(index).chance_outside(source);
    }
    case(sensor, torque)
}

/// Numbers within their ranges: all at an end, often near one, anywhere, twentieths of the highest, or low. Often one influence is 0.
fn chance_sensor(source: &mut Source) -> [u16; 9] {
    let way = source.below(6);
    let mut sensor = SENSOR_RANGES.map(|(lowest, highest)| {
        let (lowest, highest) = (u64::from(lowest), u64::from(highest));
        let number = match way {
            0 => source.one_of(&[lowest, highest]),
            1 | 2 => source.with_ends(lowest, highest),
            3 => source.between(lowest, highest),
            4 => highest / 20 * source.between(2, 20),
            _ => source.with_ends(lowest, lowest + (highest - lowest) / 20),
        };
        number as u16
    });
    if source.once_in(3) {
        sensor[source.one_of(&INFLUENCES)] = 0;
    }
    sensor
}

/// The numbers that may be 0.
const INFLUENCES: [usize; 6] = [1, 2, 3, 5, 6, 7];

/// A torque at an end, at the limit of the sensor, near it, above it, whole Nm, or any below it.
fn chance_torque(source: &mut Source, nominal: u16) -> u32 {
    let limit = limit(nominal);
    match source.below(12) {
        0 => 0,
        1 => 1,
        2 | 3 => limit,
        4 => limit - 1,
        5 | 6 => limit + 1,
        7 => source.between(u64::from(limit) + 1, u32::MAX.into()) as u32,
        8 => 100 * source.between(0, nominal.into()) as u32,
        _ => source.between(0, limit.into()) as u32,
    }
}

/// The cases that do not depend on chance alone.
pub fn systematic(seed: u64) -> Vec<Case> {
    let source = &mut source_of(seed, u64::MAX);
    let mut cases = numbers_at_ends();
    cases.extend(wrong_numbers());
    cases.extend(torques_about_limits());
    cases.extend(without_influences());
    for part in PARTS {
        cases.extend(just_whole(source, part));
    }
    cases.extend(squares_just_enough(source));
    cases
}

/// A sensor of a test bench. None of its steps is 0 at any torque above 0.
const SENSOR: [u16; 9] = [45_000, 183, 97, 211, 1_900, 947, 113, 143, 20];

fn with(sensor: [u16; 9], index: usize, number: u16) -> [u16; 9] {
    let mut changed = sensor;
    changed[index] = number;
    changed
}

/// Each number at both ends of its range, with no torque, with the highest and with one above it.
fn numbers_at_ends() -> Vec<Case> {
    let mut cases = Vec::new();
    for (index, (lowest, highest)) in SENSOR_RANGES.into_iter().enumerate() {
        for number in [lowest, highest] {
            let sensor = with(SENSOR, index, number);
            let limit = limit(sensor[0]);
            cases.extend([0, limit, limit + 1].map(|torque| case(sensor, torque)));
        }
    }
    cases
}

/// Each number outside its range, with a torque that is right and with two that are above N; and each with each later one.
fn wrong_numbers() -> Vec<Case> {
    let mut cases = Vec::new();
    let above = limit(SENSOR[0]) + 1;
    for index in 0..SENSOR.len() {
        for number in place(index).outside() {
            let sensor = with(SENSOR, index, number);
            cases.extend([0, above, u32::MAX].map(|torque| case(sensor, torque)));
        }
        let wrong = |index: usize| place(index).outside()[0];
        for later in index + 1..SENSOR.len() {
            let sensor = with(SENSOR, index, wrong(index));
            cases.push(case(with(sensor, later, wrong(later)), above));
        }
    }
    cases
}

/// N at its ends and between; 100 × 655 is within two bytes, 100 × 656 is not.
const NOMINALS: [u16; 12] = [
    1, 2, 3, 99, 100, 655, 656, 1_000, 32_767, 32_768, 49_999, 50_000,
];

/// For each N torques of 0 and 1, of N hundredths, about 100 × N, and above it; two of these are 100 × N in their last two or three bytes.
fn torques_about_limits() -> Vec<Case> {
    let mut cases = Vec::new();
    for nominal in NOMINALS {
        let limit = limit(nominal);
        let torques = [
            0,
            1,
            u32::from(nominal),
            limit - 1,
            limit,
            limit + 1,
            limit + (1 << 16),
            limit + (1 << 24),
            1 << 31,
            u32::MAX,
        ];
        let sensor = with(SENSOR, 0, nominal);
        cases.extend(torques.map(|torque| case(sensor, torque)));
    }
    cases
}

/// Each choice of the four influences w, z, c and s, all of them but with p or d 0, and no influence with each N; with no torque, the least and the highest.
fn without_influences() -> Vec<Case> {
    let mut sensors = Vec::new();
    for choice in 0..16 {
        let mut sensor = SENSOR;
        for (bit, index) in [1, 2, 3, 5].into_iter().enumerate() {
            if choice >> bit & 1 == 0 {
                sensor[index] = 0;
            }
        }
        sensors.push(sensor);
    }
    sensors.extend([6, 7].map(|index| with(SENSOR, index, 0)));
    let none = |nominal| [nominal, 0, 0, 0, 1_000, 0, 0, 0, 10];
    sensors.extend(NOMINALS.map(none));
    let at_torques = |sensor: [u16; 9]| [0, 1, limit(sensor[0])].map(|torque| case(sensor, torque));
    sensors.into_iter().flat_map(at_torques).collect()
}

/// The places of a, b, g and h among the steps.
const PARTS: [usize; 4] = [0, 1, 2, 3];

/// The part before it is rounded up.
fn unrounded(sensor: [u16; 9], torque: u32, part: usize) -> Option<Fraction> {
    let steps = checked_steps(sensor, torque).ok()?;
    Some(steps.unrounded[part])
}

/// Sensors by chance for which a part is whole, its numerator one above that, and one below.
fn just_whole(source: &mut Source, part: usize) -> Vec<Case> {
    const ROUNDS: usize = 8;
    let mut cases = Vec::new();
    for _ in 0..ROUNDS {
        cases.push(with_remainder(source, part, |_| 0));
        cases.push(with_remainder(source, part, |_| 1));
        cases.push(with_remainder(source, part, |denominator| denominator - 1));
    }
    cases
}

/// A case for which the division of a part leaves this.
fn with_remainder(source: &mut Source, part: usize, remainder: fn(u128) -> u128) -> Case {
    const MOST_DRAWS: usize = 10_000;
    let mut found = (0..MOST_DRAWS).filter_map(|_| chance_remainder(source, part, remainder));
    found.next().expect("a sensor with this remainder")
}

/// Such a case of a sensor by chance, if there is one: it has the torque that makes it for a, the N that makes it for the others.
fn chance_remainder(source: &mut Source, part: usize, remainder: fn(u128) -> u128) -> Option<Case> {
    let mut sensor = chance_sensor(source);
    let is_of_torque = part == 0;
    // The numerator is a multiple of what it is at a torque of 1, or with an N of 1.
    let unit = if is_of_torque {
        unrounded(sensor, 1, part)?
    } else {
        unrounded(with(sensor, 0, 1), 0, part)?
    };
    let denominator = unit.denominator;
    let least = least_factor(unit.numerator, denominator, remainder(denominator))?;
    // The same remainder comes again with each denominator more.
    let factor = least + denominator * u128::from(source.below(3));
    let torque = if is_of_torque {
        u32::try_from(factor).ok()?
    } else {
        sensor[0] = u16::try_from(factor).ok()?;
        source.between(0, limit(sensor[0]).into()) as u32
    };
    let found = unrounded(sensor, torque, part)?;
    (found.numerator > 0).then(|| case(sensor, torque))
}

/// A sensor and a torque with these parts: a, b, a tenth of g, and h, each at most 10,000.
fn case_of_parts([a, b, tens_of_g, h]: [u16; 4]) -> Case {
    case([10_000, a, b, tens_of_g, 10_000, h, 10, 1, 10], 1_000_000)
}

/// Where 3 U U is exactly what it must reach, and where 3 (U - 1)(U - 1) fails to reach it by one; then h one lower and one higher.
fn squares_just_enough(source: &mut Source) -> Vec<Case> {
    const ROUNDS: usize = 10;
    let mut all = Vec::new();
    for _ in 0..ROUNDS {
        // Three parts of 15 and 3 × 20 × 20: U is 50. Parts of 1, 5, 0 and 7: U is 10.
        let scale = source.between(1, 666) as u16;
        all.push([15 * scale, 15 * scale, 2 * scale, 15 * scale]);
        let scale = source.between(1, 1_428) as u16;
        all.push([scale, 5 * scale, 0, 7 * scale]);
    }
    for tens in 1..=5 {
        // With t for a: 4 × (3tt + 2t + 1 + t) is one above 3 × (2t + 1)(2t + 1).
        let a = 300 * tens * tens;
        all.push([a, a, tens, a + 1]);
    }
    let with_neighbours =
        |[a, b, tens_of_g, h]: [u16; 4]| [h, h - 1, h + 1].map(|h| [a, b, tens_of_g, h]);
    let all = all.into_iter().flat_map(with_neighbours);
    all.map(case_of_parts).collect()
}
