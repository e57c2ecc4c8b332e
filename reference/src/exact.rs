//! Document 01, "Accuracy over whole numbers", over three kinds (request C-11) and
//! with the allowance of document 02, C-13: exact entries, exact losses at points,
//! and the check of the limits of demand 3.
//!
//! All exact entries of one component stand over one denominator. A root that
//! is not a whole number over it is held between two neighbouring ones.

use crate::component::{Component, Kind, Measured, Row, Sensor};
use crate::loss;
use crate::wide::Wide;
use std::cmp::Ordering;
use std::iter;

/// What is found of one entry or answer z against its exact value S.
#[derive(Clone, Copy, PartialEq, Eq, Debug)]
pub struct Verdict {
    /// The limits are kept.
    pub holds: bool,
    /// The bracket is too wide to tell; then `holds` is false.
    pub undecided: bool,
    /// z - S in millionths of a hundredth of Nm, rounded up, S being the lower
    /// end of its bracket. Cut to the range of its type.
    pub excess_millionths: i64,
}

/// An exact entry in ten-millionths of a hundredth of Nm, rounded down and
/// rounded up; equal when it is a whole number of them.
#[derive(Clone, Copy, PartialEq, Eq, Debug)]
pub struct Bounds {
    pub low: i64,
    pub high: i64,
}

/// How many parts of a hundredth of Nm the bounds are whole in.
const BOUND_PARTS: u128 = 10_000_000;

/// Limits of z - S in hundredths of Nm; the upper one is never reached.
struct Limits {
    lower: i128,
    lower_may_be_reached: bool,
    upper: i128,
}

const ENTRY_LIMITS: Limits = Limits {
    lower: 0,
    lower_may_be_reached: true,
    upper: 2,
};
const ANSWER_LIMITS: Limits = Limits {
    lower: 0,
    lower_may_be_reached: true,
    upper: 3,
};
const BELOW_FIRST_TORQUE_LIMITS: Limits = Limits {
    lower: -2,
    lower_may_be_reached: false,
    upper: 5,
};

/// Makes the brackets narrow: over the least denominator that sensors give,
/// 3 x 10^23, they are less than 10^-40 hundredths wide.
const REFINEMENT: u128 = 1_000_000_000_000_000_000;

/// Numerators around an exact entry; equal when it is known exactly.
#[derive(Clone, Copy)]
struct Bracket {
    low: Wide,
    high: Wide,
}

/// The exact entries of a component, in hundredths of Nm.
pub struct ExactMap {
    speeds: Vec<u16>,
    torques: Vec<u16>,
    denominator: Wide,
    entries: Vec<Bracket>,
}

impl ExactMap {
    /// The component must be one that the build accepts.
    pub fn new(component: &Component) -> ExactMap {
        let (denominator, entries) = match &component.kind {
            Kind::Standard => standard_entries(component),
            Kind::Measured(measured) => measured_entries(component.ratio, measured),
        };
        ExactMap {
            speeds: component.speeds.clone(),
            torques: component.torques.clone(),
            denominator,
            entries,
        }
    }

    /// Does the entry keep its limits?
    pub fn check_entry(&self, speed_index: usize, torque_index: usize, entry: u32) -> Verdict {
        let mut sum = WeightedSum::over(self.denominator);
        sum.add(1, &self.entry(speed_index, torque_index));
        sum.verdict(i128::from(entry), &ENTRY_LIMITS)
    }

    /// The whole numbers around an exact entry.
    pub fn entry_bounds(&self, speed_index: usize, torque_index: usize) -> Bounds {
        let entry = self.entry(speed_index, torque_index);
        Bounds {
            low: quotient(entry.low * BOUND_PARTS, self.denominator),
            high: quotient_rounded_up(entry.high * BOUND_PARTS, self.denominator),
        }
    }

    /// Does the answer keep its limits? The query must lie within the map's.
    pub fn check_answer(&self, speed: u32, torque: u32, answer: i128) -> Verdict {
        let speed = Shares::of(&self.speeds, 10, speed);
        let torque = Shares::of(&self.torques, 100, torque);
        assert!(speed.lower >= 0 && speed.upper >= 0 && torque.lower >= 0);
        let step = u128::try_from(speed.step() * torque.step()).expect("an axis rises");
        let mut sum = WeightedSum::over(self.denominator * step);
        for (speed_index, speed_share) in speed.corners() {
            for (torque_index, torque_share) in torque.corners() {
                let corner = self.entry(speed_index, torque_index);
                sum.add(speed_share * torque_share, &corner);
            }
        }
        let below_first_torque = torque.upper < 0;
        let limits = if below_first_torque {
            &BELOW_FIRST_TORQUE_LIMITS
        } else {
            &ANSWER_LIMITS
        };
        sum.verdict(answer, limits)
    }

    fn entry(&self, speed_index: usize, torque_index: usize) -> Bracket {
        self.entries[speed_index * self.torques.len() + torque_index]
    }
}

/// The shares of a point's two neighbours on one axis, times their distance.
struct Shares {
    lower_index: usize,
    lower: i128,
    upper: i128,
}

impl Shares {
    /// The first cell that reaches the point; on a grid line the next one would
    /// do as well. Below the axis it is the first cell, continued.
    fn of(axis: &[u16], unit: i128, point: u32) -> Shares {
        let point = i128::from(point);
        let position = |index: usize| unit * i128::from(axis[index]);
        let lower_index = (0..axis.len() - 1)
            .find(|index| point <= position(index + 1))
            .expect("the query lies within the map's limits");
        Shares {
            lower_index,
            lower: position(lower_index + 1) - point,
            upper: point - position(lower_index),
        }
    }

    fn step(&self) -> i128 {
        self.lower + self.upper
    }

    fn corners(&self) -> [(usize, i128); 2] {
        [
            (self.lower_index, self.lower),
            (self.lower_index + 1, self.upper),
        ]
    }
}

/// A difference of two numerators, so that it may be under zero.
#[derive(Clone, Copy)]
struct Difference {
    plus: Wide,
    minus: Wide,
}

impl Difference {
    const ZERO: Difference = Difference {
        plus: Wide::ZERO,
        minus: Wide::ZERO,
    };

    fn add(&mut self, weight: i128, numerator: Wide) {
        let product = numerator * weight.unsigned_abs();
        if weight >= 0 {
            self.plus = self.plus + product;
        } else {
            self.minus = self.minus + product;
        }
    }

    /// The number taken from `whole`, both over the denominator.
    fn taken_from(&self, whole: i128, denominator: Wide) -> Difference {
        let mut rest = Difference {
            plus: self.minus,
            minus: self.plus,
        };
        rest.add(whole, denominator);
        rest
    }

    fn compare_to_zero(&self) -> Ordering {
        self.plus.cmp(&self.minus)
    }
}

/// A sum of brackets over a denominator, held between its two ends.
struct WeightedSum {
    denominator: Wide,
    low: Difference,
    high: Difference,
}

impl WeightedSum {
    fn over(denominator: Wide) -> WeightedSum {
        WeightedSum {
            denominator,
            low: Difference::ZERO,
            high: Difference::ZERO,
        }
    }

    /// A negative weight turns the sides of the bracket.
    fn add(&mut self, weight: i128, bracket: &Bracket) {
        let (to_low, to_high) = if weight >= 0 {
            (bracket.low, bracket.high)
        } else {
            (bracket.high, bracket.low)
        };
        self.low.add(weight, to_low);
        self.high.add(weight, to_high);
    }

    /// How the number stands to the sum's lower end and to its upper end.
    fn compare(&self, number: i128) -> (Ordering, Ordering) {
        let side = |end: &Difference| end.taken_from(number, self.denominator).compare_to_zero();
        (side(&self.low), side(&self.high))
    }

    fn verdict(&self, answer: i128, limits: &Limits) -> Verdict {
        // answer >= S + limit is the same as answer - limit >= S.
        let (to_low, to_high) = self.compare(answer.saturating_sub(limits.lower));
        let (lower_holds, lower_broken) = if limits.lower_may_be_reached {
            (to_high.is_ge(), to_low.is_lt())
        } else {
            (to_high.is_gt(), to_low.is_le())
        };
        let (to_low, to_high) = self.compare(answer.saturating_sub(limits.upper));
        let (upper_holds, upper_broken) = (to_low.is_lt(), to_high.is_ge());
        let holds = lower_holds && upper_holds;
        Verdict {
            holds,
            undecided: !holds && !lower_broken && !upper_broken,
            excess_millionths: self.excess_millionths(answer),
        }
    }

    fn excess_millionths(&self, answer: i128) -> i64 {
        let excess = self.low.taken_from(answer, self.denominator);
        if excess.compare_to_zero().is_lt() {
            let magnitude = (excess.minus - excess.plus) * 1_000_000;
            return -quotient(magnitude, self.denominator);
        }
        let magnitude = (excess.plus - excess.minus) * 1_000_000;
        quotient_rounded_up(magnitude, self.denominator)
    }
}

/// The whole quotient, rounded down, by halving the interval it lies in; at
/// most the largest number of its type.
fn quotient(numerator: Wide, denominator: Wide) -> i64 {
    let (mut reached, mut too_many) = (0_u128, 1_u128 << 63);
    while too_many - reached > 1 {
        let middle = (reached + too_many) / 2;
        if denominator * middle <= numerator {
            reached = middle;
        } else {
            too_many = middle;
        }
    }
    i64::try_from(reached).expect("the interval ends at the type's largest number")
}

/// The same rounded up: one more than the quotient of the number just under it.
fn quotient_rounded_up(numerator: Wide, denominator: Wide) -> i64 {
    if numerator == Wide::ZERO {
        return 0;
    }
    quotient(numerator - Wide::from(1), denominator).saturating_add(1)
}

/// Kind 1: the standard losses, the same at every speed.
fn standard_entries(component: &Component) -> (Wide, Vec<Bracket>) {
    let fraction = |torque: u16| loss::standard_loss(component.line, component.ratio, torque);
    let denominator = fraction(component.torques[0]).denominator;
    let row: Vec<Bracket> = component
        .torques
        .iter()
        .map(|torque| Wide::from(fraction(*torque).numerator))
        .map(|numerator| Bracket {
            low: numerator,
            high: numerator,
        })
        .collect();
    (Wide::from(denominator), row.repeat(component.speeds.len()))
}

/// Kinds 2 and 3. A root in grains, over 1,000 x all sensors' denominators, is
/// the root of 4/3 T with T whole: the root of 12 T over three times as much. A
/// hundredth of Nm is a hundred grains, hence 300.
fn measured_entries(ratio: u16, measured: &Measured) -> (Wide, Vec<Bracket>) {
    let sensors = sensors_of(measured);
    let root_denominator = denominators(&sensors) * 1_000 * 300 * REFINEMENT;
    let scaled = scaled_sensors(ratio, &sensors);
    let entries = measured
        .rows
        .iter()
        .map(|row| {
            let torques = iter::once(&row.input).chain(&row.outputs);
            let total = scaled
                .iter()
                .zip(torques)
                .map(|(scaled, torque)| scaled.square(*torque))
                .fold(Wide::ZERO, |sum, square| sum + square);
            let root = root_bracket(total * 12 * REFINEMENT * REFINEMENT);
            measured_entry(ratio, row, root_denominator, &root)
        })
        .collect();
    (root_denominator * 20_000, entries)
}

/// A sensor, and what brings its square to the denominator that all share.
struct ScaledSensor<'data> {
    sensor: &'data Sensor,
    factor: Wide,
}

impl ScaledSensor<'_> {
    fn square(&self, torque: u32) -> Wide {
        sensor_square(self.sensor, torque) * self.factor
    }
}

/// The input sensor, then the output sensors.
fn sensors_of(measured: &Measured) -> Vec<&Sensor> {
    iter::once(&measured.input)
        .chain(&measured.outputs)
        .collect()
}

/// Each sensor with the others' denominators and its thousandths at the wheel,
/// all squared. The ratio brings the first one, the input sensor, to the wheel.
fn scaled_sensors<'data>(ratio: u16, sensors: &[&'data Sensor]) -> Vec<ScaledSensor<'data>> {
    let mut scaled = Vec::new();
    for (place, sensor) in sensors.iter().enumerate() {
        let at_wheel = if place == 0 { u128::from(ratio) } else { 1_000 };
        let others = denominators(&sensors[..place]) * denominators(&sensors[place + 1..]);
        let thousandths = others * at_wheel;
        scaled.push(ScaledSensor {
            sensor,
            factor: thousandths * thousandths,
        });
    }
    scaled
}

/// The sensors' denominators, one times the other.
fn denominators(sensors: &[&Sensor]) -> Wide {
    let one_by_one = sensors.iter().map(|sensor| sensor_denominator(sensor));
    one_by_one.fold(Wide::from(1), |product, denominator| product * denominator)
}

/// Loss and the part of the root above the allowance, over 20,000 times the
/// root's denominator, because loss and allowance come in those parts.
fn measured_entry(ratio: u16, row: &Row, root_denominator: Wide, root: &Bracket) -> Bracket {
    let loss = loss::measured_loss(ratio, row).expect("the build accepts the component");
    let allowance = root_denominator * loss::allowance(ratio, loss);
    let entry = |root: Wide| {
        let above_allowance = (root * 20_000).max(allowance) - allowance;
        root_denominator * (20 * loss) + above_allowance
    };
    Bracket {
        low: entry(root.low),
        high: entry(root.high),
    }
}

/// A sensor's a, b, g and h in grains are whole over this.
fn sensor_denominator(sensor: &Sensor) -> u128 {
    100_000 * u128::from(sensor.span) * u128::from(sensor.advancement)
}

/// aa + bb + 3gg + hh, unrounded, over the square of the sensor's denominator.
fn sensor_square(sensor: &Sensor, torque: u32) -> Wide {
    let torque = u128::from(torque);
    let nominal = u128::from(sensor.nominal);
    let difference = u128::from(sensor.difference);
    let span = u128::from(sensor.span);
    let advancement = u128::from(sensor.advancement);
    let square = |part: u128| Wide::from(part) * part;
    let a = u128::from(sensor.sensitivity) * difference * torque * advancement;
    let b = u128::from(sensor.zero) * difference * nominal * 100 * advancement;
    let g = u128::from(sensor.calibration) * nominal * 10 * 100_000 * span;
    let h = u128::from(sensor.parasitic) * u128::from(sensor.share) * nominal * span * advancement;
    square(a) + square(b) + square(g) * 3 + square(h)
}

/// The root of a whole number between whole numbers.
fn root_bracket(square: Wide) -> Bracket {
    let low = square.square_root();
    let high = if low * low == square {
        low
    } else {
        low + Wide::from(1)
    };
    Bracket { low, high }
}
