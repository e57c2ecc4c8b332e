//! Document 01, "Loss at a point and nearest point", with refusals 22, 20, 21; and
//! many questions to one map in one call, with refusal 11 between 22 and 20.

use crate::component::{first_torque_allowed, AxisRule, SPEED_RULE, TORQUE_RULE};
use crate::map::{entry_index, Map, LARGEST_ENTRY};
use crate::refusal::Refusal;
use std::fmt;

/// Query speed is in tenths of rpm, an axis speed in rpm.
const SPEED_UNIT: i128 = 10;
/// Query torque is in hundredths of Nm, an axis torque in Nm.
const TORQUE_UNIT: i128 = 100;

/// The places of an axis; only the first `count` mean something.
#[derive(Clone, PartialEq, Eq, Hash, Debug)]
pub struct Axis {
    pub numbers: Vec<u16>,
    pub count: usize,
}

impl Axis {
    /// These numbers, padded with zeros to the most that the rule allows.
    pub(crate) fn padded(numbers: &[u16], rule: &AxisRule) -> Axis {
        let mut places = numbers.to_vec();
        places.resize(*rule.count.end(), 0);
        Axis {
            numbers: places,
            count: numbers.len(),
        }
    }
}

/// What a caller lends as a map. Nothing is known of it until it is tested.
#[derive(Clone, PartialEq, Eq, Hash, Debug)]
pub struct LentMap {
    pub speeds: Axis,
    pub torques: Axis,
    pub entries: Vec<u32>,
}

impl LentMap {
    /// A built map's axes, padded with zeros to 32 and 64 places, over these
    /// entries.
    pub fn of(map: &Map, entries: Vec<u32>) -> LentMap {
        LentMap {
            speeds: Axis::padded(&map.speeds, &SPEED_RULE),
            torques: Axis::padded(&map.torques, &TORQUE_RULE),
            entries,
        }
    }
}

/// The axis's numbers, if they keep the rules of their tag.
fn tested_axis<'axis>(axis: &'axis Axis, rule: &AxisRule) -> Option<&'axis [u16]> {
    let numbers = axis.numbers.get(..axis.count)?;
    let keeps_rules = rule.count.contains(&axis.count)
        && numbers.iter().all(|number| rule.range.contains(number))
        && numbers.windows(2).all(|pair| pair[0] < pair[1]);
    keeps_rules.then_some(numbers)
}

/// Refusal 22 for the axes alone; the speeds and the torques that count.
pub fn test_axes(map: &LentMap) -> Result<(&[u16], &[u16]), Refusal> {
    let refusal = Refusal::at(22, 0);
    let speeds = tested_axis(&map.speeds, &SPEED_RULE).ok_or(refusal)?;
    let torques = tested_axis(&map.torques, &TORQUE_RULE).ok_or(refusal)?;
    if !first_torque_allowed(torques) {
        return Err(refusal);
    }
    Ok((speeds, torques))
}

/// A lent map that has passed 22: the numbers and entries that count.
pub struct TestedMap<'map> {
    pub speeds: &'map [u16],
    pub torques: &'map [u16],
    pub entries: &'map [u32],
}

/// Refusal 22 for the whole map.
pub fn test_map(map: &LentMap) -> Result<TestedMap<'_>, Refusal> {
    let refusal = Refusal::at(22, 0);
    let (speeds, torques) = test_axes(map)?;
    let entries = map
        .entries
        .get(..speeds.len() * torques.len())
        .ok_or(refusal)?;
    if entries.iter().any(|entry| *entry > LARGEST_ENTRY) {
        return Err(refusal);
    }
    Ok(TestedMap {
        speeds,
        torques,
        entries,
    })
}

/// A query number between two neighbours on its axis, in units of the query.
#[derive(Clone, Copy, PartialEq, Eq, Debug)]
pub struct Neighbours {
    /// The lower one's place on the axis; the upper one is the next.
    pub lower_index: usize,
    pub lower: i128,
    pub upper: i128,
    pub query: i128,
}

impl Neighbours {
    /// The last cell whose lower end is not above the number, or the first.
    fn of(axis: &[u16], unit: i128, query: i128) -> Neighbours {
        let last_cell = axis.len() - 2;
        let at = |index: usize| i128::from(axis[index]) * unit;
        let lower_index = (0..=last_cell)
            .rev()
            .find(|index| at(*index) <= query)
            .unwrap_or(0);
        Neighbours {
            lower_index,
            lower: at(lower_index),
            upper: at(lower_index + 1),
            query,
        }
    }

    pub fn step(&self) -> i128 {
        self.upper - self.lower
    }

    /// The shares of the lower and the upper one, times the step. The upper
    /// one's is negative below the axis.
    pub fn shares(&self) -> [i128; 2] {
        [self.upper - self.query, self.query - self.lower]
    }
}

/// A corner of a cell: its places on the axes, its shares times the steps, and
/// its entry in hundredths of Nm.
#[derive(Clone, Copy, PartialEq, Eq, Debug)]
pub struct Corner {
    pub speed_index: usize,
    pub torque_index: usize,
    pub speed_share: i128,
    pub torque_share: i128,
    pub entry: u32,
}

impl Corner {
    /// The weight, times both steps.
    pub fn weight(&self) -> i128 {
        self.speed_share * self.torque_share
    }

    pub fn weighted_entry(&self) -> i128 {
        self.weight() * i128::from(self.entry)
    }
}

/// The loss at a point with the numbers that lead to it.
#[derive(Clone, Copy, PartialEq, Eq, Debug)]
pub struct PointSteps {
    pub speed: Neighbours,
    pub torque: Neighbours,
    /// Both torques at the lower speed, then both at the upper.
    pub corners: [Corner; 4],
    /// The sum of the weighted entries, in hundredths of Nm.
    pub numerator: i128,
    pub denominator: i128,
}

impl PointSteps {
    /// The loss in hundredths of Nm.
    pub fn answer(&self) -> i128 {
        quotient_rounded_up(self.numerator, self.denominator)
    }
}

/// The four corners around a point. Linear in torque and then in speed is the
/// sum of their entries, each by its share in torque times its share in speed.
fn corners(map: &TestedMap, speed: &Neighbours, torque: &Neighbours) -> [Corner; 4] {
    [(0, 0), (0, 1), (1, 0), (1, 1)].map(|(upper_speed, upper_torque)| {
        let speed_index = speed.lower_index + upper_speed;
        let torque_index = torque.lower_index + upper_torque;
        Corner {
            speed_index,
            torque_index,
            speed_share: speed.shares()[upper_speed],
            torque_share: torque.shares()[upper_torque],
            entry: map.entries[entry_index(map.torques.len(), speed_index, torque_index)],
        }
    })
}

/// Refusals 20 and 21 of a query.
fn test_query(map: &TestedMap, speed: i128, torque: i128) -> Result<(), Refusal> {
    let first_speed = SPEED_UNIT * i128::from(map.speeds[0]);
    let last_speed = SPEED_UNIT * i128::from(map.speeds[map.speeds.len() - 1]);
    if speed < first_speed || speed > last_speed {
        return Err(Refusal::at(20, 0));
    }
    let last_torque = TORQUE_UNIT * i128::from(map.torques[map.torques.len() - 1]);
    if torque > last_torque {
        return Err(Refusal::at(21, 0));
    }
    Ok(())
}

/// The steps of the loss at a speed in tenths of rpm and a torque in hundredths
/// of Nm.
pub fn point_steps(map: &LentMap, speed: u32, torque: u32) -> Result<PointSteps, Refusal> {
    let map = test_map(map)?;
    let (speed, torque) = (i128::from(speed), i128::from(torque));
    test_query(&map, speed, torque)?;
    let speed = Neighbours::of(map.speeds, SPEED_UNIT, speed);
    let torque = Neighbours::of(map.torques, TORQUE_UNIT, torque);
    let corners = corners(&map, &speed, &torque);
    Ok(PointSteps {
        speed,
        torque,
        corners,
        numerator: corners.iter().map(Corner::weighted_entry).sum(),
        denominator: speed.step() * torque.step(),
    })
}

/// The loss in hundredths of Nm at a speed in tenths of rpm and a torque in
/// hundredths of Nm.
pub fn loss(map: &LentMap, speed: u32, torque: u32) -> Result<i128, Refusal> {
    point_steps(map, speed, torque).map(|steps| steps.answer())
}

/// A point whose loss is asked: speed in tenths of rpm, torque in hundredths of Nm.
#[derive(Clone, Copy, PartialEq, Eq, Hash, Debug)]
pub struct Question {
    pub speed: u32,
    pub torque: u32,
}

/// The refusal of many questions in one call.
#[derive(Clone, Copy, PartialEq, Eq, Debug)]
pub struct LossesRefusal {
    pub refusal: Refusal,
    /// Which question was refused, from 0: of 20 and 21 alone.
    pub point: Option<usize>,
}

/// A refusal of the whole call: 22 or 11.
impl From<Refusal> for LossesRefusal {
    fn from(refusal: Refusal) -> LossesRefusal {
        LossesRefusal {
            refusal,
            point: None,
        }
    }
}

/// The line of a stored answer, without its line feed.
impl fmt::Display for LossesRefusal {
    fn fmt(&self, f: &mut fmt::Formatter) -> fmt::Result {
        match self.point {
            Some(point) => write!(f, "{} point {point}", self.refusal),
            None => self.refusal.fmt(f),
        }
    }
}

/// The losses of many questions, in hundredths of Nm, in the first places of the
/// room and in the order of the questions; the answer is how many there are, and
/// what is past them is not touched. Refused with 22, then with 11 where the room
/// has fewer places than there are questions, then with the first 20 or 21 of the
/// questions in their order. A refusal writes nothing.
pub fn losses(
    map: &LentMap,
    questions: &[Question],
    room: &mut [i128],
) -> Result<usize, LossesRefusal> {
    test_map(map)?;
    let needed = questions.len();
    let answered = room.get_mut(..needed).ok_or(Refusal::at(11, needed))?;
    let losses: Vec<i128> = questions
        .iter()
        .enumerate()
        .map(|(index, question)| loss_of(map, question, index))
        .collect::<Result<_, _>>()?;
    answered.copy_from_slice(&losses);
    Ok(needed)
}

/// The loss that a single question gives, refused with its index among others.
fn loss_of(map: &LentMap, question: &Question, index: usize) -> Result<i128, LossesRefusal> {
    loss(map, question.speed, question.torque).map_err(|refusal| LossesRefusal {
        refusal,
        point: Some(index),
    })
}

/// A negative quotient comes nearer to zero; the denominator is above zero.
fn quotient_rounded_up(numerator: i128, denominator: i128) -> i128 {
    -(-numerator).div_euclid(denominator)
}

/// The nearest speed and the nearest torque of the axes, for any query.
pub fn nearest(map: &LentMap, speed: u32, torque: u32) -> Result<(u16, u16), Refusal> {
    let (speeds, torques) = test_axes(map)?;
    Ok((
        nearest_number(speeds, SPEED_UNIT, speed),
        nearest_number(torques, TORQUE_UNIT, torque),
    ))
}

fn nearest_number(axis: &[u16], unit: i128, number: u32) -> u16 {
    // Of two equally near, `min_by_key` gives the first, so the lower.
    *axis
        .iter()
        .min_by_key(|candidate| (i128::from(**candidate) * unit).abs_diff(i128::from(number)))
        .expect("a tested axis has two numbers or more")
}
