//! The trace of the loss at a point: document 01, "Loss at a point", with the numbers put in.

use super::Lines;
use crate::listing::{self, MOST_ENTRIES};
use crate::lookup::{self, Corner, LentMap, Neighbours, PointSteps};
use crate::map::{self, entry_index, Map};
use crate::numerals::{decimal, grouped, signed};
use crate::refusal::Refusal;

/// An axis as a text names it: its unit, and how many digits of a query stand after the point.
struct Scale {
    unit: &'static str,
    digits: u32,
}

const SPEED: Scale = Scale {
    unit: "rpm",
    digits: 1,
};
const TORQUE: Scale = Scale {
    unit: "Nm",
    digits: 2,
};

/// The trace of the loss at a speed in tenths of rpm and a torque in hundredths of Nm.
pub fn point(data: &[u8], speed: u32, torque: u32) -> Result<String, Refusal> {
    let map = map::build(data, MOST_ENTRIES)?;
    let lent = LentMap::of(&map, map.entries.clone());
    let steps = lookup::point_steps(&lent, speed, torque)?;
    let mut lines = Lines::new();
    let speed_text = SPEED.query(speed.into());
    let torque_text = TORQUE.query(torque.into());
    lines.add("point", format!("{speed_text} rpm, {torque_text} Nm"));
    add_neighbours(&mut lines, "speeds", &SPEED, &map.speeds, &steps.speed);
    add_neighbours(&mut lines, "torques", &TORQUE, &map.torques, &steps.torque);
    add_below_first(&mut lines, &map, &steps);
    for corner in &steps.corners {
        add_corner(&mut lines, &map, corner);
    }
    add_shares(&mut lines, &SPEED, &map.speeds, &steps.speed);
    add_shares(&mut lines, &TORQUE, &map.torques, &steps.torque);
    for corner in &steps.corners {
        add_weight(&mut lines, &map, &steps, corner);
    }
    for corner in &steps.corners {
        add_weighted_entry(&mut lines, &map, corner);
    }
    add_answer(&mut lines, &steps);
    Ok(lines.text)
}

impl Scale {
    /// A query's number in its own unit.
    fn query(&self, number: i128) -> String {
        signed(number, |size| decimal(size, self.digits))
    }

    /// A number of the axis with its unit.
    fn number(&self, number: u16) -> String {
        format!("{} {}", grouped(number.into()), self.unit)
    }
}

fn whole(number: i128) -> String {
    signed(number, grouped)
}

fn add_neighbours(
    lines: &mut Lines,
    name: &str,
    scale: &Scale,
    axis: &[u16],
    neighbours: &Neighbours,
) {
    let (lower, upper) = (neighbours.lower_index, neighbours.lower_index + 1);
    let numbers = format!(
        "{} and {}",
        scale.number(axis[lower]),
        scale.number(axis[upper])
    );
    let places = format!(
        "numbers {lower} and {upper} of {} counted from 0",
        axis.len()
    );
    lines.add(name, format!("{numbers}, {places}"));
}

/// Where the point is below the first torque: that it is, and whose weights are negative.
fn add_below_first(lines: &mut Lines, map: &Map, steps: &PointSteps) {
    let [_, upper_share] = steps.torque.shares();
    if upper_share >= 0 {
        return;
    }
    let query = TORQUE.query(steps.torque.query);
    let [first, second] = [0, 1].map(|index| TORQUE.number(map.torques[index]));
    let line = format!("the line from {second} to {first} goes on");
    lines.add(
        "continued",
        format!("{query} Nm is below the first torque: {line}"),
    );
    let weights = "its weights are under zero, or 0";
    lines.add(
        "negative",
        format!("the share of {second} is under zero, {weights}"),
    );
}

/// The grid point of a corner.
fn grid_point(map: &Map, corner: &Corner) -> String {
    let speed = SPEED.number(map.speeds[corner.speed_index]);
    let torque = TORQUE.number(map.torques[corner.torque_index]);
    format!("{speed}, {torque}")
}

fn add_corner(lines: &mut Lines, map: &Map, corner: &Corner) {
    let Corner {
        speed_index,
        torque_index,
        entry,
        ..
    } = *corner;
    let index = entry_index(map.torques.len(), speed_index, torque_index);
    let line = listing::line(map.speeds[speed_index], map.torques[torque_index], entry);
    let number = grouped(listing::line_number(index) as u128);
    let (point, entry) = (grid_point(map, corner), grouped(entry.into()));
    lines.add(
        "entry",
        format!("{point}: {entry} hundredths, line {number} of the listing: {line}"),
    );
}

fn add_shares(lines: &mut Lines, scale: &Scale, axis: &[u16], neighbours: &Neighbours) {
    let [lower, upper, query] =
        [neighbours.lower, neighbours.upper, neighbours.query].map(|number| scale.query(number));
    let ends = [format!("{upper} - {query}"), format!("{query} - {lower}")];
    let step = whole(neighbours.step());
    for (index, end) in ends.into_iter().enumerate() {
        let number = scale.number(axis[neighbours.lower_index + index]);
        let share = whole(neighbours.shares()[index]);
        lines.add(
            "share",
            format!("{number}: ({end}) / ({upper} - {lower}) = {share} / {step}"),
        );
    }
}

fn add_weight(lines: &mut Lines, map: &Map, steps: &PointSteps, corner: &Corner) {
    let (speed_share, torque_share) = (whole(corner.speed_share), whole(corner.torque_share));
    let (speed_step, torque_step) = (whole(steps.speed.step()), whole(steps.torque.step()));
    let shares = format!("{speed_share} / {speed_step} × {torque_share} / {torque_step}");
    let (weight, denominator) = (whole(corner.weight()), whole(steps.denominator));
    let point = grid_point(map, corner);
    let step = format!("{point}: {shares} = {weight} / {denominator}");
    lines.add("weight", step);
}

fn add_weighted_entry(lines: &mut Lines, map: &Map, corner: &Corner) {
    let (weight, entry) = (whole(corner.weight()), grouped(corner.entry.into()));
    let product = whole(corner.weighted_entry());
    let point = grid_point(map, corner);
    let step = format!("{point}: {weight} × {entry} = {product}");
    lines.add("weight × entry", step);
}

fn add_answer(lines: &mut Lines, steps: &PointSteps) {
    let (numerator, denominator) = (whole(steps.numerator), whole(steps.denominator));
    lines.add(
        "weighted sum",
        format!("{numerator} / {denominator}, the four together"),
    );
    let answer = steps.answer();
    let in_nm = signed(answer, |size| decimal(size, 2));
    let answer = whole(answer);
    lines.add(
        "answer",
        format!("{answer} hundredths, rounded up once, = {in_nm} Nm"),
    );
}
