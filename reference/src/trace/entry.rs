//! The trace of one entry: document 01, "Standard loss" or "Measured loss" with the allowance of document 02, C-13, with the numbers put in.

use super::{Lines, NoTrace};
use crate::component::{self, output_place, Component, Kind, Measured, Row, Sensor};
use crate::listing::{self, MOST_ENTRIES};
use crate::loss::{self, Fraction, MeasuredSteps, SensorSteps};
use crate::map::{self, entry_index};
use crate::numerals::{decimal, grouped, hexadecimal};

/// What is followed: accepted data, and a point of its grid by its places on the axes.
struct Traced<'data> {
    data: &'data [u8],
    component: &'data Component,
    speed_index: usize,
    torque_index: usize,
}

/// A sensor as the lines name it.
struct Side {
    /// The first word of its lines.
    label: &'static str,
    name: &'static str,
    tag: u8,
    /// What its part of the loss uncertainty is called.
    part: &'static str,
}

const fn side(label: &'static str, name: &'static str, tag: u8, part: &'static str) -> Side {
    Side {
        label,
        name,
        tag,
        part,
    }
}

const INPUT: Side = side("input", "input", 6, "V");

/// A measured kind as the lines name it, with its output sensors.
struct MeasuredKind {
    name: &'static str,
    outputs: &'static [Side],
}

const ONE_OUTPUT: MeasuredKind = MeasuredKind {
    name: "measured",
    outputs: &[side("output", "output", 7, "W")],
};
const LEFT_AND_RIGHT: MeasuredKind = MeasuredKind {
    name: "measured, left and right",
    outputs: &[
        side("left", "left output", 7, "W"),
        side("right", "right output", 9, "W'"),
    ],
};

impl MeasuredKind {
    fn of(measured: &Measured) -> &'static MeasuredKind {
        if measured.outputs.len() == 1 {
            &ONE_OUTPUT
        } else {
            &LEFT_AND_RIGHT
        }
    }
}

/// The trace of the entry at a speed and a torque of the axes, in rpm and Nm.
pub fn entry(data: &[u8], speed: u32, torque: u32) -> Result<String, NoTrace> {
    // Only the build tests the rows.
    map::build(data, MOST_ENTRIES)?;
    let component = component::read(data)?;
    let traced = Traced {
        data,
        component: &component,
        speed_index: place("speed", "rpm", &component.speeds, speed)?,
        torque_index: place("torque", "Nm", &component.torques, torque)?,
    };
    let mut lines = Lines::new();
    traced.add_grid_point(&mut lines);
    let entry = match &component.kind {
        Kind::Standard => traced.add_standard(&mut lines),
        Kind::Measured(measured) => {
            let row = &measured.rows[traced.index()];
            traced.add_row(&mut lines, measured, row);
            traced.add_measured(&mut lines, measured, row)
        }
    };
    traced.add_entry(&mut lines, entry);
    Ok(lines.text)
}

/// The place of a number on an axis.
fn place(name: &str, unit: &str, axis: &[u16], number: u32) -> Result<usize, NoTrace> {
    let found = axis
        .iter()
        .position(|on_axis| u32::from(*on_axis) == number);
    found.ok_or_else(|| {
        let numbers: Vec<String> = axis.iter().map(u16::to_string).collect();
        let numbers = numbers.join(" ");
        NoTrace::NotOnGrid(format!(
            "{number} {unit} is no {name} of the map, which has {numbers}"
        ))
    })
}

impl Traced<'_> {
    /// The place of the entry, and of its row.
    fn index(&self) -> usize {
        let torque_count = self.component.torques.len();
        entry_index(torque_count, self.speed_index, self.torque_index)
    }

    /// The bytes of the data from a place on, with the place.
    fn bytes(&self, place: usize, length: usize) -> String {
        let bytes = hexadecimal(&self.data[place..place + length]);
        format!("at byte {}: {bytes}", count(place))
    }

    /// Where a field's body starts in the data.
    fn body(&self, tag: u8) -> usize {
        component::body_start(self.data, tag).expect("accepted data has the fields of its kind")
    }

    fn add_grid_point(&self, lines: &mut Lines) {
        let kind = &self.component.kind;
        let what = match kind {
            Kind::Standard => "standard",
            Kind::Measured(measured) => MeasuredKind::of(measured).name,
        };
        let bytes = count(self.data.len());
        let data = format!("{bytes} bytes, kind {}, {what}", kind.number());
        lines.add("data", data);
        let ratio = self.bytes(self.body(3), 2);
        lines.add("ratio", format!("{}, {ratio}", self.ratio()));
        for (name, unit, tag, axis, index) in [
            ("speed", "rpm", 4, &self.component.speeds, self.speed_index),
            (
                "torque",
                "Nm",
                5,
                &self.component.torques,
                self.torque_index,
            ),
        ] {
            let number = grouped(axis[index].into());
            let bytes = self.bytes(self.body(tag) + 2 * index, 2);
            let of = format!("number {index} of {} counted from 0", axis.len());
            let step = format!("{number} {unit}, {of}, {bytes}");
            lines.add(name, step);
        }
    }

    fn ratio(&self) -> String {
        decimal(self.component.ratio.into(), 3)
    }

    fn add_standard(&self, lines: &mut Lines) -> u128 {
        let Component { line, ratio, .. } = *self.component;
        let numbers = loss::line_of(line);
        let torque = self.component.torques[self.torque_index];
        let exact = loss::standard_loss(line, ratio, torque);
        let bytes = self.bytes(self.body(2), 1);
        lines.add("line", format!("{line}, {}, {bytes}", numbers.name));
        let efficiency = numbers.efficiency;
        let (constant, per_ratio) = (numbers.drag_constant, numbers.drag_per_ratio);
        lines.add("e", format!("{efficiency} %"));
        lines.add("T0", format!("{constant} Nm"));
        lines.add("T1", format!("{per_ratio} Nm"));
        let ratio = self.ratio();
        let torque = grouped(torque.into());
        let at_torque = format!("{torque} × (100 - {efficiency}) / {efficiency}");
        let sum = format!("{constant} + {per_ratio} × {ratio} + {at_torque} Nm");
        lines.add("exact loss", format!("{sum} = {} hundredths", over(exact)));
        exact.rounded_up()
    }

    fn add_row(&self, lines: &mut Lines, measured: &Measured, row: &Row) {
        let (speed_index, torque_index) = (self.speed_index, self.torque_index);
        let torque_count = self.component.torques.len();
        let index = self.index();
        let place = measured.row_place(index);
        let length = measured.row_length();
        let index = count(index);
        let number = format!("{index} = {speed_index} × {torque_count} + {torque_index}");
        let start = format!("{} + {length} × {index}", count(measured.rows_start));
        let bytes = hexadecimal(&self.data[place..place + length]);
        let place_text = format!("at byte {start} = {}", count(place));
        lines.add(
            "row",
            format!("{number} counted from 0, {place_text}: {bytes}"),
        );
        self.add_torque(lines, "input", row.input, place);
        let outputs = MeasuredKind::of(measured).outputs;
        for (index, (output, torque)) in outputs.iter().zip(&row.outputs).enumerate() {
            self.add_torque(lines, output.label, *torque, output_place(place, index));
        }
        if outputs.len() > 1 {
            add_output_sum(lines, row);
        }
    }

    /// A torque of the row.
    fn add_torque(&self, lines: &mut Lines, label: &str, torque: u32, place: usize) {
        let torque = torque.into();
        let (hundredths, whole) = (grouped(torque), decimal(torque, 2));
        let bytes = self.bytes(place, 4);
        lines.add(
            &format!("{label} torque"),
            format!("{hundredths} hundredths = {whole} Nm, {bytes}"),
        );
    }

    fn add_measured(&self, lines: &mut Lines, measured: &Measured, row: &Row) -> u128 {
        let steps = loss::measured_steps(self.component.ratio, measured, row)
            .expect("an accepted row has no loss under zero");
        self.add_sensor(lines, &INPUT, &measured.input, row.input, &steps.input);
        for (index, output) in MeasuredKind::of(measured).outputs.iter().enumerate() {
            let (sensor, torque) = (&measured.outputs[index], row.outputs[index]);
            self.add_sensor(lines, output, sensor, torque, &steps.outputs[index]);
        }
        self.add_loss_uncertainty(lines, measured, &steps);
        self.add_measured_loss(lines, row, &steps);
        add_allowance(lines, &steps);
        add_sum(lines, &steps);
        steps.entry.rounded_up()
    }

    /// A sensor with its torque, up to U.
    fn add_sensor(
        &self,
        lines: &mut Lines,
        side: &Side,
        sensor: &Sensor,
        torque: u32,
        steps: &SensorSteps,
    ) {
        self.add_numbers(lines, side, sensor);
        let torque = grouped(torque.into());
        let name = side.name;
        lines.add("C", format!("{torque} hundredths, the {name} torque"));
        add_parts(lines, sensor, &torque, steps);
        add_sensor_uncertainty(lines, steps);
    }

    /// A sensor's nine numbers.
    fn add_numbers(&self, lines: &mut Lines, side: &Side, sensor: &Sensor) {
        let [n, w, z, c, k, s, p, d, r] = texts(sensor);
        let numbers = format!("N {n}, w {w}, z {z}, c {c}, k {k}, s {s}, p {p}, d {d}, R {r}");
        let start = count(self.body(side.tag));
        let name = format!("{} sensor", side.label);
        lines.add(&name, format!("body at byte {start}: {numbers}"));
    }

    /// V, W of each output sensor, and the loss uncertainty.
    fn add_loss_uncertainty(&self, lines: &mut Lines, measured: &Measured, steps: &MeasuredSteps) {
        let uncertainty = &steps.loss_uncertainty;
        let (input, ratio) = (grouped(steps.input.uncertainty), self.ratio());
        let fraction = over(uncertainty.at_wheel);
        let v = grouped(uncertainty.at_wheel.rounded_up());
        lines.add(
            INPUT.part,
            format!("{input} × {ratio} = {fraction}, rounded up {v} grains"),
        );
        let mut squares = format!("{v}×{v}");
        let outputs = MeasuredKind::of(measured).outputs;
        for (output, steps) in outputs.iter().zip(&steps.outputs) {
            let (w, name) = (grouped(steps.uncertainty), output.name);
            lines.add(output.part, format!("{w} grains, U of the {name} sensor"));
            squares += &format!(" + {w}×{w}");
        }
        let needed = grouped(uncertainty.sum_of_squares);
        lines.add("sum of squares", format!("{squares} = {needed}"));
        add_least(
            lines,
            "loss uncertainty",
            1,
            uncertainty.uncertainty,
            &needed,
        );
    }

    fn add_measured_loss(&self, lines: &mut Lines, row: &Row, steps: &MeasuredSteps) {
        let (input, output) = (grouped(row.input.into()), grouped(row.output().into()));
        let loss = decimal(steps.loss, 3);
        let ratio = self.ratio();
        lines.add(
            "measured loss",
            format!("{input} × {ratio} - {output} = {loss} hundredths"),
        );
        let five_percent = hundredths(loss::five_percent(steps.loss));
        lines.add("5 % of it", format!("{five_percent} hundredths"));
        let at_wheel = hundredths(loss::newton_metre_at_wheel(self.component.ratio));
        lines.add(
            "1 Nm × ratio",
            format!("100 × {ratio} = {at_wheel} hundredths"),
        );
    }

    fn add_entry(&self, lines: &mut Lines, entry: u128) {
        let (hundredths, whole) = (grouped(entry), decimal(entry, 2));
        lines.add(
            "entry",
            format!("{hundredths} hundredths, rounded up once, = {whole} Nm"),
        );
        let speed = self.component.speeds[self.speed_index];
        let torque = self.component.torques[self.torque_index];
        let entry = u32::try_from(entry).expect("an accepted entry is at most 10,000,000");
        let line = listing::line(speed, torque, entry);
        let number = count(listing::line_number(self.index()));
        lines.add("listing", format!("line {number}: {line}"));
    }
}

/// The output torque, where it is a sum.
fn add_output_sum(lines: &mut Lines, row: &Row) {
    let torques: Vec<String> = row
        .outputs
        .iter()
        .map(|torque| grouped((*torque).into()))
        .collect();
    let output = row.output().into();
    let (hundredths, whole) = (grouped(output), decimal(output, 2));
    let sum = torques.join(" + ");
    lines.add(
        "output torque",
        format!("{sum} = {hundredths} hundredths = {whole} Nm"),
    );
}

/// A sensor's numbers as texts, in their order.
fn texts(sensor: &Sensor) -> [String; 9] {
    sensor.numbers().map(|number| grouped(number.into()))
}

/// a, b, g and h.
fn add_parts(lines: &mut Lines, sensor: &Sensor, torque: &str, steps: &SensorSteps) {
    let [n, w, z, c, k, s, p, d, r] = texts(sensor);
    let formulas = [
        ("a", format!("{w} × {d} × {torque} / (100,000 × {r})")),
        ("b", format!("{z} × {d} × {n} / (1,000 × {r})")),
        ("g", format!("{c} × {n} × 10 / {k}")),
        ("h", format!("{s} × {p} × {n} / 100,000")),
    ];
    for (index, (name, formula)) in formulas.into_iter().enumerate() {
        let fraction = over(steps.unrounded[index]);
        let rounded = grouped(steps.parts[index]);
        let step = format!("{formula} = {fraction}, rounded up {rounded} grains");
        lines.add(name, step);
    }
}

/// U of a sensor.
fn add_sensor_uncertainty(lines: &mut Lines, steps: &SensorSteps) {
    let [a, b, g, h] = steps.parts.map(grouped);
    let needed = grouped(steps.sum_of_squares);
    let squares = format!("{a}×{a} + {b}×{b} + 3×{g}×{g} + {h}×{h}");
    lines.add("sum of squares", format!("4 × ({squares}) = {needed}"));
    add_least(lines, "U", 3, steps.uncertainty, &needed);
}

/// A number of grains whose square, so many times, reaches what is needed, and the next lower number, which does not.
fn add_least(lines: &mut Lines, name: &str, times: u128, number: u128, needed: &str) {
    let squared = |number: u128| {
        let factor = if times == 1 {
            String::new()
        } else {
            format!("{times} × ")
        };
        let (text, product) = (grouped(number), grouped(times * number * number));
        format!("{factor}{text} × {text} = {product}")
    };
    let text = grouped(number);
    lines.add(
        name,
        format!("{text} grains: {}, at least {needed}", squared(number)),
    );
    let one_less = match number.checked_sub(1) {
        Some(less) => format!("{}, below {needed}", squared(less)),
        None => "there is none".to_string(),
    };
    lines.add("one less", one_less);
}

/// The allowance, and what of the loss uncertainty is above it.
fn add_allowance(lines: &mut Lines, steps: &MeasuredSteps) {
    let grains = steps.loss_uncertainty.uncertainty;
    let uncertainty = hundredths(loss::PARTS_OF_A_GRAIN * grains);
    let grains = grouped(grains);
    let allowance = hundredths(steps.allowance);
    let above = hundredths(steps.above_allowance);
    lines.add(
        "allowance",
        format!("{allowance} hundredths, the larger of the two"),
    );
    let relation = if steps.above_allowance > 0 {
        format!("- {allowance} = {above} hundredths")
    } else {
        format!("is not above {allowance}: {above} hundredths")
    };
    lines.add(
        "above allowance",
        format!("{uncertainty} ({grains} grains) {relation}"),
    );
}

/// The entry that is not yet rounded.
fn add_sum(lines: &mut Lines, steps: &MeasuredSteps) {
    let (loss, above) = (decimal(steps.loss, 3), hundredths(steps.above_allowance));
    let sum = hundredths(steps.entry.numerator);
    lines.add(
        "unrounded entry",
        format!("{loss} + {above} = {sum} hundredths"),
    );
}

/// Parts of a hundredth, written in hundredths: a part is 0.00005.
fn hundredths(parts: u128) -> String {
    decimal(parts * (100_000 / loss::PARTS), 5)
}

fn over(fraction: Fraction) -> String {
    let (numerator, denominator) = (fraction.numerator, fraction.denominator);
    format!("{} / {}", grouped(numerator), grouped(denominator))
}

/// A count of bytes or a place.
fn count(number: usize) -> String {
    grouped(number as u128)
}
