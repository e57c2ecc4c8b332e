//! Questions to a map.

use crate::subject::{MapInDoubles, Subject, QUESTIONS};
use crate::table::{print_row, Bar};
use crate::timing::{Contender, Way};
use axle::Point;
use measure::{doubles, plain};
use std::hint::black_box;

impl Subject {
    /// Reads all entries once: what no call that is lent them as a map can do without.
    fn read_entries(&self) {
        black_box(plain::largest(black_box(&self.entries)));
    }

    fn each_point(&self, mut ask: impl FnMut(Point)) {
        for point in black_box(&self.points) {
            ask(*point);
        }
    }

    /// Asks the first point as often as there are points.
    fn one_point(&self, mut ask: impl FnMut(Point)) {
        for _ in &self.points {
            ask(*black_box(&self.points[0]));
        }
    }

    fn ask_library(&self, point: Point) {
        let loss = axle::loss(&self.grid, &self.entries, point.speed, point.torque);
        let _ = black_box(loss);
    }

    fn ask_rust(&self, point: Point) {
        let loss = plain::loss(&self.grid, &self.entries, point.speed, point.torque);
        black_box(loss);
    }
}

impl MapInDoubles {
    fn ask(&self, point: (f64, f64)) {
        let loss = doubles::bilinear(&self.speeds, &self.torques, &self.entries, point);
        black_box(loss);
    }

    fn all_points(&self, losses: &mut [f64]) {
        let (speeds, torques, entries) = (&self.speeds, &self.torques, &self.entries);
        doubles::bilinear_at_all(speeds, torques, entries, black_box(&self.points), losses);
        black_box(losses);
    }

    fn each_point(&self) {
        for point in black_box(&self.points) {
            self.ask(*point);
        }
    }

    /// Asks the first point as often as there are points.
    fn one_point(&self) {
        for _ in &self.points {
            self.ask(*black_box(&self.points[0]));
        }
    }
}

/// One point, asked again and again.
pub fn measure_loss(what: &str, bars: &[Bar], subject: &Subject) {
    let ways = vec![
        Way::new(Contender::Library, QUESTIONS, || {
            subject.one_point(|point| subject.ask_library(point))
        }),
        Way::new(Contender::Rust, QUESTIONS, || {
            subject.one_point(|point| subject.ask_rust(point))
        }),
        Way::new(Contender::Doubles, QUESTIONS, || {
            subject.in_doubles.one_point()
        }),
        Way::new(Contender::Limit, 1, || subject.read_entries()),
    ];
    print_row(what, bars, ways);
}

/// Points by chance, each in a call of its own.
pub fn measure_losses_one_by_one(what: &str, bars: &[Bar], subject: &Subject) {
    let ways = vec![
        Way::new(Contender::Library, QUESTIONS, || {
            subject.each_point(|point| subject.ask_library(point))
        }),
        Way::new(Contender::Rust, QUESTIONS, || {
            subject.each_point(|point| subject.ask_rust(point))
        }),
        Way::new(Contender::Doubles, QUESTIONS, || {
            subject.in_doubles.each_point()
        }),
        Way::new(Contender::Limit, 1, || subject.read_entries()),
    ];
    print_row(what, bars, ways);
}

/// The same points in one call, which tests the map once.
pub fn measure_losses_at_once(what: &str, bars: &[Bar], subject: &Subject) {
    let (mut losses, mut plain_losses) = (vec![0; QUESTIONS], vec![0; QUESTIONS]);
    let mut losses_in_doubles = vec![0.0; QUESTIONS];
    let (grid, entries) = (&subject.grid, &subject.entries);
    let ways = vec![
        Way::new(Contender::Library, QUESTIONS, || {
            let points = black_box(&subject.points);
            let _ = black_box(axle::losses(grid, entries, points, &mut losses));
        }),
        Way::new(Contender::Rust, QUESTIONS, || {
            let points = black_box(&subject.points);
            black_box(plain::losses(grid, entries, points, &mut plain_losses));
        }),
        Way::new(Contender::Doubles, QUESTIONS, || {
            subject.in_doubles.all_points(&mut losses_in_doubles)
        }),
    ];
    print_row(what, bars, ways);
}

pub fn measure_nearest(what: &str, bars: &[Bar], subject: &Subject) {
    let grid = &subject.grid;
    let sheet = &subject.in_doubles;
    let (speeds, torques) = (
        &grid.speeds[..grid.speed_count],
        &grid.torques[..grid.torque_count],
    );
    let ways = vec![
        Way::new(Contender::Library, QUESTIONS, || {
            subject.each_point(|point| {
                let _ = black_box(axle::nearest(grid, point.speed, point.torque));
            })
        }),
        Way::new(Contender::Rust, QUESTIONS, || {
            subject.each_point(|point| {
                black_box(plain::nearest(grid, point.speed, point.torque));
            })
        }),
        Way::new(Contender::Doubles, QUESTIONS, || {
            for (speed, torque) in black_box(&sheet.points) {
                black_box(doubles::nearest(speeds, torques, *speed, *torque));
            }
        }),
    ];
    print_row(what, bars, ways);
}
