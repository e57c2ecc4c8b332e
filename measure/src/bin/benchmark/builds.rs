//! Roots, and what reckons a map from data or data from numbers.

use crate::subject::Subject;
use crate::table::{print_row, Bar};
use crate::timing::{Contender, Way};
use axle::{MAXIMUM_ENTRIES, MAXIMUM_FILE_LENGTH};
use measure::{doubles, plain, roots};
use reference::random::Source;
use reference::writer;
use std::hint::black_box;

const ROOTS: usize = 4_096;

/// The machine's roots of doubles and nothing else, two at once: what no root of a row can do without.
struct MachineRoots {
    numbers: Vec<f64>,
    roots: Vec<f64>,
}

impl MachineRoots {
    fn of(count: usize) -> MachineRoots {
        MachineRoots {
            numbers: (0..count).map(|i| 1e12 + i as f64).collect(),
            roots: vec![0.0; count],
        }
    }

    #[inline(never)]
    fn run(&mut self) {
        for (root, number) in self.roots.iter_mut().zip(black_box(&self.numbers)) {
            *root = number.sqrt();
        }
        black_box(&self.roots);
    }
}

pub fn measure_roots() {
    let mut source = Source::new(2, 2);
    let numbers: Vec<u64> = (0..ROOTS)
        .map(|_| source.below(730_000_000_000_000_000))
        .collect();
    let (mut ours, mut theirs, mut sheet) = (vec![0; ROOTS], vec![0; ROOTS], vec![0; ROOTS]);
    let mut limit = MachineRoots::of(ROOTS);
    roots::proved(&numbers, &mut ours);
    roots::plain(&numbers, &mut theirs);
    assert_eq!(ours, theirs);
    let ways = vec![
        Way::new(Contender::Library, ROOTS, || {
            roots::proved(black_box(&numbers), &mut ours)
        }),
        Way::new(Contender::Rust, ROOTS, || {
            roots::plain(black_box(&numbers), &mut theirs)
        }),
        Way::new(Contender::Doubles, ROOTS, || {
            roots::doubles(black_box(&numbers), &mut sheet)
        }),
        Way::new(Contender::Limit, ROOTS, || limit.run()),
    ];
    print_row("root rounded up, n below 7.3e17", &[], ways);
}

/// The three ways to build a map, and its limit.
fn measure_build(what: &str, bars: &[Bar], subject: &Subject, limit: impl FnMut()) {
    let (mut entries, mut plain_entries) = (vec![0; MAXIMUM_ENTRIES], vec![0; MAXIMUM_ENTRIES]);
    let ways = vec![
        Way::new(Contender::Library, 1, || {
            let _ = black_box(axle::build(black_box(&subject.data), &mut entries));
        }),
        Way::new(Contender::Rust, 1, || {
            black_box(plain::build(black_box(&subject.data), &mut plain_entries));
        }),
        Way::new(Contender::Doubles, 1, || {
            black_box(doubles::build(black_box(&subject.data)));
        }),
        Way::new(Contender::Limit, 1, limit),
    ];
    print_row(what, bars, ways);
}

/// A build of kind 2 or 3, whose limit is the root of each sensor and that of the sum in each row.
pub fn measure_measured_build(what: &str, subject: &Subject) {
    const BARS: [Bar; 2] = [Bar::of_rust(1.3), Bar::of_doubles(1.1)];
    let roots_of_row = usize::from(subject.handed.kind) + 1;
    let mut limit = MachineRoots::of(roots_of_row * subject.entries.len());
    measure_build(what, &BARS, subject, || limit.run());
}

/// A build of kind 1, whose limit is to write the entries.
pub fn measure_standard_build(what: &str, subject: &Subject) {
    let mut entries = vec![0; subject.entries.len()];
    let row = &subject.entries[..subject.grid.torque_count];
    let limit = || {
        for entries in black_box(&mut entries).chunks_exact_mut(row.len()) {
            entries.copy_from_slice(black_box(row));
        }
    };
    measure_build(what, &[Bar::of_rust(1.3)], subject, limit);
}

/// A write of the data's numbers, whose limit is the library's build of the data.
pub fn measure_write(what: &str, subject: &Subject) {
    const BARS: [Bar; 1] = [Bar {
        most: 1.5,
        of: Contender::Limit,
    }];
    let mut file = vec![0; MAXIMUM_FILE_LENGTH];
    let mut other_file = file.clone();
    let mut entries = vec![0; MAXIMUM_ENTRIES];
    let ways = vec![
        Way::new(Contender::Library, 1, || {
            let numbers = black_box(&subject.numbers);
            let _ = black_box(numbers.write_on_grid(&subject.grid, &mut file));
        }),
        Way::new(Contender::Reference, 1, || {
            let _ = black_box(writer::write(black_box(&subject.handed), &mut other_file));
        }),
        Way::new(Contender::Limit, 1, || {
            let _ = black_box(axle::build(black_box(&subject.data), &mut entries));
        }),
    ];
    print_row(what, &BARS, ways);
}
