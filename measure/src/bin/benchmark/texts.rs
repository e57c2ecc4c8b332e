//! Listings written and taken in.

use crate::subject::Subject;
use crate::table::{print_row, Bar};
use crate::timing::{Contender, Times, Way};
use axle::{MAXIMUM_ENTRIES, MAXIMUM_LISTING_LENGTH};
use measure::{doubles, plain};
use reference::listing;
use std::fmt::Write;
use std::hint::black_box;

pub fn measure_listing(what: &str, bars: &[Bar], subject: &Subject) {
    let (grid, entries) = (&subject.grid, &subject.entries);
    let (mut text, mut plain_text) = (
        vec![0; MAXIMUM_LISTING_LENGTH],
        vec![0; MAXIMUM_LISTING_LENGTH],
    );
    let mut double_text = Vec::new();
    let length = axle::listing(grid, entries, &mut text).expect("there is room");
    assert_eq!(plain::listing(grid, entries, &mut plain_text), Some(length));
    assert_eq!(text[..length], plain_text[..length]);
    let (speeds, torques) = (
        &grid.speeds[..grid.speed_count],
        &grid.torques[..grid.torque_count],
    );
    let in_doubles = &subject.in_doubles.entries;
    let ways = vec![
        Way::new(Contender::Library, 1, || {
            let _ = black_box(axle::listing(grid, black_box(entries), &mut text));
        }),
        Way::new(Contender::Rust, 1, || {
            black_box(plain::listing(grid, black_box(entries), &mut plain_text));
        }),
        Way::new(Contender::Doubles, 1, || {
            let entries = black_box(in_doubles);
            black_box(doubles::listing(speeds, torques, entries, &mut double_text));
        }),
    ];
    print_row(what, bars, ways);
}

pub fn measure_load(what: &str, bars: &[Bar], subject: &Subject) {
    let text = listing::listing(&subject.lent, usize::MAX).expect("it is a map");
    let (mut entries, mut plain_entries) = (vec![0; MAXIMUM_ENTRIES], vec![0; MAXIMUM_ENTRIES]);
    assert_eq!(axle::load(&text, &mut entries), Ok(subject.grid));
    assert_eq!(plain::load(&text, &mut plain_entries), Some(subject.grid));
    let count = subject.entries.len();
    assert_eq!(entries[..count], subject.entries);
    assert_eq!(plain_entries[..count], subject.entries);
    let ways = vec![
        Way::new(Contender::Library, 1, || {
            let _ = black_box(axle::load(black_box(&text), &mut entries));
        }),
        Way::new(Contender::Rust, 1, || {
            black_box(plain::load(black_box(&text), &mut plain_entries));
        }),
    ];
    print_row(what, bars, ways);
}

/// A header, and rows of a speed, a torque and a loss of 0.00, each line after these blanks.
fn rows_text(rows: impl Iterator<Item = (usize, usize, usize)>) -> Vec<u8> {
    let mut text = String::from("speed,torque,loss\n");
    for (blanks, speed, torque) in rows {
        text.extend(std::iter::repeat_n(' ', blanks));
        let _ = writeln!(text, "{speed},{torque},0.00");
    }
    text.into_bytes()
}

/// Rows in runs of so many, the first row after blanks.
fn runs_text(blanks: usize, rows: usize, run: usize) -> Vec<u8> {
    rows_text((0..rows).map(|i| {
        let first_blanks = if i == 0 { blanks } else { 0 };
        (first_blanks, 1 + i / run % 2, i % run)
    }))
}

/// A text for so many rows.
type TextOfRows = fn(usize) -> Vec<u8>;

const LONG_TEXTS: [(&str, TextOfRows); 7] = [
    ("one run of a million rows", |rows| runs_text(0, rows, rows)),
    ("a million runs of one row", |rows| runs_text(0, rows, 1)),
    ("runs of 64 rows", |rows| runs_text(0, rows, 64)),
    ("runs of 65 rows", |rows| runs_text(0, rows, 65)),
    (
        "runs of 2 rows, before the first five blanks for each row",
        |rows| runs_text(5 * rows, rows, 2),
    ),
    (
        "runs of 65 rows, before the first five blanks for each row",
        |rows| runs_text(5 * rows, rows, 65),
    ),
    ("one row alone, before it ten blanks for each", |rows| {
        runs_text(10 * rows, 1, 1)
    }),
];

/// The load of a text that has no wrong line and is no map.
fn load_way(text: &[u8]) -> Way<'_> {
    let refused = axle::load(text, &mut []).map_err(|refusal| (refusal.number, refusal.place));
    assert_eq!(refused, Err((42, text.len())));
    Way::new(Contender::Library, 1, || {
        let _ = black_box(axle::load(black_box(text), &mut []));
    })
}

/// A load's time grows with the text and not faster: twice as much of each kind of text takes twice as long.
pub fn measure_long_texts() {
    println!("\n| text | bytes | load | a byte | to half of it | bar |");
    println!("|---|---|---|---|---|---|");
    for (what, text) in LONG_TEXTS {
        let (half, whole) = (text(500_000), text(1_000_000));
        let times = Times::of(vec![load_way(&whole), load_way(&half)]).in_order();
        let (time, to_half) = (times[0], times[0] / times[1]);
        let verdict = if to_half <= 2.5 { "reached" } else { "missed" };
        println!(
            "| {what} | {} | {:.1} ms | {:.2} ns | {to_half:.2} | at most 2.5: {verdict} |",
            whole.len(),
            time / 1e6,
            time / whole.len() as f64
        );
    }
}
