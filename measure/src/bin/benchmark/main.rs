//! The benchmark: the proved library beside plain Rust, doubles and the second implementation, on the same inputs in one run.
//! It prints the tables of docs/PERFORMANCE.md.

mod builds;
mod questions;
mod sensors;
mod subject;
mod table;
mod texts;
mod timing;

use axle::{MAXIMUM_ENTRIES, MAXIMUM_LISTING_LENGTH};
use reference::bench_run;
use std::hint::black_box;
use subject::{Subject, QUESTIONS};
use table::Bar;
use timing::{time_text, Contender, Times, Way};

fn measure_builds(measured: &Subject, half_shafts: &Subject, bench_run: &Subject) {
    builds::measure_roots();
    builds::measure_measured_build("build, measured, 32 x 64", measured);
    builds::measure_measured_build("build, half shafts, 32 x 64", half_shafts);
    builds::measure_measured_build("build, the bench run, 13 x 21", bench_run);
    let standard = Subject::of_bench(1, 32, 64);
    builds::measure_standard_build("build, standard, 32 x 64", &standard);
    builds::measure_write("write, measured, 32 x 64", measured);
    builds::measure_write("write, half shafts, 32 x 64", half_shafts);
    builds::measure_write("write, the bench run, 13 x 21", bench_run);
}

fn measure_questions(measured: &Subject) {
    const BARS: [Bar; 1] = [Bar::of_rust(1.4)];
    questions::measure_loss("loss at a point, 32 x 64", &BARS, measured);
    let small = Subject::of_bench(2, 2, 2);
    questions::measure_loss("loss at a point, 2 x 2", &[], &small);
    let what = "loss at each of 512 points, a call for each, 32 x 64";
    questions::measure_losses_one_by_one(what, &BARS, measured);
    let what = "loss at each of 512 points, one call for all, 32 x 64";
    questions::measure_losses_at_once(what, &[Bar::of_doubles(1.5)], measured);
    questions::measure_nearest("nearest point, 32 x 64", &[Bar::of_rust(1.3)], measured);
}

fn measure_others(measured: &Subject) {
    const BARS: [Bar; 1] = [Bar::of_rust(1.3)];
    texts::measure_listing("listing, 32 x 64", &BARS, measured);
    texts::measure_load("load of a listing, 32 x 64", &BARS, measured);
    sensors::measure_drag("drag of a retarder, 13 points", &BARS);
    sensors::measure_steps("steps of a sensor", &BARS);
}

/// A row of the library's times alone.
fn print_growth_row(subject: &Subject) {
    let (grid, entries, points) = (&subject.grid, &subject.entries, &subject.points);
    let (mut built, mut text) = (vec![0; MAXIMUM_ENTRIES], vec![0; MAXIMUM_LISTING_LENGTH]);
    let mut losses = vec![0; QUESTIONS];
    let ways = vec![
        Way::new(Contender::Library, 1, || {
            let _ = black_box(axle::build(black_box(&subject.data), &mut built));
        }),
        Way::new(Contender::Library, QUESTIONS, || {
            for point in black_box(points) {
                let _ = black_box(axle::loss(grid, entries, point.speed, point.torque));
            }
        }),
        Way::new(Contender::Library, QUESTIONS, || {
            let _ = black_box(axle::losses(grid, entries, black_box(points), &mut losses));
        }),
        Way::new(Contender::Library, 1, || {
            let _ = black_box(axle::listing(grid, entries, &mut text));
        }),
    ];
    let times = Times::of(ways).in_order();
    let cells: Vec<String> = times.into_iter().map(time_text).collect();
    println!(
        "| {} x {} | {} | {} |",
        grid.speed_count,
        grid.torque_count,
        entries.len(),
        cells.join(" | ")
    );
}

fn measure_growth() {
    println!("\n| grid | entries | build, measured | loss at a point | one of 512 in one call | listing |");
    println!("|---|---|---|---|---|---|");
    for (speeds, torques) in [(2, 2), (4, 8), (8, 16), (16, 32), (32, 64)] {
        print_growth_row(&Subject::of_bench(2, speeds, torques));
    }
}

fn main() {
    let measured = Subject::of_bench(2, 32, 64);
    let half_shafts = Subject::of_bench(3, 32, 64);
    let bench_run = Subject::of_data(bench_run::data().bytes());
    table::print_header();
    measure_builds(&measured, &half_shafts, &bench_run);
    measure_questions(&measured);
    measure_others(&measured);
    let (wrong, all) = (measured.wrong_doubles(), measured.entries.len());
    println!("\nEntries of the measured map that doubles get wrong: {wrong} of {all}.");
    measure_growth();
    texts::measure_long_texts();
}
