//! What the page says of the drag of a retarder.

use super::*;
use axle::retarder_drag;
use std::process::{Command, Output};

fn drag(arguments: &str) -> Output {
    let mut command = Command::new(env!("CARGO_BIN_EXE_axle"));
    command.arg("drag").args(arguments.split(' '));
    command.output().expect("it runs")
}

/// What the command refuses, from its message.
fn tried_refusal(tried: &str) -> Option<Refusal> {
    let output = drag(tried.trim_matches('`'));
    let message = String::from_utf8(output.stderr).expect("UTF-8");
    let refusal = message.strip_prefix("axle: refused ")?;
    told(refusal.split_once(": ")?.0)
}

#[test]
fn refusals_of_a_drag_are_those_of_the_table() {
    let numbers = hold_refusals("of a drag", tried_refusal);
    assert_eq!(numbers, [45, 46, 47]);
    let rows = table(&page(), "number", "of a drag");
    assert!(rows.iter().all(|row| row[2] == "0"), "the place");
}

/// The points that the page lists, in rpm.
fn points() -> Vec<u32> {
    let page = page();
    let (_, told) = page.split_once("5.1.6.2.1: ").expect("the page has them");
    let (told, _) = told.split_once(" rpm").expect("points in rpm");
    let told = told.replace(" and ", ", ");
    told.split(", ").map(|text| number(text) as u32).collect()
}

/// 100,000.00 Nm at one point and nothing at the others is met at that point and not 0.1 rpm beside
/// it, where only speeds below the first point and above the last are refused.
#[test]
fn points_are_those_of_the_page() {
    let points = points();
    assert_eq!(points.len(), 13);
    for count in 2..=points.len() {
        for (index, point) in points[..count].iter().enumerate() {
            let mut drags = vec![0; count];
            drags[index] = 10_000_000;
            let at = |speed| retarder_drag(&drags, &vec![0; count], 1_000, speed);
            assert_eq!(at(10 * point), Ok(10_000_000), "{point}");
            for beside in [10 * point - 1, 10 * point + 1] {
                let inside = 10 * points[0] <= beside && beside <= 10 * points[count - 1];
                assert_eq!(at(beside).is_ok(), inside, "{beside}");
                assert_ne!(at(beside), Ok(10_000_000), "{beside}");
            }
        }
    }
}

/// The last column of the table of steps, without its commas: two drags, and the answer.
#[test]
fn the_example_is_the_answer() {
    let rows = table(&page(), "step", "reckoned");
    let last = |row: usize| {
        let cell = rows[row][2].replace(',', "");
        number(cell.rsplit(' ').next().expect("a number")) as u32
    };
    let drags = [last(0), last(1)];
    let answer = retarder_drag(&drags, &[0, 0], 1_333, 2_000);
    assert_eq!(answer, Ok(last(5)));
    let speed = 1_333 * 2_000;
    assert_eq!(last(2), speed);
    assert_eq!(rows[3][2], "666,000 / 2,000,000");
    assert_eq!(
        (speed - 2_000_000, 4_000_000 - 2_000_000),
        (666_000, 2_000_000)
    );
    assert_eq!(rows[4][2], "900 + 133.2 = 1,033.2");
    assert_eq!((drags[1] - drags[0]) * 666_000 * 10 / 2_000_000, 1_332);
    let words = "1.333, and the propeller shaft turns with 200.0 rpm";
    assert!(page().contains(words));
}

#[test]
fn limits_are_those_that_the_page_says() {
    let page = page();
    for words in [
        "| 0.100 to 10.000 |",
        "| 2 to 13 of them |",
        "at most 100,000.00 Nm",
    ] {
        assert!(page.contains(words), "{words}");
    }
    let status = |ratio: &str, speed: &str, readings: &str| {
        drag(&format!("{ratio} {speed} {readings} 0,0"))
            .status
            .code()
    };
    for (ratio, speed) in [("0.100", "2000"), ("10.000", "20")] {
        assert_eq!(status(ratio, speed, "1,2"), Some(0));
    }
    for (ratio, speed) in [("0.099", "3000"), ("10.001", "30")] {
        assert_eq!(status(ratio, speed, "1,2"), Some(1));
    }
    assert_eq!(status("1", "200", "100000.00,0"), Some(0));
    assert_eq!(status("1", "200", "100000.01,0"), Some(1));
    for count in 0..16 {
        let numbers = vec![1; count];
        let answer = retarder_drag(&numbers, &numbers, 1_000, 2_000);
        assert_eq!(answer.is_ok(), (2..=13).contains(&count), "{count}");
    }
}
