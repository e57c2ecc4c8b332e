//! What the page says of listings that are taken in.

use super::*;
use axle::load;

fn listing() -> String {
    String::from_utf8(example_named("standard.csv")).expect("UTF-8")
}

#[test]
fn the_listing_is_the_example() {
    let listing = listing();
    let lines: Vec<&str> = listing.lines().collect();
    assert_eq!(block(&page(), "standard.csv"), lines);
}

/// The listing with these lines in the place of its own: "line 4: `..`, line 5: `..`".
fn with_lines(tried: &str) -> String {
    let listing = listing();
    let mut lines: Vec<&str> = listing.lines().collect();
    for change in tried.split("`, ") {
        let (line, text) = change.split_once(": `").expect("a line and its text");
        let line = line.strip_prefix("line ").expect("the number of a line");
        lines[number(line) - 1] = text.trim_end_matches('`');
    }
    lines.iter().flat_map(|line| [*line, "\n"]).collect()
}

/// What the library refuses, tried as the page says.
fn tried_refusal(tried: &str) -> Option<Refusal> {
    let mut entries = [0; 2_048];
    if let Some(lent) = tried.strip_suffix(" entries lent") {
        return load(listing().as_bytes(), &mut entries[..number(lent)]).err();
    }
    if let Some(count) = tried.strip_prefix("first ") {
        let count = number(count.trim_end_matches(" bytes"));
        return load(&listing().as_bytes()[..count], &mut entries).err();
    }
    load(with_lines(tried).as_bytes(), &mut entries).err()
}

#[test]
fn refusals_of_a_listing_are_those_of_the_table() {
    assert_eq!(load(listing().as_bytes(), &mut [0; 4]).err(), None);
    let numbers = hold_refusals("of a listing", tried_refusal);
    assert_eq!(numbers, [40, 41, 42, 4, 5, 6, 10, 11]);
}

/// A listing with the loss 0.00 over so many speeds from 1 rpm and torques from 0 Nm.
fn listing_over(speeds: usize, torques: usize) -> String {
    let points = (1..=speeds).flat_map(|speed| {
        let torques = 0..torques;
        torques.map(move |torque| format!("{speed},{torque},0.00\n"))
    });
    std::iter::once("speed,torque,loss\n".to_string())
        .chain(points)
        .collect()
}

#[test]
fn counts_are_those_that_the_page_says() {
    let words = "There are 2 to 32 speeds and 2 to 64 torques, in the ranges of tags 4 and 5";
    assert!(page().contains(words));
    for (speeds, torques) in [(2, 2), (32, 2), (2, 64), (32, 64)] {
        let text = listing_over(speeds, torques);
        assert!(load(text.as_bytes(), &mut [0; 2_048]).is_ok());
    }
    for (speeds, torques) in [(1, 2), (33, 2), (2, 1), (2, 65), (33, 65)] {
        let text = listing_over(speeds, torques);
        let refusal = load(text.as_bytes(), &mut [0; 2_048]).err();
        assert_eq!(refusal, refused(42, text.len()));
    }
}

/// Digits of a speed, of a torque and of a loss before its point.
#[test]
fn digits_are_those_that_the_page_says() {
    assert!(page().contains("Speed and torque are 1 to 9 digits without leading zeros"));
    for column in 0..3 {
        let answer = |digits: &str| {
            let mut row = ["100", "0", "130"];
            row[column] = digits;
            let [speed, torque, loss] = row;
            let text = with_lines(&format!("line 2: `{speed},{torque},{loss}.00`"));
            load(text.as_bytes(), &mut [0; 4]).err()
        };
        for wrong in ["", "00", "01", "1000000000", "1 ", "1.0", "-1", "a"] {
            assert_eq!(answer(wrong), refused(41, 18), "{wrong}");
        }
        for right in ["0", "1", "10", "999999999"] {
            assert_ne!(answer(right), refused(41, 18), "{right}");
        }
    }
}
