//! Every refusal of a build with its place, and how refusals print. Those of rows and sensors are
//! tried on kind 2 here, and on kind 3 in half_shafts.rs; those of a load in loading.rs, those of the
//! losses at many points in losses.rs, those of a drag in retarder.rs.

use axle::{build, Map, Refusal, READING_LIMIT};

const MEASURED: &[u8] = include_bytes!("../../../examples/measured.axle");
const HALF_SHAFTS: &[u8] = include_bytes!("../../../examples/half-shafts.axle");

/// The measured example with other bytes from an offset on.
fn with_bytes(offset: usize, bytes: &[u8]) -> Vec<u8> {
    let mut data = MEASURED.to_vec();
    data[offset..offset + bytes.len()].copy_from_slice(bytes);
    data
}

fn refused(offset: usize, bytes: &[u8]) -> (u32, usize) {
    refusal_of(&with_bytes(offset, bytes))
}

/// A refusal that is of no number of a field.
fn refusal_of(data: &[u8]) -> (u32, usize) {
    let refusal = Map::build(data).expect_err("refused");
    assert_eq!(refusal.index, None);
    (refusal.number, refusal.place)
}

fn refusal(number: u32, place: usize) -> Refusal {
    Refusal {
        number,
        place,
        index: None,
    }
}

/// A refusal of the number with this index in its field.
fn of_number(number: u32, place: usize, index: usize) -> Refusal {
    Refusal {
        number,
        place,
        index: Some(index),
    }
}

#[test]
fn fields() {
    assert_eq!(refusal_of(&MEASURED[..1]), (1, 0));
    assert_eq!(refusal_of(&MEASURED[..6]), (1, 4));
    assert_eq!(refusal_of(&MEASURED[..MEASURED.len() - 1]), (1, 69));
    assert_eq!(refusal_of(&[]), (2, 0));
    assert_eq!(refusal_of(&MEASURED[..69]), (2, 69));
    assert_eq!(refused(4, &[3]), (2, 4));
    assert_eq!(refused(0, &[0]), (2, 0));
    assert_eq!(refused(71, &[24]), (3, 69));
    assert_eq!(refused(2, &[2]), (3, 0));
}

/// Tag 8 is of kind 2 alone, and the tags 9 and 10 are of kind 3 alone.
#[test]
fn fields_of_another_kind() {
    assert_eq!(refused(3, &[1]), (12, 27));
    assert_eq!(refused(3, &[3]), (2, 69));
    assert_eq!(refused(69, &[9]), (2, 69));
    assert_eq!(refused(69, &[10]), (2, 69));
}

#[test]
fn numbers_of_the_component() {
    assert_eq!(refused(3, &[0]), (4, 3));
    assert_eq!(refused(3, &[4]), (4, 3));
    assert_eq!(refused(7, &[6]), (4, 7));
    assert_eq!(refused(16, &[0, 0]), (4, 16));
    assert_eq!(refused(25, &50_001u16.to_be_bytes()), (4, 25));
    assert_eq!(refused(18, &[0, 100]), (5, 18));
    assert_eq!(refused(25, &1_000u16.to_be_bytes()), (5, 25));
    assert_eq!(refused(23, &1_501u16.to_be_bytes()), (6, 23));
}

#[test]
fn the_ratio_and_the_sensors() {
    let answer = |offset, number: u16| Map::build(&with_bytes(offset, &number.to_be_bytes()));
    for ratio in [0, 999, 20_001, u16::MAX] {
        assert_eq!(answer(11, ratio), Err(of_number(31, 11, 0)));
    }
    // No number of a sensor is in its range at 65,535.
    for body in [30, 51] {
        for index in 0..9 {
            let place = body + 2 * index;
            assert_eq!(answer(place, u16::MAX), Err(of_number(32, place, index)));
        }
    }
    // The nominal torque of the output sensor, and the reference span of the input sensor.
    assert_eq!(answer(51, 0), Err(of_number(32, 51, 0)));
    assert_eq!(answer(46, 9), Err(of_number(32, 46, 8)));
}

#[test]
fn rows() {
    // The sensors' nominal torques are 10,000 Nm and 40,000 Nm.
    assert_eq!(refused(72, &1_000_001u32.to_be_bytes()), (7, 72));
    assert_eq!(refused(76, &4_000_001u32.to_be_bytes()), (7, 76));
    assert_eq!(refused(76, &100_501u32.to_be_bytes()), (8, 76));
    assert_eq!(refused(76, &99_499u32.to_be_bytes()), (8, 76));
    assert_eq!(refused(88, &33_333u32.to_be_bytes()), (9, 88));
    // With ratio 20.000, 10,000.00 Nm in and 1,000.00 Nm out are 199,000.00 Nm of loss.
    let mut data = MEASURED.to_vec();
    data[11..13].copy_from_slice(&20_000u16.to_be_bytes());
    data[72..76].copy_from_slice(&1_000_000u32.to_be_bytes());
    assert_eq!(refusal_of(&data), (10, 72));
}

#[test]
fn five_newton_metres_off_pass() {
    for output in [99_500u32, 100_500] {
        let mut data = MEASURED.to_vec();
        data[76..80].copy_from_slice(&output.to_be_bytes());
        assert!(Map::build(&data).is_ok());
    }
}

#[test]
fn room_and_length() {
    let mut entries = [7; 3];
    assert_eq!(build(MEASURED, &mut entries), Err(refusal(11, 4)));
    let mut data = MEASURED.to_vec();
    data.push(0);
    assert_eq!(build(&data, &mut entries), Err(refusal(12, 104)));
    assert_eq!(entries, [7; 3]);
}

#[test]
fn nothing_past_the_reading_limit_changes_the_answer() {
    let limit = READING_LIMIT as usize;
    for (example, length) in [(MEASURED, 104), (HALF_SHAFTS, 141)] {
        for byte in [0, 1, 8, 10, 255] {
            let mut data = example.to_vec();
            data.resize(2 * limit, byte);
            assert_eq!(refusal_of(&data), (12, length));
            assert_eq!(refusal_of(&data[..limit]), (12, length));
        }
    }
}

/// Number, place, and what is printed after them.
const PRINTED: [(u32, usize, &str); 11] = [
    (
        9,
        80,
        "measured loss under zero (the row's offset)",
    ),
    (
        11,
        76,
        "too little room for the answer (the count needed)",
    ),
    (
        2,
        0,
        "empty, or not component data (the field's offset)",
    ),
    (
        20,
        0,
        "speed outside the axis",
    ),
    (
        30,
        27,
        "too little room for the file (the length needed)",
    ),
    (
        40,
        0,
        "first line other than speed,torque,loss, or without its line feed",
    ),
    (
        41,
        18,
        "line without the form of a row, or without its line feed (the line's offset)",
    ),
    (
        42,
        45,
        "row that breaks its run, or runs that make no map (the line's offset, or the text's length)",
    ),
    (
        45,
        0,
        "step-up ratio out of range, or not 2 to 13 readings with as many bearing losses",
    ),
    (
        46,
        0,
        "bearing loss above its reading, or drag above 100000.00 Nm",
    ),
    (
        47,
        0,
        "retarder speed outside the points that have readings",
    ),
];

/// The same with an index. No sensor has a number 9.
const PRINTED_WITH_INDEX: [(u32, usize, usize, &str); 4] = [
    (
        31,
        11,
        0,
        "ratio out of range (the number's offset)",
    ),
    (
        32,
        59,
        4,
        "sensor number out of range: number 4 from 0, k, calibration advancement (the number's offset)",
    ),
    (
        32,
        0,
        0,
        "sensor number out of range: number 0 from 0, N, nominal torque",
    ),
    (
        32,
        0,
        9,
        "sensor number out of range",
    ),
];

#[test]
fn refusals_print_by_their_words() {
    for (number, place, words) in PRINTED {
        let text = refusal(number, place).to_string();
        assert_eq!(text, format!("refused {number} at {place}: {words}"));
    }
    for (number, place, index, words) in PRINTED_WITH_INDEX {
        let text = of_number(number, place, index).to_string();
        assert_eq!(text, format!("refused {number} at {place}: {words}"));
    }
    for number in [0, 13, 19, 23, 29, 33, 39, 43, 44, 48, u32::MAX] {
        let text = refusal(number, 5).to_string();
        assert_eq!(text, format!("refused {number} at 5"));
    }
}

/// Numbers stand at no offset: of what refuses them the words are told alone.
#[test]
fn refused_numbers_print_without_an_offset() {
    let text = |number| refusal(number, 0).to_string();
    assert_eq!(
        text(3),
        "refused 3 at 0: too few or too many numbers, or a field of a wrong length"
    );
    assert_eq!(text(4), "refused 4 at 0: number out of range");
    for number in (3..=10).chain([31, 32]) {
        assert!(!text(number).contains("offset"), "{}", text(number));
    }
    for number in [1, 2, 12] {
        assert!(text(number).ends_with("offset)"), "{}", text(number));
    }
}

#[test]
fn every_number_has_words_of_its_own() {
    let mut all: Vec<String> = Vec::new();
    let with_words = [1..=12, 20..=22, 30..=32, 40..=42, 45..=47];
    for number in with_words.into_iter().flatten() {
        let text = refusal(number, 5).to_string();
        let words = text.strip_prefix(&format!("refused {} at 5: ", number));
        let words = words.expect("words").to_string();
        let has_place = !matches!(number, 20..=22 | 40 | 45..=47);
        assert_eq!(words.ends_with(')'), has_place, "{}", words);
        assert!(!all.contains(&words), "{}", words);
        all.push(words);
    }
}
