//! The word `write`: files from texts of numbers, and texts that are none.

use super::examples::names;
use super::parsed::numbers_of;
use super::*;
use axle::{Numbers, Sensor};

fn example(name: &str) -> Vec<u8> {
    std::fs::read(examples_folder().join(name)).expect("read")
}

/// The text of the measured example.
fn measured() -> String {
    String::from_utf8(example("measured.numbers")).expect("UTF-8")
}

fn written(text: impl AsRef<[u8]>) -> Output {
    run_with_input(&["write", "-"], text.as_ref())
}

/// Answered with these bytes, and nothing else.
#[track_caller]
fn assert_written(output: Output, file: &[u8]) {
    assert_eq!(text(&output.stderr), "");
    assert_eq!(output.status.code(), Some(0));
    assert_eq!(output.stdout, file);
}

/// The measured text with other lines in place of those that begin with a word.
#[track_caller]
fn with(word: &str, line: &str) -> String {
    changed(&measured(), word, line)
}

#[track_caller]
fn changed(text: &str, word: &str, line: &str) -> String {
    let is_word = |line: &str| line.split(' ').next() == Some(word);
    assert!(text.lines().any(is_word), "{}", word);
    let lines = text
        .lines()
        .map(|old| if is_word(old) { line } else { old });
    lines.flat_map(|line| [line, "\n"]).collect()
}

#[track_caller]
fn assert_unreadable(text: impl AsRef<[u8]>, message: &str) {
    assert_failed(written(text), 2, &format!("axle: {}\n", message));
}

#[track_caller]
fn assert_refused(text: impl AsRef<[u8]>, message: &str) {
    assert_failed(written(text), 1, &format!("axle: refused {}\n", message));
}

/// Every example that is accepted, the bench run among them, has the text of its numbers.
#[test]
fn every_text_gives_the_file_beside_it() {
    let names_of_texts = names("numbers");
    assert_eq!(names_of_texts, names("csv"));
    assert!(names_of_texts.contains(&examples_folder().join("bench-run")));
    for name in names_of_texts {
        let file = std::fs::read(name.with_extension("axle")).expect("read");
        let text = name.with_extension("numbers");
        assert_written(run([OsStr::new("write"), text.as_ref()]), &file);
        assert_written(written(std::fs::read(text).expect("read")), &file);
    }
}

#[test]
fn numbers_in_other_forms() {
    let file = example(MEASURED);
    for ratio in ["3", "3.0", "3.00", "03.000"] {
        assert_written(written(with("ratio", &format!("ratio {}", ratio))), &file);
    }
    let text = measured().replace(".00 ", " ").replace(".00\n", ".0\n");
    assert!(text.contains("row 340 1000.0\n"));
    assert_written(written(text), &file);
    assert_written(written(with("kind", " \t kind\t 2 \t")), &file);
}

#[test]
fn lines_in_other_forms() {
    let file = example(MEASURED);
    let text = measured();
    assert_written(written(text.replace('\n', "\r\n")), &file);
    assert_written(
        written(text.replace('\n', "\n\n# kind 3\n  # right\n \t\n")),
        &file,
    );
    // Rows first, all else in the other direction.
    let (rows, mut others): (Vec<&str>, Vec<&str>) =
        text.lines().partition(|line| line.starts_with("row"));
    others.reverse();
    let lines = rows.into_iter().chain(others);
    let text: String = lines.flat_map(|line| [line, "\n"]).collect();
    assert_written(written(text), &file);
}

/// Bytes that are no text may stand in remarks.
#[test]
fn remarks_of_any_bytes() {
    let mut text = b"# Pr\xFCfstand \xFF\0\n".to_vec();
    text.extend(measured().bytes());
    assert_written(written(text), &example(MEASURED));
    assert_unreadable(
        b"kind \xFC\n",
        &malformed(1, "kind \"\u{fffd}\"", "whole number"),
    );
}

/// The message of a number that cannot be read.
fn malformed(line: usize, number: &str, form: &str) -> String {
    format!("line {line}: {number} is not allowed: a {form} without a sign")
}

#[test]
fn numbers_that_cannot_be_read() {
    let malformed_numbers = [
        "-2", "+2", "2.", "2,0", "0x2", "two", "#", "2e0", "\u{0662}",
    ];
    for number in malformed_numbers {
        let quoted = |word: &str| format!("{} {:?}", word, number);
        let text = |word: &str| with(word, &format!("{} {}", word, number));
        let whole = malformed(2, &quoted("kind"), "whole number");
        assert_unreadable(text("kind"), &whole);
        let ratio = malformed(4, &quoted("ratio"), "number");
        let ratio = format!("{}, at most three digits after the point", ratio);
        assert_unreadable(text("ratio"), &ratio);
        let row = malformed(13, &quoted("row"), "number in Nm");
        let row = format!("{}, at most two digits after the point", row);
        assert_unreadable(text("row"), &row);
    }
}

#[test]
fn digits_beyond_the_units() {
    let begins = |text: String, beginning: &str| assert_failed_with(written(text), 2, beginning);
    begins(with("kind", "kind 2.0"), "axle: line 2: kind \"2.0\" is");
    begins(
        with("ratio", "ratio 3.0000"),
        "axle: line 4: ratio \"3.0000\" is",
    );
    begins(
        with("speeds", "speeds 100 200.0"),
        "axle: line 5: speeds \"200.0\" is",
    );
    begins(
        with("torques", "torques 1000.0 3000"),
        "axle: line 6: torques \"1000.0\" is",
    );
    let input = "input 10000 0 0 0.0 1000 0 0 0 10";
    begins(with("input", input), "axle: line 9: input \"0.0\" is");
    begins(
        with("row", "row 340.000 1000"),
        "axle: line 13: row \"340.000\" is",
    );
}

#[test]
fn lines_that_cannot_be_read() {
    assert_unreadable(with("kind", "Kind 2"), "line 2: unknown word \"Kind\"");
    assert_unreadable(
        with("speeds", "speed 100 200"),
        "line 5: unknown word \"speed\"",
    );
    assert_unreadable(with("line", "line: 1"), "line 3: unknown word \"line:\"");
    assert_unreadable(with("kind", "kind"), "line 2: numbers after kind: 0, not 1");
    assert_unreadable(
        with("ratio", "ratio 3 000"),
        "line 4: numbers after ratio: 2, not 1",
    );
    let sensor = "output 40000 0 0 100 1000 0 0 0";
    assert_unreadable(
        with("output", sensor),
        "line 10: numbers after output: 8, not 9",
    );
    let sensor = "output 40000 0 0 100 1000 0 0 0 10 0";
    assert_unreadable(
        with("output", sensor),
        "line 10: numbers after output: 10, not 9",
    );
    assert_unreadable(example(STANDARD), &format!("line 1: {}", CUT_SHORT));
}

/// As many torques as the rows have in all, but not in each.
#[test]
fn rows_of_another_kind() {
    let rows = "row 340.00 1000.00 1100.00\nrow 3000.00";
    let text = measured().replacen("row 340.00 1000.00\nrow 1100.00 3000.00", rows, 1);
    assert_unreadable(text, "line 13: numbers after row: 3, not 2");
    assert_unreadable(with("row", "row"), "line 13: numbers after row: 0, not 2");
    let text = String::from_utf8(example("half-shafts.numbers")).expect("UTF-8");
    let text = text.replace("row 1020.00 2000.00 1000.00", "row 1020.00 3000.00");
    assert_unreadable(text, "line 15: numbers after row: 2, not 3");
}

#[test]
fn words_that_stand_twice() {
    for word in [
        "kind", "line", "ratio", "speeds", "torques", "input", "output",
    ] {
        let text = measured();
        let line = text.lines().find(|line| line.starts_with(word));
        let twice = format!("{}{}\n", text, line.expect("the word is there"));
        let message = format!("line 17: {} stands for the second time", word);
        assert_unreadable(twice, &message);
    }
    let sensor = "right 1 0 0 0 1000 0 0 0 10\n";
    let message = "line 18: right stands for the second time";
    assert_unreadable(format!("{}{}{}", measured(), sensor, sensor), message);
}

/// A text without the lines that begin with a word.
fn without(text: &[u8], word: &str) -> String {
    let text = std::str::from_utf8(text).expect("UTF-8");
    let lines = text
        .lines()
        .filter(|line| line.split(' ').next() != Some(word));
    lines.flat_map(|line| [line, "\n"]).collect()
}

#[test]
fn words_that_are_not_stated() {
    let common = ["kind", "line", "ratio", "speeds", "torques"];
    let texts: [(&str, &[&str]); 3] = [
        ("standard.numbers", &[]),
        ("measured.numbers", &["input", "output"]),
        ("half-shafts.numbers", &["input", "output", "right"]),
    ];
    for (name, sensors) in texts {
        for word in common.iter().chain(sensors) {
            let message = format!("not stated: {}", word);
            assert_unreadable(without(&example(name), word), &message);
        }
    }
    assert_unreadable("", "not stated: kind");
    assert_unreadable("\n# kind 1\n", "not stated: kind");
}

/// Sensors and rows of a kind that does not have them may be there or not.
#[test]
fn words_that_are_not_looked_at() {
    let text = with("kind", "kind 1").replace("1000 3000", "0 1000");
    let text = text
        .replace("10000 0", "99999 0")
        .replace("row 340", "row 1 2 340");
    assert_written(written(text), &example(STANDARD));
    let right = format!("{}right 0 0 0 0 0 0 0 0 0\n", measured());
    assert_written(written(right), &example(MEASURED));
    let rows = without(&example("measured.numbers"), "row");
    assert_refused(rows, COUNT);
}

const COUNT: &str = "3 at 0: too few or too many numbers, or a field of a wrong length";
const RANGE: &str = "4 at 0: number out of range";
const RATIO: &str = "31 at 0: ratio out of range";
const NOMINAL: &str = "7 at 0: measured torque above the sensor's nominal torque";

#[test]
fn numbers_that_are_refused() {
    assert_refused(with("kind", "kind 4"), RANGE);
    assert_refused(with("line", "line 6"), RANGE);
    assert_refused(with("ratio", "ratio 0.999"), RATIO);
    assert_refused(with("speeds", "speeds"), COUNT);
    assert_refused(with("speeds", "speeds 100"), COUNT);
    let speeds: Vec<String> = (1..=33).map(|speed| speed.to_string()).collect();
    assert_refused(
        with("speeds", &format!("speeds {}", speeds.join(" "))),
        COUNT,
    );
    let rising = "5 at 0: axis number that does not rise";
    assert_refused(with("speeds", "speeds 200 100"), rising);
    let step = "6 at 0: first torque above the step to the second";
    assert_refused(with("torques", "torques 1501 3000"), step);
    assert_refused(format!("{}row 1 1\n", measured()), COUNT);
    assert_refused(with("row", "row 10000.01 1000"), NOMINAL);
    let off = "8 at 0: output torque more than 5.00 Nm off the axis torque";
    assert_refused(with("row", "row 340 1005.01"), off);
    let under = "9 at 0: measured loss under zero";
    assert_refused(measured().replace("1100.00 ", "999.99 "), under);
    let large = "10 at 0: entry above 100000.00 Nm";
    let text = with("ratio", "ratio 20").replace("row 340", "row 10000");
    assert_refused(text, large);
}

/// The words for a sensor's number, by its index.
fn sensor_refused(index: usize, sensor: &str) -> String {
    let name = SENSOR_NUMBERS[index];
    format!(
        "32 at 0: sensor number out of range: number {} from 0, {}, of the {} sensor",
        index, name, sensor
    )
}

/// A text with a number that no range reaches at this index of a sensor.
#[track_caller]
fn with_wrong(text: &str, word: &str, index: usize) -> String {
    let mut numbers = ["10000", "0", "0", "100", "1000", "0", "0", "0", "10"];
    numbers[index] = "65535";
    changed(text, word, &format!("{} {}", word, numbers.join(" ")))
}

#[test]
fn which_number_of_which_sensor() {
    let half_shafts = String::from_utf8(example("half-shafts.numbers")).expect("UTF-8");
    let sensors = [
        (measured(), "input", "input"),
        (measured(), "output", "output"),
        (half_shafts.clone(), "input", "input"),
        (half_shafts.clone(), "output", "left"),
        (half_shafts.clone(), "right", "right"),
    ];
    for (text, word, sensor) in sensors {
        for index in 0..9 {
            let wrong = with_wrong(&text, word, index);
            assert_refused(wrong, &sensor_refused(index, sensor));
        }
    }
    // Of wrong sensors the first is told, whichever of their numbers is wrong.
    let right = with_wrong(&half_shafts, "right", 3);
    for index in [2, 3, 4] {
        let left = with_wrong(&right, "output", index);
        assert_refused(&left, &sensor_refused(index, "left"));
        let input = with_wrong(&left, "input", 3);
        assert_refused(input, &sensor_refused(3, "input"));
    }
}

/// Each of these would be the right number again if it came round at 16 or 32 bits.
#[test]
fn numbers_beyond_their_fields() {
    for kind in ["65538", "4294967298", "18446744073709551618"] {
        assert_refused(with("kind", &format!("kind {}", kind)), RANGE);
    }
    assert_refused(with("kind", "kind 258"), RANGE);
    assert_refused(with("line", "line 65537"), RANGE);
    assert_refused(with("ratio", "ratio 68.536"), RATIO);
    assert_refused(with("ratio", "ratio 4294970.296"), RATIO);
    assert_refused(with("speeds", "speeds 65636 200"), RANGE);
    assert_refused(with("torques", "torques 1000 68536"), RANGE);
    let sensor = "input 75536 0 0 100 1000 0 0 0 10";
    assert_refused(with("input", sensor), &sensor_refused(0, "input"));
    assert_refused(with("row", "row 42950012.96 1000"), NOMINAL);
    assert_refused(with("row", "row 340 42950672.96"), NOMINAL);
}

const CUT_SHORT: &str = "no line feed at its end: the text may be cut short";

/// No beginning of a text gives a file: a line is cut off, a word or a row is missing.
#[test]
fn texts_that_are_cut_short() {
    for name in [
        "standard.numbers",
        "measured.numbers",
        "half-shafts.numbers",
    ] {
        let text = example(name);
        for length in 0..text.len() {
            let output = written(&text[..length]);
            let (status, answer, message) = parts(&output);
            assert_eq!(answer, "");
            match length > 0 && text[length - 1] != b'\n' {
                true => assert!(message.ends_with(&format!("{}\n", CUT_SHORT))),
                false => assert_ne!(status, Some(0)),
            }
        }
    }
}

/// Numbers as a text, with all that the kind may have.
fn text_of(numbers: &Numbers) -> String {
    let line = |word: &str, numbers: &[u16]| {
        let numbers = numbers.iter().map(|number| format!(" {}", number));
        format!("{}{}\n", word, numbers.collect::<String>())
    };
    let sensor = |word: &str, sensor: &Sensor| line(word, &sensor.numbers());
    let row = |torques: &[u32]| {
        let torque = |torque: &u32| format!(" {}.{:02}", torque / 100, torque % 100);
        format!("row{}\n", torques.iter().map(torque).collect::<String>())
    };
    let rows = numbers.rows.chunks(usize::from(numbers.kind));
    let (whole, part) = (numbers.ratio / 1_000, numbers.ratio % 1_000);
    let lines = [
        line("kind", &[numbers.kind]),
        line("line", &[numbers.line]),
        format!("ratio {}.{:03}\n", whole, part),
        line("speeds", &numbers.speeds),
        line("torques", &numbers.torques),
        sensor("input", &numbers.input),
        sensor("output", &numbers.output),
        sensor("right", &numbers.right),
    ];
    lines.concat() + &rows.map(row).collect::<String>()
}

#[test]
fn data_written_again() {
    let largest = PathBuf::from(env!("CARGO_MANIFEST_DIR")).join("../../crates/lossmap/stdin");
    let largest = std::fs::read(largest).expect("read");
    assert_eq!(largest.len(), 24_853, "the longest data");
    for data in [example("bench-run.axle"), example(HALF_SHAFTS), largest] {
        assert_written(written(text_of(&numbers_of(&data))), &data);
    }
}

#[test]
fn the_longest_text() {
    let text = |length: usize| {
        let text = measured();
        let remark = "#".repeat(length - text.len() - 1);
        format!("{}{}\n", text, remark)
    };
    assert_written(written(text(1_048_576)), &example(MEASURED));
    let longer = "the text is longer than 1048576 bytes";
    let name = PathBuf::from(env!("CARGO_TARGET_TMPDIR")).join("longer.numbers");
    std::fs::write(&name, text(1_048_577)).expect("written");
    let output = run([OsStr::new("write"), name.as_ref()]);
    assert_failed(output, 2, &format!("axle: {}\n", longer));
    let output = run(["write", "/dev/zero"]);
    assert_failed(output, 2, &format!("axle: {}\n", longer));
    std::fs::remove_file(name).expect("removed");
}
