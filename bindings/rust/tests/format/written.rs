//! What the page says of files that are made from numbers, held to the command `axle write`.

use super::*;
use axle::Numbers;
use std::process::Command;

fn text_named(name: &str) -> String {
    String::from_utf8(example_named(name)).expect("UTF-8")
}

#[test]
fn the_text_is_the_example() {
    let example = text_named("measured.numbers");
    let lines: Vec<&str> = example.lines().collect();
    assert_eq!(block(&page(), "measured.numbers"), lines);
}

fn word_of(line: &str) -> &str {
    line.split(' ').next().expect("a line has a first part")
}

/// The words of a text, each once. Its remarks and empty lines have none.
fn words_of(text: &str) -> Vec<&str> {
    let words = text.lines().map(word_of);
    let mut words: Vec<&str> = words
        .filter(|word| !word.is_empty() && *word != "#")
        .collect();
    words.dedup();
    words
}

#[test]
fn each_kind_has_the_words_of_the_table() {
    let rows = table(&page(), "word", "numbers");
    for (index, name) in ["standard", "measured", "half-shafts"].iter().enumerate() {
        let kind = (index + 1).to_string();
        let due = rows
            .iter()
            .filter(|row| row[2].split(", ").any(|of| of == kind));
        let due: Vec<&str> = due.map(|row| row[0].trim_matches('`')).collect();
        let text = text_named(&format!("{}.numbers", name));
        assert_eq!(words_of(&text), due);
    }
}

/// The measured text with these lines, each in place of the first one that has its word.
fn with_lines(tried: &str) -> String {
    let text = text_named("measured.numbers");
    let mut lines: Vec<&str> = text.lines().collect();
    for line in tried.split(", ").map(|line| line.trim_matches('`')) {
        let first = lines.iter().position(|old| word_of(old) == word_of(line));
        lines[first.expect("a line with this word")] = line;
    }
    lines.iter().flat_map(|line| [*line, "\n"]).collect()
}

/// Which number of its field it was, from the command's words; of a ratio, whose words do not say
/// it, from the library.
fn index_of(words: &str) -> Option<usize> {
    if words.starts_with("ratio ") {
        let numbers = Numbers {
            ratio: u16::MAX,
            ..numbers_of(&measured())
        };
        return numbers.write().expect_err("refused").index;
    }
    let (_, words) = words.split_once(": number ")?;
    let (index, _) = words.split_once(" from 0").expect("counted from 0");
    Some(number(index))
}

/// What the command refuses, from its message.
fn refusal_of_text(text: &str) -> Option<Refusal> {
    let name = PathBuf::from(env!("CARGO_TARGET_TMPDIR")).join("tried.numbers");
    std::fs::write(&name, text).expect("written");
    let mut command = Command::new(env!("CARGO_BIN_EXE_axle"));
    let output = command.arg("write").arg(&name).output().expect("it runs");
    let message = String::from_utf8(output.stderr).expect("UTF-8");
    let refusal = message.strip_prefix("axle: refused ")?;
    let (refusal, words) = refusal.split_once(": ")?;
    let mut refusal = told(refusal)?;
    refusal.index = index_of(words);
    Some(refusal)
}

#[test]
fn refusals_of_numbers_are_those_of_the_table() {
    assert_eq!(refusal_of_text(&text_named("measured.numbers")), None);
    let refusal = |tried: &str| refusal_of_text(&with_lines(tried));
    let numbers = hold_refusals("of numbers", refusal);
    assert_eq!(numbers, [3, 4, 5, 6, 7, 8, 9, 10, 31, 32]);
    let rows = table(&page(), "number", "of numbers");
    assert!(rows.iter().all(|row| row[2] == "0"), "the place");
}
