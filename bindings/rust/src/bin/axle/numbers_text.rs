//! The numbers of component data as a text, which `axle write` reads: a line is a word and its
//! numbers. docs/FORMAT.md says what each word takes.

use crate::failure::Failure;
use crate::numbers::{short, Quantity};
use axle::{Numbers, Sensor};

/// A word of the text: how its numbers are typed, and how many they are where that is fixed.
struct Word {
    quantity: Quantity,
    count: Option<usize>,
}

const fn word(name: &'static str, form: &'static str, digits: usize, count: Option<usize>) -> Word {
    let quantity = Quantity { name, form, digits };
    Word { quantity, count }
}

const WORDS: &[Word] = &[
    word("kind", "whole number", 0, Some(1)),
    word("line", "whole number", 0, Some(1)),
    word("ratio", "number", 3, Some(1)),
    word("speeds", "whole number in rpm", 0, None),
    word("torques", "whole number in Nm", 0, None),
    word("input", "whole number", 0, Some(9)),
    word("output", "whole number", 0, Some(9)),
    word("right", "whole number", 0, Some(9)),
    word(ROW, "number in Nm", 2, None),
];

/// The word that may stand more than once.
const ROW: &str = "row";

impl Word {
    fn named(name: &str) -> Result<&'static Word, String> {
        let word = WORDS.iter().find(|word| word.quantity.name == name);
        word.ok_or_else(|| format!("unknown word {name:?}"))
    }

    /// The numbers after the word. One that is beyond 32 bits is the largest of 32 bits: no range
    /// and no sensor reaches so far, so that the library refuses it as it would the number itself.
    fn numbers(&self, texts: &[&str]) -> Result<Vec<u32>, String> {
        if let Some(due) = self.count {
            expect_count(self.quantity.name, texts.len(), due)?;
        }
        texts
            .iter()
            .map(|text| self.quantity.capped(text.as_ref()))
            .collect()
    }
}

fn expect_count(name: &str, count: usize, due: usize) -> Result<(), String> {
    if count == due {
        return Ok(());
    }
    Err(format!("numbers after {name}: {count}, not {due}"))
}

/// The word and the numbers of a line, and which line it is, counted from 1.
struct Statement {
    line: usize,
    name: &'static str,
    numbers: Vec<u32>,
}

/// What the lines of a text state, in their order.
struct Text {
    statements: Vec<Statement>,
}

/// The numbers that a text states. Every line has its line feed, the last too, so that a text that
/// was cut short states no other numbers.
pub fn numbers(text: &str) -> Result<Numbers, Failure> {
    let mut read = Text {
        statements: Vec::new(),
    };
    for (index, line) in text.split_inclusive('\n').enumerate() {
        let line_number = index + 1;
        let taken = read.take(line_number, line);
        taken.map_err(|message| unreadable(line_number, message))?;
    }
    read.numbers()
}

fn unreadable(line: usize, message: String) -> Failure {
    Failure::Failed(format!("line {line}: {message}"))
}

fn is_measured(kind: u16) -> bool {
    kind == 2 || kind == 3
}

impl Text {
    /// Takes a line in. Empty lines and remarks state nothing.
    fn take(&mut self, line: usize, text: &str) -> Result<(), String> {
        if !text.ends_with('\n') {
            return Err("no line feed at its end: the text may be cut short".to_string());
        }
        let parts: Vec<&str> = text.split_ascii_whitespace().collect();
        let (name, texts) = match parts.split_first() {
            Some((name, texts)) if !name.starts_with('#') => (*name, texts),
            _ => return Ok(()),
        };
        let word = Word::named(name)?;
        if name != ROW && self.with(name).next().is_some() {
            return Err(format!("{name} stands for the second time"));
        }
        self.statements.push(Statement {
            line,
            name: word.quantity.name,
            numbers: word.numbers(texts)?,
        });
        Ok(())
    }

    /// The statements with this word.
    fn with<'a>(&'a self, name: &'a str) -> impl Iterator<Item = &'a Statement> {
        let statements = self.statements.iter();
        statements.filter(move |statement| statement.name == name)
    }

    /// The numbers of a word that must be there.
    fn stated(&self, name: &str) -> Result<Vec<u16>, Failure> {
        let statement = self.with(name).next();
        let missing = || Failure::Failed(format!("not stated: {name}"));
        let numbers = statement.ok_or_else(missing)?.numbers.iter();
        Ok(numbers.map(|number| short(*number)).collect())
    }

    /// A sensor, where the kind has it; else it is not looked at.
    fn sensor(&self, name: &str, is_due: bool) -> Result<Sensor, Failure> {
        if !is_due {
            return Ok(Sensor::default());
        }
        let numbers = <[u16; 9]>::try_from(self.stated(name)?);
        Ok(Sensor::from(numbers.expect("the word has nine numbers")))
    }

    /// The torques of all rows. A row of a measured kind has one for each of its sensors.
    fn rows(&self, kind: u16) -> Result<Vec<u32>, Failure> {
        let mut torques = Vec::new();
        for Statement { line, numbers, .. } in self.with(ROW) {
            if is_measured(kind) {
                let counted = expect_count(ROW, numbers.len(), usize::from(kind));
                counted.map_err(|message| unreadable(*line, message))?;
            }
            torques.extend(numbers);
        }
        Ok(torques)
    }

    fn numbers(&self) -> Result<Numbers, Failure> {
        let kind = self.stated("kind")?[0];
        Ok(Numbers {
            kind,
            line: self.stated("line")?[0],
            ratio: self.stated("ratio")?[0],
            speeds: self.stated("speeds")?,
            torques: self.stated("torques")?,
            input: self.sensor("input", is_measured(kind))?,
            output: self.sensor("output", is_measured(kind))?,
            right: self.sensor("right", kind == 3)?,
            rows: self.rows(kind)?,
        })
    }
}
