//! The table of times and ratios, in Markdown.

use crate::timing::{time_text, Contender, Times, Way};

/// The most that the library may take, as a multiple of another's time.
#[derive(Clone, Copy)]
pub struct Bar {
    pub most: f64,
    pub of: Contender,
}

impl Bar {
    pub const fn of_rust(most: f64) -> Bar {
        Bar {
            most,
            of: Contender::Rust,
        }
    }

    pub const fn of_doubles(most: f64) -> Bar {
        Bar {
            most,
            of: Contender::Doubles,
        }
    }

    /// The bar, with whether it is reached.
    fn verdict(self, times: &Times) -> String {
        let ratio = times.ratio(self.of);
        let ratio = ratio.expect("a bar's contender is measured");
        let verdict = if ratio <= self.most {
            "reached"
        } else {
            "missed"
        };
        format!(
            "at most {} of {}: {verdict}",
            self.most,
            self.of.with_article()
        )
    }
}

/// Those that the library is measured beside, in the order of their columns.
const OTHERS: [Contender; 4] = [
    Contender::Rust,
    Contender::Doubles,
    Contender::Reference,
    Contender::Limit,
];

pub fn print_header() {
    let names = OTHERS.map(Contender::name).join(" | ");
    println!("| what | library | {names} | bar |");
    println!("|---|---|---|---|---|---|---|");
}

/// Another's time, and the library's as a multiple of it.
fn cell(times: &Times, other: Contender) -> String {
    let cell = times.get(other).zip(times.ratio(other));
    cell.map(|(time, ratio)| format!("{} ({ratio:.2})", time_text(time)))
        .unwrap_or_default()
}

/// Measures the ways and prints their row.
pub fn print_row(what: &str, bars: &[Bar], ways: Vec<Way>) {
    let times = Times::of(ways);
    let library = times.get(Contender::Library).map(time_text);
    let others = OTHERS.map(|other| cell(&times, other)).join(" | ");
    let verdicts: Vec<String> = bars.iter().map(|bar| bar.verdict(&times)).collect();
    println!(
        "| {what} | {} | {others} | {} |",
        library.unwrap_or_default(),
        verdicts.join(", ")
    );
}
