//! The comparison at scale: generated cases through the library `axle` and through the second implementation, with demand 3 checked on the answers.

use measure::answers::{answer, Lent};
use reference::at_scale::{by_chance, systematic};
use reference::cases::Case;
use reference::reply::{reply, Seen};
use reference::stored::broken;
use std::process::ExitCode;
use std::time::{Duration, Instant};

struct Run {
    seen: Seen,
    lent: Lent,
    compared: u64,
    differ: u64,
}

impl Run {
    fn compare(&mut self, case: &Case) {
        let ours = answer(case, &mut self.lent);
        let theirs = reply(case, &mut self.seen);
        self.compared += 1;
        if ours != theirs {
            self.differ += 1;
            if self.differ == 1 {
                show(case, &ours, &theirs);
            }
        }
    }
}

fn show(case: &Case, ours: &[u8], theirs: &[u8]) {
    let digits: String = case.bytes().iter().map(|b| format!("{b:02X}")).collect();
    eprintln!("case: {digits}");
    for (name, answer) in [("library", ours), ("reference", theirs)] {
        let text = String::from_utf8_lossy(&answer[..answer.len().min(2_000)]);
        eprintln!("{name}:\n{text}");
    }
}

/// The library builds data; it does not export the reader or the program's report.
fn as_build(case: Case) -> Case {
    match case {
        Case::Read(data) | Case::Program(data) => Case::of_data(data),
        other => other,
    }
}

fn main() -> ExitCode {
    let arguments: Vec<u64> = std::env::args()
        .skip(1)
        .filter_map(|text| text.parse().ok())
        .collect();
    let &[count, seed, seconds] = arguments.as_slice() else {
        eprintln!("compare COUNT SEED SECONDS: at most so many cases and so many seconds");
        return ExitCode::from(2);
    };
    let (start, limit) = (Instant::now(), Duration::from_secs(seconds));
    let mut run = Run {
        seen: Seen::default(),
        lent: Lent::default(),
        compared: 0,
        differ: 0,
    };
    for case in systematic(seed) {
        run.compare(&as_build(case));
    }
    let mut number = 0;
    while run.compared < count && start.elapsed() < limit {
        run.compare(&as_build(by_chance(seed, number)));
        number += 1;
        if number % 20_000 == 0 {
            eprintln!(
                "{} of {count} compared, {} differ, {} s",
                run.compared,
                run.differ,
                start.elapsed().as_secs()
            );
        }
    }
    print!("{}", run.seen);
    println!("{} compared, {} differ", run.compared, run.differ);
    ExitCode::from(u8::from(run.differ > 0 || broken(&run.seen) > 0))
}
