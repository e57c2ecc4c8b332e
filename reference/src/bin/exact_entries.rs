//! Prints the cases of `exact_cases`, one a line, each with two whole numbers LOW and HIGH: its exact entry in hundredths of Nm lies between LOW / 10,000,000 and HIGH / 10,000,000, both included.

use reference::exact_cases::{HALF_SHAFTS, MEASURED, STANDARD};

fn main() {
    for case in MEASURED {
        println!("{}", case.printed());
    }
    for case in HALF_SHAFTS {
        println!("{}", case.printed());
    }
    for case in STANDARD {
        println!("{}", case.printed());
    }
}
