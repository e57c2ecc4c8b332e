//! The same rules in plain Rust, as a good engineer writes them for speed: what does not depend on a row is reckoned once, a row's roots are the machine's with a correction in whole numbers, its quotients are products, a text is written and read by hand in one pass. It is the yardstick of the benchmark.
//!
//! It answers what the library answers and tests what the library tests, but for component data: its fields but for the axes are taken as right. It does not say which rule is broken nor where, and what is lent may be partly written where it answers nothing.

mod build;
mod component;
mod digits;
mod listing;
mod load;
mod lookup;
mod map;
mod retarder;
mod sensor;
mod steps;

pub use build::build;
pub use component::{Component, LINES};
pub use listing::listing;
pub use load::load;
pub use lookup::{loss, losses, nearest};
pub use map::largest;
pub use retarder::drag;
pub use steps::steps;
