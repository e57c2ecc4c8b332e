//! Holds the library `axle` against the second implementation, and measures it beside plain Rust and doubles.

pub mod answers;
pub mod doubles;
pub mod plain;
pub mod roots;
