//! Differential runs: the unchanged Rust module against our program `replay`, call by call.
//!
//! - `script`: the lines of a script and of an answer.
//! - `rust_side`: the Rust module's answer to a call, as observed.
//! - `model`: document 01 once more, in plain Rust, from its text alone.
//! - `generate`: scripts within demand 2's domain.

pub mod generate;
pub mod model;
pub mod rust_side;
pub mod script;
