//! Compares the published Rust, the corrected Rust and the model, and writes traces.

pub mod cases;
pub mod clearings;
pub mod damage;
#[path = "../../../rust/tests/exchange_examples/mod.rs"]
pub mod exchange_examples;
pub mod exchanges;
pub mod files;
pub mod fills;
pub mod lists;
pub mod mirrors;
pub mod misjudged;
pub mod numbers;
pub mod poke;
#[path = "../../../rust/tests/polishing_examples/mod.rs"]
pub mod polishing_examples;
pub mod populate;
pub mod random;
#[path = "../../../rust/tests/repair_examples/mod.rs"]
pub mod repair_examples;
pub mod repairs;
#[path = "../../../rust/tests/report_examples/mod.rs"]
pub mod report_examples;
pub mod reports;
pub mod row_examples;
pub mod rows;
pub mod sequence;
pub mod show;
pub mod slips;
pub mod soundness;
pub mod trace;
pub mod trial;
pub mod widest;
pub mod wreck;

pub use store::*;
