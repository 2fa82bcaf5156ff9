//! The store's steps over plain bytes, written from document 01 and not from the Rust.
//!
//! It serves three ends. It checks the patched Rust. It tells, from the state before a call and
//! its arguments, which faults of document 01's list the published Rust meets in the call: the
//! notes are made where the steps pass a place at which the Rust goes wrong, without looking at
//! what the Rust did. And it counts which steps were reached. [`repair`], [`rows`], [`report`],
//! [`exchange`] and [`polishing`], which the Rust has not, are written from document 02's requests
//! in the same way.

pub mod exchange;
pub mod inventory;
mod notes;
pub mod page;
pub mod polishing;
pub mod repair;
pub mod report;
pub mod rows;
mod segment;

pub use notes::{Notes, Step, STEPS};
pub use segment::Model;
