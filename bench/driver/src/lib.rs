//! The stores that workloads are played on, and the workloads.

pub mod making;
pub mod stores;
pub mod workloads;
