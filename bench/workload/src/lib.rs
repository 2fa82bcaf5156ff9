//! Workloads as lists of calls: made once, kept in a file, played on every store.
//!
//! A plan has two units of work of equally many calls. A player sets up the same bytes whether it
//! then plays one unit or both, so what it costs to play both, less what it costs to play one, is
//! what the second unit costs.

mod plan;
mod play;

pub use plan::{parts, Call, Left, Op, Plan, PAGE_SIZE};
pub use play::{play, pool, record, refused, summary, with_answer, Subject};
