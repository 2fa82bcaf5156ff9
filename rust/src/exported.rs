//! What an export tells.

use crate::Refusal;

/// How long the file of an export is, and how many records are not in it.
#[derive(Debug, Clone, Copy, PartialEq, Eq, Hash)]
pub struct Exported {
    /// The bytes of the file.
    pub length: usize,
    /// The records of fewer than 8 bytes: they are no readings, and were passed over.
    pub passed: u64,
}

impl Exported {
    /// What answer, length and passed mean.
    pub(crate) fn of_answer((number, length, passed): (u64, u64, u64)) -> Result<Exported, Refusal> {
        Refusal::of_answer(number).map(|()| Exported { length: length as usize, passed })
    }
}
