//! The id of a record.

use std::fmt;

const SLOT_BITS: u32 = 16;
const LAST_PAGE: u64 = u64::MAX >> SLOT_BITS;

/// The id of a record: page × 65,536 + slot. A record keeps its id for as long as it is there,
/// wherever it is moved; once it is erased the id may be given to another.
///
/// It lies in memory as its number does: a `u64`, which is what the archive writes to a list of ids.
#[doc(alias = "RelationTID")]
#[repr(transparent)]
#[derive(Clone, Copy, PartialEq, Eq, Hash, PartialOrd, Ord)]
pub struct Rid(u64);

impl Rid {
    /// The id of a page and a slot. An id has 48 bits for the page; a larger number is held as the
    /// largest, which is past every segment as well.
    pub const fn new(page_id: u64, slot_id: u16) -> Rid {
        let page_id = if page_id > LAST_PAGE { LAST_PAGE } else { page_id };
        Rid(page_id << SLOT_BITS | slot_id as u64)
    }

    /// The record's page.
    pub const fn page_id(self) -> u64 {
        self.0 >> SLOT_BITS
    }

    /// The record's slot on its page.
    pub const fn slot_id(self) -> u16 {
        self.0 as u16
    }
}

impl From<u64> for Rid {
    fn from(id: u64) -> Rid {
        Rid(id)
    }
}

impl From<Rid> for u64 {
    fn from(rid: Rid) -> u64 {
        rid.0
    }
}

impl From<&Rid> for u64 {
    fn from(rid: &Rid) -> u64 {
        rid.0
    }
}

/// Page and slot: `(2,5)`.
impl fmt::Display for Rid {
    fn fmt(&self, out: &mut fmt::Formatter<'_>) -> fmt::Result {
        write!(out, "({},{})", self.page_id(), self.slot_id())
    }
}

/// Page and slot: `Rid(2,5)`.
impl fmt::Debug for Rid {
    fn fmt(&self, out: &mut fmt::Formatter<'_>) -> fmt::Result {
        write!(out, "Rid{self}")
    }
}
