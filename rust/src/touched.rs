//! What a repair tells.

use crate::{Refusal, Rid};
use std::error::Error;
use std::{fmt, mem};

/// Where a repair changed something.
#[derive(Debug, Clone, Copy, PartialEq, Eq, Hash)]
pub enum At {
    /// A slot of the page, by its number.
    Slot(u16),
    /// The page's header.
    Header,
    /// The inventory.
    Inventory,
}

/// What a repair did there. Further kinds may be added.
#[derive(Debug, Clone, Copy, PartialEq, Eq, Hash)]
#[non_exhaustive]
pub enum Change {
    /// Nothing: no repair has written this entry.
    Nothing = 0,
    /// The slot is free now: its record did not lie as it must.
    RecordFreed = 1,
    /// The slot is free now: its redirect had no target pointing back.
    RedirectFreed = 2,
    /// The slot was a target without its redirect, and is an ordinary record under its own id now.
    MadeOrdinary = 3,
    /// One or more numbers of the header were worked out anew.
    HeaderWorkedOut = 4,
    /// The header is zeros now: the page is lost, and fresh.
    HeaderZeroed = 5,
    /// The inventory was worked out anew.
    InventoryWorkedOut = 6,
}

/// An entry of the list that [`SlottedPageSegment::repair`](crate::SlottedPageSegment::repair) fills: where something was
/// changed, and what was done. The default is an entry that no repair has written, as a list has them at first.
///
/// Entries come by page; in a page the slots upward and then the header; the inventory last.
#[repr(C)]
#[derive(Clone, Copy, PartialEq, Eq, Hash, Default)]
pub struct Touched {
    page: u64,
    place: u64,
    change: u64,
}

const AT_HEADER: u64 = 65535;
const AT_INVENTORY: u64 = 65536;

/// The archive takes three words for an entry.
const _: () = assert!(mem::size_of::<Touched>() == 24 && mem::align_of::<Touched>() == mem::align_of::<u64>());

impl Touched {
    /// The page; for the inventory the number of pages.
    pub const fn page_id(self) -> u64 {
        self.page
    }

    /// What part of the page it was, or the inventory.
    pub const fn at(self) -> At {
        match self.place {
            AT_HEADER => At::Header,
            AT_INVENTORY => At::Inventory,
            slot => At::Slot(slot as u16),
        }
    }

    /// The id of the slot, if it was a slot.
    pub const fn tid(self) -> Option<Rid> {
        match self.at() {
            At::Slot(slot) => Some(Rid::new(self.page, slot)),
            _ => None,
        }
    }

    /// What was done.
    pub const fn change(self) -> Change {
        match self.change {
            0 => Change::Nothing,
            1 => Change::RecordFreed,
            2 => Change::RedirectFreed,
            3 => Change::MadeOrdinary,
            4 => Change::HeaderWorkedOut,
            5 => Change::HeaderZeroed,
            6 => Change::InventoryWorkedOut,
            _ => panic!("no change has this number: this is not the archive that the crate is for"),
        }
    }

    /// Page, place and change as the archive's three words.
    pub const fn words(self) -> [u64; 3] {
        [self.page, self.place, self.change]
    }
}

/// In words: `page 3, slot 17: record freed, it did not lie as it must`.
impl fmt::Display for Touched {
    fn fmt(&self, out: &mut fmt::Formatter<'_>) -> fmt::Result {
        let what = match self.change() {
            Change::Nothing => return write!(out, "nothing"),
            Change::RecordFreed => "record freed, it did not lie as it must",
            Change::RedirectFreed => "redirect freed, it had no target pointing back",
            Change::MadeOrdinary => "target made an ordinary record, it had no redirect",
            Change::HeaderWorkedOut => "header worked out anew",
            Change::HeaderZeroed => "header zeroed, its records are lost",
            Change::InventoryWorkedOut => "worked out anew",
        };
        match self.at() {
            At::Slot(slot) => write!(out, "page {}, slot {slot}: {what}", self.page),
            At::Header => write!(out, "page {}: {what}", self.page),
            At::Inventory => write!(out, "inventory: {what}"),
        }
    }
}

/// In words: `Touched(page 3: header worked out anew)`.
impl fmt::Debug for Touched {
    fn fmt(&self, out: &mut fmt::Formatter<'_>) -> fmt::Result {
        write!(out, "Touched({self})")
    }
}

/// Why a repair was refused. A refused repair has changed nothing: no page, not the inventory, not the list.
#[derive(Debug, Clone, Copy, PartialEq, Eq, Hash)]
#[non_exhaustive]
pub enum RepairRefusal {
    /// The segment is not 0 to 32,527 whole pages, or the inventory is not one page.
    Size,
    /// The list is too short for all changes.
    Room {
        /// How many entries there would be.
        needed: usize,
    },
}

impl RepairRefusal {
    /// The number in the table of answers.
    pub const fn number(self) -> u64 {
        match self {
            RepairRefusal::Size => Refusal::Size.number(),
            RepairRefusal::Room { .. } => Refusal::Room.number(),
        }
    }

    /// The name in the table of answers.
    pub const fn name(self) -> &'static str {
        match self {
            RepairRefusal::Size => Refusal::Size.name(),
            RepairRefusal::Room { .. } => Refusal::Room.name(),
        }
    }

    /// The number of entries that answer and count tell. The archive answers 0, 1 or 11; that is proved.
    pub(crate) fn of_answer((number, count): (u64, u64)) -> Result<usize, RepairRefusal> {
        match number {
            0 => Ok(count as usize),
            1 => Err(RepairRefusal::Size),
            11 => Err(RepairRefusal::Room { needed: count as usize }),
            _ => panic!("no repair answers {number}: this is not the archive that the crate is for"),
        }
    }
}

/// Number, name and meaning: `11 ROOM: the list is too short, 4 entries are needed`.
impl fmt::Display for RepairRefusal {
    fn fmt(&self, out: &mut fmt::Formatter<'_>) -> fmt::Result {
        match self {
            RepairRefusal::Size => Refusal::Size.fmt(out),
            RepairRefusal::Room { needed } => {
                write!(out, "{} {}: the list is too short, {needed} entries are needed", self.number(), self.name())
            }
        }
    }
}

impl Error for RepairRefusal {}
