//! The figures of segments.

use crate::PAGE_SIZE;
use std::{fmt, mem};

/// Figures over any number of segments: [`SlottedPages::fill_report`](crate::SlottedPages::fill_report) adds those of one. The
/// default, zeros throughout, is what to begin with.
///
/// A page is fresh or in use. For each page in use the figures sum to its 16,384 bytes: 12 for its header, 8 for each slot, the
/// record bytes, 8 for each forwarded record, and the free bytes. The sixteen classes sum to the pages, and class 0 has the fresh
/// ones.
#[repr(C)]
#[derive(Debug, Clone, Copy, PartialEq, Eq, Default)]
pub struct Tally {
    /// All pages.
    pub pages: u64,
    /// The pages whose header is zeros, or just initialised. One whose records were all erased is in use.
    pub fresh_pages: u64,
    /// The slots of pages in use, whether they have a record, are free, or name the place that a record was forwarded to.
    pub slots: u64,
    /// The records, those that a scan gives.
    pub records: u64,
    /// The bytes of all records, without the id of 8 bytes that stands before each forwarded one.
    pub record_bytes: u64,
    /// The records that do not lie on the page of their id but were forwarded to another.
    pub forwarded: u64,
    /// The free bytes of pages in use.
    pub free_bytes: u64,
    /// The pages of each class, as the inventory has them: class 0 for fresh ones, and the others by the bytes that slots and
    /// records take. No page is of class 1.
    pub classes: [u64; 16],
}

/// The archive takes 23 words for a tally.
const _: () = assert!(mem::size_of::<Tally>() == 184 && mem::align_of::<Tally>() == mem::align_of::<u64>());

/// The most bytes that slots and records take on a page of each class from 1 on.
const CLASS_ENDS: [u64; 15] =
    [0, 4093, 6487, 8186, 9503, 10580, 11490, 12279, 12974, 13596, 14159, 14673, 15145, 15583, 16372];

impl Tally {
    /// The free bytes in thousandths of all bytes of the pages in use, if there are any.
    fn free_share(&self) -> Option<u128> {
        let bytes = PAGE_SIZE as u128 * u128::from(self.pages.checked_sub(self.fresh_pages)?);
        (1000 * u128::from(self.free_bytes) + bytes / 2).checked_div(bytes)
    }
}

/// Digits in groups of three: `16,384`.
fn grouped(number: u64) -> String {
    match number / 1000 {
        0 => number.to_string(),
        thousands => format!("{},{:03}", grouped(thousands), number % 1000),
    }
}

/// What the pages of a class have in common.
fn meaning(class: usize) -> String {
    match class {
        0 => "fresh".to_string(),
        1 => "no byte used".to_string(),
        _ => format!("{} to {} bytes used", grouped(CLASS_ENDS[class - 2] + 1), grouped(CLASS_ENDS[class - 1])),
    }
}

/// A line for each figure, without those of classes that have no page:
///
/// ```text
/// pages                   3
/// fresh pages             0
/// slots                   4
/// records                 3
/// record bytes       33,000
/// forwarded records       1
/// free bytes         16,076  32.7 % of the bytes of pages in use
/// pages of class 3        1  4,094 to 6,487 bytes used
/// pages of class 8        1  11,491 to 12,279 bytes used
/// pages of class 15       1  15,584 to 16,372 bytes used
/// ```
impl fmt::Display for Tally {
    fn fmt(&self, out: &mut fmt::Formatter<'_>) -> fmt::Result {
        let seven = [
            ("pages", self.pages),
            ("fresh pages", self.fresh_pages),
            ("slots", self.slots),
            ("records", self.records),
            ("record bytes", self.record_bytes),
            ("forwarded records", self.forwarded),
            ("free bytes", self.free_bytes),
        ];
        let widest = seven.iter().map(|line| line.1).chain(self.classes).max().map_or(0, |most| grouped(most).len());
        for (place, (name, figure)) in seven.into_iter().enumerate() {
            write!(out, "{}{name:17}  {:>widest$}", if place > 0 { "\n" } else { "" }, grouped(figure))?;
        }
        if let Some(share) = self.free_share() {
            write!(out, "  {}.{} % of the bytes of pages in use", share / 10, share % 10)?;
        }
        for (class, &pages) in self.classes.iter().enumerate().filter(|(_, &pages)| pages > 0) {
            write!(out, "\npages of class {class:<2}  {:>widest$}  {}", grouped(pages), meaning(class))?;
        }
        Ok(())
    }
}
