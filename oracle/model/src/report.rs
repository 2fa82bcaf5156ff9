//! The fill report, of document 02's Ask 1. It has no counterpart in the published Rust: this is a plain
//! second implementation, written from the request's words, each figure for itself.

use crate::inventory::class;
use crate::page::{self, slot, Kind, Slot, PAGE};

/// Where each figure stands in a tally. The pages of class c stand at `CLASSES` + c.
pub const PAGES: usize = 0;
pub const FRESH_PAGES: usize = 1;
pub const SLOTS: usize = 2;
pub const RECORDS: usize = 3;
pub const RECORD_BYTES: usize = 4;
pub const FORWARDED: usize = 5;
pub const FREE_BYTES: usize = 6;
pub const CLASSES: usize = 7;

/// How many figures there are.
pub const FIGURES: usize = CLASSES + 16;

/// The figures, in the order in which the calls have them.
pub type Tally = [u64; FIGURES];

const SIZE: u64 = 1;
const DAMAGED: u64 = 4;
const TALLY: u64 = 9;

/// Adds the segment's figures to the tally, unless it is refused; the answer.
pub fn fill_report(segment: &[u8], tally: &mut Tally) -> u64 {
    if segment.len() % PAGE != 0 || segment.len() / PAGE > 32527 {
        return SIZE;
    }
    if !segment.chunks(PAGE).all(page::sound) {
        return DAMAGED;
    }
    let mut sums = tally.map(u128::from);
    for page in segment.chunks(PAGE) {
        sums.iter_mut().zip(of_page(page)).for_each(|(sum, more)| *sum += more as u128);
    }
    if sums.iter().any(|&sum| sum > u128::from(u64::MAX)) {
        return TALLY;
    }
    *tally = sums.map(|sum| sum as u64);
    0
}

/// What a sound page counts for.
fn of_page(page: &[u8]) -> [usize; FIGURES] {
    let mut figures = [0; FIGURES];
    figures[PAGES] = 1;
    if page::fresh(page) {
        figures[FRESH_PAGES] = 1;
        figures[CLASSES] = 1;
        return figures;
    }
    let slots: Vec<Slot> = (0..page::count(page)).map(|k| slot(page, k)).collect();
    let records = || slots.iter().filter(|slot| slot.is_record());
    figures[SLOTS] = slots.len();
    figures[RECORDS] = records().count();
    figures[RECORD_BYTES] = records().map(|record| record.data().1).sum();
    figures[FORWARDED] = slots.iter().filter(|slot| slot.kind == Kind::Target).count();
    figures[FREE_BYTES] = page::free_space(page);
    figures[CLASSES + class(16372 - page::free_space(page))] = 1;
    figures
}
