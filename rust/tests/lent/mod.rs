//! Pages and an inventory, and the calls over them.
#![allow(dead_code)] // no test uses all of it

use hekatosuy::{SlottedPageSegment, PAGE_SIZE};

#[derive(Clone, PartialEq)]
pub struct Lent {
    pub pages: Vec<u8>,
    pub inventory: Vec<u8>,
}

impl Lent {
    /// So many pages, all zero.
    pub fn new(pages: usize) -> Lent {
        Lent::of_bytes(pages * PAGE_SIZE, PAGE_SIZE)
    }

    /// So many bytes of pages and of an inventory, all zero.
    pub fn of_bytes(pages: usize, inventory: usize) -> Lent {
        Lent { pages: vec![0; pages], inventory: vec![0; inventory] }
    }

    /// Empty pages into which records of these lengths were inserted.
    pub fn with(pages: usize, lengths: &[usize]) -> Lent {
        let mut lent = Lent::new(pages);
        lengths.iter().for_each(|&length| assert!(lent.calls().insert_record(&row(length, 1)).is_ok()));
        lent
    }

    pub fn calls(&mut self) -> SlottedPageSegment<'_> {
        SlottedPageSegment::new(&mut self.pages, &mut self.inventory)
    }

    /// The big-endian number of so many bytes at a place of a page.
    pub fn number(&self, page: usize, place: usize, bytes: usize) -> usize {
        let start = page * PAGE_SIZE + place;
        self.pages[start..start + bytes].iter().fold(0, |sum, &byte| sum << 8 | byte as usize)
    }

    /// Count, first free slot, data start, free space.
    pub fn header(&self, page: usize) -> [usize; 4] {
        [(0, 2), (2, 2), (4, 4), (8, 4)].map(|(place, bytes)| self.number(page, place, bytes))
    }
}

/// Bytes that differ along the row, and from those of another seed.
pub fn row(length: usize, seed: usize) -> Vec<u8> {
    (0..length).map(|k| (seed + 7 * k + k / 256) as u8).collect()
}
