//! Bytes set by hand between calls: populated starts, damage, inventories that are not true.

use store::{record, Store, PAGE_SIZE};

#[derive(Clone, Copy, PartialEq, Eq, Debug)]
pub enum Poke {
    /// A big-endian number in the segment.
    Segment { offset: u64, width: u64, value: u64 },
    /// A little-endian number in the inventory.
    Inventory { offset: u64, width: u64, value: u64 },
    /// A record's bytes in the segment.
    Fill { offset: u64, length: u64, seed: u64 },
}

impl Poke {
    pub fn apply(&self, segment: &mut [u8], inventory: &mut [u8]) {
        match *self {
            Poke::Segment { offset, width, value } => {
                part(segment, offset, width).copy_from_slice(&value.to_be_bytes()[8 - width as usize..]);
            }
            Poke::Inventory { offset, width, value } => {
                part(inventory, offset, width).copy_from_slice(&value.to_le_bytes()[..width as usize]);
            }
            Poke::Fill { offset, length, seed } => {
                part(segment, offset, length).copy_from_slice(&record(length, seed));
            }
        }
    }
}

pub fn poke_store(store: &mut dyn Store, pokes: &[Poke]) {
    let (mut segment, mut inventory) = (store.segment().to_vec(), store.inventory().to_vec());
    pokes.iter().for_each(|poke| poke.apply(&mut segment, &mut inventory));
    store.load(&segment, &inventory);
}

/// The pokes that bring back what `pokes` on the segment will have overwritten.
pub fn undoing(pokes: &[Poke], segment: &[u8]) -> Vec<Poke> {
    let undo = |poke: &Poke| match *poke {
        Poke::Segment { offset, width, .. } => {
            let old = &segment[offset as usize..(offset + width) as usize];
            let value = old.iter().fold(0, |value, &byte| value << 8 | u64::from(byte));
            Some(Poke::Segment { offset, width, value })
        }
        _ => None,
    };
    pokes.iter().filter_map(undo).collect()
}

fn part(bytes: &mut [u8], offset: u64, length: u64) -> &mut [u8] {
    &mut bytes[offset as usize..(offset + length) as usize]
}

impl std::fmt::Display for Poke {
    fn fmt(&self, out: &mut std::fmt::Formatter<'_>) -> std::fmt::Result {
        match self {
            Poke::Segment { offset, width, value } => write!(out, "B {offset} {width} {value}"),
            Poke::Inventory { offset, width, value } => write!(out, "V {offset} {width} {value}"),
            Poke::Fill { offset, length, seed } => write!(out, "G {offset} {length} {seed}"),
        }
    }
}

fn in_page(page: usize, place: usize, width: u64, value: u64) -> Poke {
    Poke::Segment { offset: (page * PAGE_SIZE + place) as u64, width, value }
}

pub fn count(page: usize, value: u64) -> Poke {
    in_page(page, 0, 2, value)
}

pub fn first_free(page: usize, value: u64) -> Poke {
    in_page(page, 2, 2, value)
}

pub fn data_start(page: usize, value: u64) -> Poke {
    in_page(page, 4, 4, value)
}

pub fn free_space(page: usize, value: u64) -> Poke {
    in_page(page, 8, 4, value)
}

/// Count, first free, data start and free space.
pub fn header(page: usize, [slots, first, start, free]: [u64; 4]) -> [Poke; 4] {
    [count(page, slots), first_free(page, first), data_start(page, start), free_space(page, free)]
}

pub fn slot(page: usize, slot: usize, value: u64) -> Poke {
    in_page(page, 12 + 8 * slot, 8, value)
}

pub fn back_id(page: usize, offset: usize, value: u64) -> Poke {
    in_page(page, offset, 8, value)
}

pub fn entry(number: usize, value: u64) -> Poke {
    Poke::Inventory { offset: 8 * number as u64, width: 8, value }
}

/// Two nibbles, of an even page and of the one after it.
pub fn nibbles(page: usize, low: u64, high: u64) -> Poke {
    Poke::Inventory { offset: (page as u64 + 240) / 2, width: 1, value: low + 16 * high }
}

/// A slot's eight bytes.
pub fn plain(offset: usize, length: usize) -> u64 {
    (offset as u64) << 32 | length as u64
}

pub fn target(offset: usize, length: usize) -> u64 {
    3 << 62 | plain(offset, length)
}

pub fn redirect(id: u64) -> u64 {
    2 << 62 | id
}

pub fn free(low: u64) -> u64 {
    1 << 62 | low % (1 << 62)
}
