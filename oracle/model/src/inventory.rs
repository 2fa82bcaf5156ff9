//! The inventory: a nibble for each page and fifteen entries.

use crate::notes::{Notes, Step};

/// The highest number of used bytes of each class from 1 on.
const CLASS_ENDS: [usize; 15] =
    [0, 4093, 6487, 8186, 9503, 10580, 11490, 12279, 12974, 13596, 14159, 14673, 15145, 15583, 16372];

pub fn class(used: usize) -> usize {
    CLASS_ENDS.iter().position(|&end| used <= end).map_or(15, |place| place + 1)
}

pub fn nibble(inventory: &[u8], page: usize) -> usize {
    let pair = inventory[(page + 240) / 2] as usize;
    if page % 2 == 0 { pair % 16 } else { pair / 16 }
}

fn set_nibble(inventory: &mut [u8], page: usize, value: usize) {
    let pair = &mut inventory[(page + 240) / 2];
    *pair = if page % 2 == 0 { *pair / 16 * 16 + value as u8 } else { *pair % 16 + 16 * value as u8 };
}

pub fn entry(inventory: &[u8], number: usize) -> u64 {
    u64::from_le_bytes(inventory[8 * number..8 * number + 8].try_into().unwrap())
}

fn set_entry(inventory: &mut [u8], number: usize, page: usize) {
    inventory[8 * number..8 * number + 8].copy_from_slice(&(page as u64).to_le_bytes());
}

/// The entry that a request of so many bytes reads; `None` if its need is above 16,372.
pub fn request(inventory: &[u8], size: usize) -> Option<u64> {
    (size + 8 <= 16372).then(|| entry(inventory, class(16372 - size - 8) - 1))
}

/// Page `page` of `n` has so many bytes free now.
pub fn update(inventory: &mut [u8], n: usize, page: usize, free: usize, notes: &mut Notes) {
    let (old, new) = (nibble(inventory, page), class(16372 - free));
    if old == new {
        notes.step(Step::SameClass);
        return;
    }
    notes.step(if old < new { Step::ClassRises } else { Step::ClassFalls });
    notes.step_if(new == 15, Step::IntoClass15);
    notes.step_if(old == 15, Step::OutOfClass15);
    set_nibble(inventory, page, new);
    let named = (old..15).take_while(|&c| c < new && entry(inventory, c) == page as u64).count();
    place_entries(inventory, n, page, old..old + named, notes);
    let later = (new..15).take_while(|&c| entry(inventory, c) > page as u64).count();
    notes.fault_if(old == 15 && later > 0, 9);
    notes.step(if later > 0 { Step::EntryLowered } else { Step::EntryNotLowered });
    (new..new + later).for_each(|c| set_entry(inventory, c, page));
}

/// Each entry goes to the first page after `page` whose nibble is at most its number.
fn place_entries(inventory: &mut [u8], n: usize, page: usize, entries: std::ops::Range<usize>, notes: &mut Notes) {
    let lowest = entries.start;
    let mut places = Vec::new();
    for number in entries {
        let place = (page + 1..n).find(|&p| nibble(inventory, p) <= number).unwrap_or(n);
        // The Rust goes on past page n - 1 and takes page n only if its nibble suits as well.
        notes.fault_if(place == n && nibble(inventory, n) > lowest, 15);
        notes.step(if place == n { Step::EntryMovedToEnd } else { Step::EntryMoved });
        set_entry(inventory, number, place);
        places.push(place);
    }
    notes.step_if(places.windows(2).any(|pair| pair[0] != pair[1]), Step::EntriesApart);
}
