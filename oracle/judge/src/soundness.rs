//! Document 01's sound segment: what calls on a sound one must leave.

use model::inventory::{class, entry, nibble};
use model::page::{count, free_space, fresh, slot, sound, Kind, Slot};
use store::PAGE_SIZE;

fn pages(segment: &[u8]) -> Vec<&[u8]> {
    segment.chunks(PAGE_SIZE).collect()
}

/// All slots with their ids.
fn slots<'a>(pages: &'a [&'a [u8]]) -> impl Iterator<Item = (u64, Slot)> + 'a {
    let of_page = |(number, &page): (usize, &&'a [u8])| (0..count(page)).map(move |k| ((number * 65536 + k) as u64, slot(page, k)));
    pages.iter().enumerate().flat_map(of_page)
}

fn slot_of(pages: &[&[u8]], id: u64) -> Option<Slot> {
    let page = pages.get((id / 65536) as usize)?;
    let k = (id % 65536) as usize;
    (k < count(page)).then(|| slot(page, k))
}

fn back_id(pages: &[&[u8]], target: u64) -> Option<u64> {
    let slot = slot_of(pages, target).filter(|slot| slot.kind == Kind::Target)?;
    let bytes = &pages[(target / 65536) as usize][slot.offset..slot.offset + 8];
    Some(u64::from_be_bytes(bytes.try_into().ok()?))
}

/// Each redirect names a target on another page that names it, each target is so named.
fn forwarding_is_sound(pages: &[&[u8]]) -> bool {
    slots(pages).all(|(id, slot)| match slot.kind {
        Kind::Redirect => slot.id / 65536 != id / 65536 && back_id(pages, slot.id) == Some(id),
        Kind::Target => {
            let root = back_id(pages, id).and_then(|root| slot_of(pages, root));
            root.is_some_and(|root| root.kind == Kind::Redirect && root.id == id)
        }
        _ => true,
    })
}

fn inventory_is_true(pages: &[&[u8]], inventory: &[u8]) -> bool {
    let n = pages.len();
    let true_nibble = |page: &[u8]| if fresh(page) { 0 } else { class(16372 - free_space(page)) };
    let lowest = |number| pages.iter().position(|page| true_nibble(page) <= number).unwrap_or(n);
    (0..n).all(|page| nibble(inventory, page) == true_nibble(pages[page]))
        && (n..32528).all(|page| nibble(inventory, page) == 0)
        && (0..15).all(|number| entry(inventory, number) == lowest(number) as u64)
}

/// Whether redirects and targets name each other, of pages that are sound.
pub fn has_sound_forwarding(segment: &[u8]) -> bool {
    forwarding_is_sound(&pages(segment))
}

/// Of pages that are sound.
pub fn has_true_inventory(segment: &[u8], inventory: &[u8]) -> bool {
    inventory_is_true(&pages(segment), inventory)
}

pub fn is_sound(segment: &[u8], inventory: &[u8]) -> bool {
    let pages = pages(segment);
    pages.iter().all(|page| sound(page)) && forwarding_is_sound(&pages) && inventory_is_true(&pages, inventory)
}
