//! The published Rust, unchanged, over lent pages.
#![allow(warnings)]

include!("../../standins/tree.rs");

/// The class that the published inventory gives a page of so many used bytes: the nibble of page
/// 0 after an update.
pub fn class(used: usize) -> usize {
    use storage::buffer_manager::{Lent, INVENTORY};
    const MOST: usize = storage::page::PAGE_SIZE - 12;
    let lent = Lent::new(1);
    let inventory = access::free_space_inventory::FreeSpaceSegment::new(INVENTORY, MOST, lent.clone());
    lent.begin_call();
    inventory.update_page_size(0, (MOST - used) as u32).expect("page 1 is found for the entries");
    let nibbles = lent.frame(1)[120];
    (nibbles % 16) as usize
}
