//! The archive's class table against the published formula, min(15, ceil(2^(x/4093))), through the
//! public calls: an insert asks the inventory by a class, and tells it a page's class afterwards.

use hekatosuy::{Refusal, SlottedPageSegment, MAX_RECORD_SIZE, PAGE_SIZE};

const PAGES: u64 = 1;
const USABLE: usize = PAGE_SIZE - 12;
const SLOT: usize = 8;

/// A record of this length into a fresh page, by an inventory with these entries: whether it went
/// in, and the page's nibble afterwards.
fn insert(length: usize, entries: impl Fn(usize) -> u64) -> (bool, usize) {
    let (mut page, mut inventory) = (vec![0; PAGE_SIZE], vec![0; PAGE_SIZE]);
    (0..15).for_each(|number| inventory[8 * number..8 * number + 8].copy_from_slice(&entries(number).to_le_bytes()));
    let answer = SlottedPageSegment::new(&mut page, &mut inventory).insert_record(&vec![1; length]);
    assert!(matches!(answer, Ok(_) | Err(Refusal::Full)), "{length} bytes: {answer:?}");
    (answer.is_ok(), (inventory[120] % 16) as usize)
}

#[test]
fn all_values() {
    let mut run = vec![false; USABLE + 1];
    for length in 0..=MAX_RECORD_SIZE {
        // the page's class, by what is used
        let used = length + SLOT;
        assert_eq!(insert(length, |_| 0), (true, original::class(used)), "the class of {used} in an update");
        // the request's class, by what is left: it reads the entry before its class, and no other
        let left = USABLE - used;
        let read = original::class(left) - 1;
        let only = |other: u64, here: u64| move |number| if number == read { here } else { other };
        assert!(insert(length, only(PAGES, 0)).0, "the class of {left} in a request is not {}", read + 1);
        assert!(!insert(length, only(0, PAGES)).0, "the class of {left} in a request is not {}", read + 1);
        (run[used], run[left]) = (true, true);
    }
    let values = run.iter().filter(|&&run| run).count();
    assert_eq!(values, 16373);
    let each = MAX_RECORD_SIZE + 1;
    println!("counted: {values} values of the class table ({each} in updates, {each} in requests), 0 differences from the published formula");
}
