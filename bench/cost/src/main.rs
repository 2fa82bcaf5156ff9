//! `cost SLOTS CALLS`: reads the last record of a page so many times. The page has so many records of
//! 64 bytes, at most 227, each of which lies under the one of the slot before; so the read's cost that
//! grows with the slots is that of the page's check.

use hekatosuy::{Rid, SlottedPages, PAGE_SIZE};

const LENGTH: usize = 64;

fn page(slots: usize) -> Vec<u8> {
    let mut page = vec![0; PAGE_SIZE];
    for k in 0..slots {
        let slot = (PAGE_SIZE - LENGTH * (k + 1)) << 32 | LENGTH;
        page[12 + 8 * k..20 + 8 * k].copy_from_slice(&(slot as u64).to_be_bytes());
    }
    page[..2].copy_from_slice(&(slots as u16).to_be_bytes());
    page[2..4].copy_from_slice(&(slots as u16).to_be_bytes());
    page[4..8].copy_from_slice(&((PAGE_SIZE - LENGTH * slots) as u32).to_be_bytes());
    page[8..12].copy_from_slice(&((16372 - (8 + LENGTH) * slots) as u32).to_be_bytes());
    page
}

fn main() {
    let numbers: Vec<usize> = std::env::args().skip(1).filter_map(|word| word.parse().ok()).collect();
    let &[slots @ 1..=227, calls] = &numbers[..] else { panic!("cost SLOTS CALLS, with 1 to 227 slots") };
    let page = page(slots);
    let last = Rid::new(0, slots as u16 - 1);
    for _ in 0..calls {
        let record = SlottedPages::new(std::hint::black_box(&page)).get_record(last);
        assert_eq!(record.map(<[u8]>::len), Ok(LENGTH));
    }
}
