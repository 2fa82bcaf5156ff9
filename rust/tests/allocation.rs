//! Many rows in one call take no memory, neither where all go in nor where the call stops; a fill report takes none, and neither do an import,
//! an export and the polishing rule.

use hekatosuy::{Exported, Refusal, Rid, SlottedPageSegment, Stopped, Tally, PAGE_SIZE};
use std::alloc::{GlobalAlloc, Layout, System};
use std::cell::Cell;

thread_local! {
    static TAKEN: Cell<usize> = const { Cell::new(0) };
}

/// The system's memory, counted by the thread that takes it.
struct Counted;

unsafe impl GlobalAlloc for Counted {
    unsafe fn alloc(&self, layout: Layout) -> *mut u8 {
        TAKEN.with(|taken| taken.set(taken.get() + 1));
        System.alloc(layout)
    }

    unsafe fn dealloc(&self, memory: *mut u8, layout: Layout) {
        System.dealloc(memory, layout)
    }
}

#[global_allocator]
static COUNTED: Counted = Counted;

/// How often a call takes memory.
fn taken(call: impl FnOnce()) -> usize {
    let before = TAKEN.with(Cell::get);
    call();
    TAKEN.with(Cell::get) - before
}

#[test]
fn many_rows_take_no_memory() {
    let (mut pages, mut inventory) = (vec![0; 2 * PAGE_SIZE], vec![0; PAGE_SIZE]);
    let (rows, lengths, mut ids) = (vec![7; 300 * 64], [64; 300], [Rid::new(9, 9); 300]);
    let mut segment = SlottedPageSegment::new(&mut pages, &mut inventory);
    assert!(taken(|| drop(vec![0; 9])) > 0, "memory is not counted");
    assert_eq!(taken(|| assert_eq!(segment.insert_records(&rows, &lengths, &mut ids), Ok(()))), 0);
    let full = Err(Stopped { rows: 134, refusal: Refusal::Full });
    assert_eq!(taken(|| assert_eq!(segment.insert_records(&rows, &lengths, &mut ids), full)), 0);
}

#[test]
fn a_fill_report_takes_no_memory() {
    let (mut pages, mut inventory) = (vec![0; 2 * PAGE_SIZE], vec![0; PAGE_SIZE]);
    let mut segment = SlottedPageSegment::new(&mut pages, &mut inventory);
    assert_eq!(segment.insert_record(&[7; 64]), Ok(Rid::new(0, 0)));
    let mut tally = Tally::default();
    assert_eq!(taken(|| assert_eq!(segment.fill_report(&mut tally), Ok(()))), 0);
    tally.records = u64::MAX;
    assert_eq!(taken(|| assert_eq!(segment.fill_report(&mut tally), Err(Refusal::Tally))), 0);
}

#[test]
fn import_and_export_take_no_memory() {
    let (mut pages, mut inventory) = (vec![0; 2 * PAGE_SIZE], vec![0; PAGE_SIZE]);
    let mut segment = SlottedPageSegment::new(&mut pages, &mut inventory);
    let reading = [&[0x52, 0x54, 0, 0, 0, 7, 0, 1, 0, 2, 0, 56][..], &[7; 56]].concat();
    let (file, mut place) = (reading.repeat(300), vec![0; 2 * PAGE_SIZE]);
    assert_eq!(taken(|| assert_eq!(segment.import(&file), Ok(300))), 0);
    let full = Err(Stopped { rows: 134, refusal: Refusal::Full });
    assert_eq!(taken(|| assert_eq!(segment.import(&file), full)), 0);
    let short = Err(Stopped { rows: 0, refusal: Refusal::Short });
    assert_eq!(taken(|| assert_eq!(segment.import(&file[1..]).map_err(|stopped| stopped.rows), Err(0))), 0);
    assert_eq!(taken(|| assert_eq!(segment.import(&file[..file.len() - 1]), short)), 0);
    let whole = Exported { length: 434 * 68, passed: 0 };
    assert_eq!(taken(|| assert_eq!(segment.pages().exported(), Ok(whole))), 0);
    assert_eq!(taken(|| assert_eq!(segment.pages().export(&mut place), Ok(whole))), 0);
    assert_eq!(taken(|| assert_eq!(segment.pages().export(&mut place[..99]), Err(Refusal::Room))), 0);
}

#[test]
fn the_polishing_rule_takes_no_memory() {
    let (mut pages, mut inventory) = (vec![0; PAGE_SIZE], vec![0; PAGE_SIZE]);
    let mut segment = SlottedPageSegment::new(&mut pages, &mut inventory);
    assert!(segment.insert_record(&[0, 0, 0, 7, 0, 1, 0, 0]).is_ok());
    assert!(segment.insert_record(&[0, 0, 0, 7, 0x80, 1, 0, 0]).is_ok());
    assert_eq!(taken(|| assert_eq!(segment.pages().cleared(7, 1, 1), Ok(true))), 0);
    assert_eq!(taken(|| assert_eq!(segment.pages().cleared(7, 1, 2), Ok(false))), 0);
    assert_eq!(taken(|| assert_eq!(segment.pages().cleared(7, 1, 3), Err(Refusal::Rule))), 0);
}
