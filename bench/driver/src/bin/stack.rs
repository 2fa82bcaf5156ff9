//! `stack`: the most stack, in bytes, that each call of the archive took over generated sequences of
//! calls, damaged pages and untrue inventories among them.
//!
//! The stack below the caller is painted before each call; what is no longer painted afterwards was
//! used. The crate's own frames are counted as well.

use hekatosuy::{Rid, SlottedPageSegment, SlottedPages, Tally, Touched};
use judge::sequence::{any_style, few_pages, Event, Sequence};
use std::arch::asm;
use std::hint::black_box;
use std::ptr::{read_volatile, write_volatile};
use store::{record, Call, PAGE_SIZE};

const SEQUENCES: u64 = 400;
/// The stack of the thread, how much of it is painted, and how close to the caller.
const STACK: usize = 1 << 20;
const PAINTED: usize = 1 << 18;
const MARGIN: usize = 256;
const PAINT: u64 = 0xA5C3_96E1_0F5A_B4D2;

#[inline(always)]
fn stack_pointer() -> usize {
    let place;
    unsafe { asm!("mov {}, rsp", out(reg) place, options(nomem, nostack, preserves_flags)) };
    place
}

/// How far below its caller a call reached.
#[inline(never)]
fn depth(call: &mut dyn FnMut() -> bool) -> usize {
    let top = (stack_pointer() - MARGIN) & !7;
    let words = (top - PAINTED..top).step_by(8);
    words.clone().for_each(|word| unsafe { write_volatile(word as *mut u64, PAINT) });
    black_box(call());
    let lowest = words.clone().find(|&word| unsafe { read_volatile(word as *const u64) } != PAINT);
    top + MARGIN - lowest.unwrap_or(top)
}

const CALLS: [&str; 14] = [
    "insert_record",
    "allocate",
    "get_record",
    "write_record",
    "resize_record",
    "erase_record",
    "scan, a step",
    "repair",
    "insert_records",
    "fill_report",
    "import",
    "export",
    "cleared",
    "whole_readings",
];

struct Lent {
    segment: Vec<u8>,
    inventory: Vec<u8>,
}

impl Lent {
    /// Which call it was, and its depth.
    fn call(&mut self, call: Call) -> (usize, usize) {
        if call == Call::Scan {
            return (6, self.scan());
        }
        let mut calls = SlottedPageSegment::new(&mut self.segment, &mut self.inventory);
        match call {
            Call::Insert { length, seed } => {
                let data = record(length, seed);
                (0, depth(&mut || calls.insert_record(&data).is_ok()))
            }
            Call::Allocate { size } => (1, depth(&mut || calls.allocate(size as usize).is_ok())),
            Call::Read { id } => (2, depth(&mut || calls.get_record(id.into()).is_ok())),
            Call::Write { id, length, seed } => {
                let data = record(length, seed);
                (3, depth(&mut || calls.write_record(id.into(), &data).is_ok()))
            }
            Call::Resize { id, size } => (4, depth(&mut || calls.resize_record(id.into(), size as usize).is_ok())),
            Call::Erase { id } => (5, depth(&mut || calls.erase_record(id.into()).is_ok())),
            Call::Scan => unreachable!("a scan has steps of its own"),
        }
    }

    /// A repair, of a copy.
    fn repair(&self) -> usize {
        let (mut segment, mut inventory) = (self.segment.clone(), self.inventory.clone());
        let mut list = vec![Touched::default(); 2047 * segment.len() / PAGE_SIZE + 1];
        let mut calls = SlottedPageSegment::new(&mut segment, &mut inventory);
        depth(&mut || calls.repair(&mut list).is_ok())
    }

    /// Many rows in one call, on a copy: the record, one of no bytes, and the record again.
    fn insert_records(&self, record: &[u8]) -> usize {
        let (mut segment, mut inventory) = (self.segment.clone(), self.inventory.clone());
        let (rows, length) = ([record, record].concat(), record.len() as u64);
        let mut ids = [Rid::from(0); 3];
        let mut calls = SlottedPageSegment::new(&mut segment, &mut inventory);
        depth(&mut || calls.insert_records(&rows, &[length, 0, length], &mut ids).is_ok())
    }

    /// An import of the same three, on a copy, of which a file has no record under 8 bytes.
    fn import(&self, record: &[u8]) -> usize {
        let (mut segment, mut inventory) = (self.segment.clone(), self.inventory.clone());
        let row: Vec<u8> = record.iter().copied().chain([0; 8]).take(record.len().clamp(8, 16364)).collect();
        let file = model::exchange::file_of(&[&row, &[0; 8], &row]);
        let mut calls = SlottedPageSegment::new(&mut segment, &mut inventory);
        depth(&mut || calls.import(&file).is_ok())
    }

    /// An export of all, into as much room as is enough.
    fn export(&self) -> usize {
        let mut place = vec![0; self.segment.len()];
        depth(&mut || SlottedPages::new(&self.segment).export(&mut place).is_ok())
    }

    /// The mirror of the first reading, any where there is none.
    fn mirror(&self) -> u32 {
        let mut records = SlottedPages::new(&self.segment).scan().flatten();
        records.find_map(|(_, record)| record.first_chunk().copied()).map_or(7, u32::from_be_bytes)
    }

    fn cleared(&self) -> usize {
        let mirror = self.mirror();
        depth(&mut || SlottedPages::new(&self.segment).cleared(mirror, 2048, 2).is_ok())
    }

    fn whole_readings(&self) -> usize {
        let mirror = self.mirror();
        depth(&mut || SlottedPages::new(&self.segment).whole_readings(mirror, 2048).is_ok())
    }

    fn fill_report(&self) -> usize {
        let mut tally = Tally::default();
        depth(&mut || SlottedPages::new(&self.segment).fill_report(&mut tally).is_ok())
    }

    /// The calls that read all pages.
    fn read_all(&self, most: &mut [usize; CALLS.len()]) {
        most[9] = most[9].max(self.fill_report());
        most[11] = most[11].max(self.export());
        most[12] = most[12].max(self.cleared());
        most[13] = most[13].max(self.whole_readings());
    }

    /// The deepest of the first steps.
    fn scan(&self) -> usize {
        let mut scan = SlottedPages::new(&self.segment).scan();
        (0..20).map(|_| depth(&mut || scan.next().is_some())).max().unwrap_or(0)
    }
}

fn run(seed: u64, most: &mut [usize; CALLS.len()]) {
    let n = few_pages(seed);
    let mut lent = Lent { segment: vec![0; n * PAGE_SIZE], inventory: vec![0; PAGE_SIZE] };
    let mut sequence = Sequence::new(seed, any_style(seed), n, 100);
    while let Some(event) = sequence.next(&lent.segment) {
        match event {
            Event::Call(call) => {
                if let Call::Insert { length, seed } = call {
                    most[8] = most[8].max(lent.insert_records(&record(length, seed)));
                    most[10] = most[10].max(lent.import(&record(length, seed)));
                }
                let (kind, depth) = lent.call(call);
                most[kind] = most[kind].max(depth);
                if call == Call::Scan {
                    lent.read_all(most);
                }
            }
            Event::Pokes(pokes) => {
                pokes.iter().for_each(|poke| poke.apply(&mut lent.segment, &mut lent.inventory));
                most[7] = most[7].max(lent.repair());
                lent.read_all(most);
            }
        }
    }
}

fn main() {
    let measured = std::thread::Builder::new().stack_size(STACK).spawn(|| {
        let mut most = [0; CALLS.len()];
        (1..=SEQUENCES).for_each(|seed| run(seed, &mut most));
        most
    });
    let most = measured.expect("a thread is made").join().expect("all calls ended");
    CALLS.iter().zip(most).for_each(|(call, most)| println!("{most} {call}"));
}
