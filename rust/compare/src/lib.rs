//! The crate `hekatosuy` as a store that the judge can compare.

use hekatosuy::{Refusal, Rid, SlottedPageSegment, SlottedPages};
use judge::clearings::Polishing;
use judge::exchanges::Exchange;
use judge::mirrors::Asked;
use std::ops::Range;
use std::{env, thread};
use store::{Answer, Found, Store, DONE};

extern "C" {
    fn hk_insert_records(
        segment: *mut u8,
        segment_len: usize,
        inventory: *mut u8,
        inventory_len: usize,
        rows: *const u8,
        rows_len: usize,
        lengths: *const u64,
        lengths_len: usize,
        ids: *mut u64,
        ids_len: usize,
        inserted: *mut u64,
    ) -> u64;
    fn hk_repair(
        segment: *mut u8,
        segment_len: usize,
        inventory: *mut u8,
        inventory_len: usize,
        entries: *mut u64,
        entries_len: usize,
        count: *mut u64,
    ) -> u64;
    fn hk_fill_report(segment: *const u8, segment_len: usize, tally: *mut u64) -> u64;
    fn hk_import(
        segment: *mut u8,
        segment_len: usize,
        inventory: *mut u8,
        inventory_len: usize,
        file: *const u8,
        file_len: usize,
        inserted: *mut u64,
    ) -> u64;
    fn hk_export(
        segment: *const u8,
        segment_len: usize,
        file: *mut u8,
        file_room: usize,
        length: *mut u64,
        passed: *mut u64,
    ) -> u64;
    fn hk_cleared(segment: *const u8, segment_len: usize, mirror: u64, rows: u64, edition: u64, cleared: *mut u64) -> u64;
    fn hk_whole_readings(segment: *const u8, segment_len: usize, mirror: u64, rows: u64, words: *mut u64, words_len: usize) -> u64;
}

/// Answer and rows told of an insert of many rows, which stand end to end, into any bytes.
pub fn insert_records(segment: &mut [u8], inventory: &mut [u8], rows: &[u8], lengths: &[u64], ids: &mut [u64]) -> (u64, u64) {
    let mut inserted = u64::MAX;
    let answer = unsafe {
        hk_insert_records(
            segment.as_mut_ptr(),
            segment.len(),
            inventory.as_mut_ptr(),
            inventory.len(),
            rows.as_ptr(),
            rows.len(),
            lengths.as_ptr(),
            lengths.len(),
            ids.as_mut_ptr(),
            ids.len(),
            &mut inserted,
        )
    };
    (answer, inserted)
}

/// What stands before and behind a tally, and words.
const KEPT: u64 = 0x7777_7777_7777_7777;

/// The answer to a fill report over any bytes. The words beside the tally must stay.
pub fn fill_report(segment: &[u8], tally: &mut [u64; 23]) -> u64 {
    let mut words = [KEPT; 25];
    words[1..24].copy_from_slice(tally);
    let answer = unsafe { hk_fill_report(segment.as_ptr(), segment.len(), words[1..24].as_mut_ptr()) };
    assert_eq!((words[0], words[24]), (KEPT, KEPT), "a word beside the tally is written");
    tally.copy_from_slice(&words[1..24]);
    answer
}

/// Answer and records told of an import into any bytes.
pub fn import(segment: &mut [u8], inventory: &mut [u8], file: &[u8]) -> (u64, u64) {
    let mut inserted = u64::MAX;
    let answer = unsafe {
        hk_import(
            segment.as_mut_ptr(),
            segment.len(),
            inventory.as_mut_ptr(),
            inventory.len(),
            file.as_ptr(),
            file.len(),
            &mut inserted,
        )
    };
    (answer, inserted)
}

/// What stands before and behind an export's place.
const BESIDE: [u8; 8] = [0x77; 8];

/// Answer, length and records passed over of an export of any bytes. The bytes beside the place must stay.
pub fn export(segment: &[u8], place: &mut [u8]) -> (u64, u64, u64) {
    let (mut length, mut passed) = (u64::MAX, u64::MAX);
    let mut bytes = [&BESIDE[..], place, &BESIDE].concat();
    let lent = &mut bytes[8..8 + place.len()];
    let answer = unsafe {
        hk_export(segment.as_ptr(), segment.len(), lent.as_mut_ptr(), lent.len(), &mut length, &mut passed)
    };
    place.copy_from_slice(lent);
    assert!(bytes[..8] == BESIDE && bytes[8 + place.len()..] == BESIDE, "a byte beside the place is written");
    (answer, length, passed)
}

/// Answer to a question about any bytes, and whether the mirror is cleared.
pub fn cleared(segment: &[u8], asked: Asked) -> (u64, u64) {
    let mut cleared = u64::MAX;
    let answer = unsafe { hk_cleared(segment.as_ptr(), segment.len(), asked.mirror, asked.rows, asked.edition, &mut cleared) };
    (answer, cleared)
}

/// Answer to a list of whole readings of any bytes. The words beside those that are lent must stay.
pub fn whole_readings(segment: &[u8], asked: Asked, words: &mut [u64]) -> u64 {
    let mut lent = [&[KEPT][..], words, &[KEPT]].concat();
    let answer = unsafe {
        hk_whole_readings(segment.as_ptr(), segment.len(), asked.mirror, asked.rows, lent[1..].as_mut_ptr(), words.len())
    };
    words.copy_from_slice(&lent[1..=words.len()]);
    assert_eq!((lent[0], lent[words.len() + 1]), (KEPT, KEPT), "a word beside those that are lent is written");
    answer
}

/// The archive's import, export and polishing rule, as the judge takes them.
pub struct Archive;

impl Exchange for Archive {
    fn import(&self, segment: &mut [u8], inventory: &mut [u8], file: &[u8]) -> (u64, u64) {
        import(segment, inventory, file)
    }

    fn export(&self, segment: &[u8], place: &mut [u8]) -> (u64, u64, u64) {
        export(segment, place)
    }
}

impl Polishing for Archive {
    fn cleared(&self, segment: &[u8], asked: Asked) -> (u64, u64) {
        cleared(segment, asked)
    }

    fn whole_readings(&self, segment: &[u8], asked: Asked, words: &mut [u64]) -> u64 {
        whole_readings(segment, asked, words)
    }
}

/// So many seeds from `first` on: as the environment's variable says, else the usual number.
pub fn seeds(variable: &str, first: u64, usual: u64) -> Range<u64> {
    let wanted = env::var(variable).map(|number| number.parse().unwrap_or_else(|_| panic!("{variable} is a number")));
    first..first + wanted.unwrap_or(usual)
}

/// What `run` counts over these seeds, added up; on all processors at once.
pub fn over<Counts: Default + Send>(seeds: &Range<u64>, run: fn(u64, &mut Counts), add: fn(&mut Counts, &Counts)) -> Counts {
    let processors = thread::available_parallelism().map_or(1, usize::from);
    let part = |first: usize| {
        let mut counts = Counts::default();
        seeds.clone().skip(first).step_by(processors).for_each(|seed| run(seed, &mut counts));
        counts
    };
    thread::scope(|scope| {
        let parts: Vec<_> = (0..processors).map(|first| scope.spawn({ let part = &part; move || part(first) })).collect();
        let mut sum = Counts::default();
        parts.into_iter().for_each(|part| add(&mut sum, &part.join().expect("a seed differs, as told above")));
        sum
    })
}

/// Bytes of any length, lent anew for each call.
pub struct Ours {
    segment: Vec<u8>,
    inventory: Vec<u8>,
}

fn answer<T>(result: &Result<T, Refusal>) -> Answer {
    result.as_ref().err().map_or(DONE, |refusal| Answer::Number(refusal.number()))
}

fn new_id(result: Result<Rid, Refusal>) -> (Answer, u64) {
    (answer(&result), result.map_or(0, u64::from))
}

impl Ours {
    pub fn new(segment: &[u8], inventory: &[u8]) -> Ours {
        Ours { segment: segment.to_vec(), inventory: inventory.to_vec() }
    }

    /// As [`insert_records`], into these bytes.
    pub fn insert_records(&mut self, rows: &[u8], lengths: &[u64], ids: &mut [u64]) -> (u64, u64) {
        insert_records(&mut self.segment, &mut self.inventory, rows, lengths, ids)
    }

    /// Answer and count of a repair with a list of any number of words; the crate lends three for each entry.
    pub fn repair(&mut self, list: &mut [u64]) -> (u64, u64) {
        let mut count = u64::MAX;
        let answer = unsafe {
            hk_repair(
                self.segment.as_mut_ptr(),
                self.segment.len(),
                self.inventory.as_mut_ptr(),
                self.inventory.len(),
                list.as_mut_ptr(),
                list.len(),
                &mut count,
            )
        };
        (answer, count)
    }

    /// The crate's calls over the same bytes.
    pub fn lend(&mut self) -> SlottedPageSegment<'_> {
        SlottedPageSegment::new(&mut self.segment, &mut self.inventory)
    }

    fn offset_of(&self, record: &[u8]) -> u64 {
        (record.as_ptr() as usize - self.segment.as_ptr() as usize) as u64
    }

    fn found(&self, (tid, record): (Rid, &[u8])) -> Found {
        Found { id: tid.into(), offset: self.offset_of(record), length: record.len() as u64 }
    }
}

impl Store for Ours {
    fn bytes(&self) -> (&[u8], &[u8]) {
        (&self.segment, &self.inventory)
    }

    fn bytes_mut(&mut self) -> (&mut [u8], &mut [u8]) {
        (&mut self.segment, &mut self.inventory)
    }

    fn insert_record(&mut self, record: &[u8]) -> (Answer, u64) {
        new_id(self.lend().insert_record(record))
    }

    fn allocate(&mut self, size: u64) -> (Answer, u64) {
        new_id(self.lend().allocate(size as usize))
    }

    fn get_record(&mut self, id: u64) -> (Answer, u64, u64) {
        let result = SlottedPages::new(&self.segment).get_record(id.into());
        let (offset, length) = result.map_or((0, 0), |record| (self.offset_of(record), record.len() as u64));
        (answer(&result), offset, length)
    }

    fn write_record(&mut self, id: u64, record: &[u8]) -> Answer {
        answer(&self.lend().write_record(id.into(), record))
    }

    fn resize_record(&mut self, id: u64, size: u64) -> Answer {
        answer(&self.lend().resize_record(id.into(), size as usize))
    }

    fn erase_record(&mut self, id: u64) -> Answer {
        answer(&self.lend().erase_record(id.into()))
    }

    fn scan(&mut self) -> (Answer, Vec<Found>) {
        let mut scan = SlottedPages::new(&self.segment).scan();
        let mut found = Vec::new();
        let ended = scan.by_ref().try_for_each(|step| step.map(|record| found.push(self.found(record))));
        assert!(scan.next().is_none() && scan.next().is_none(), "a scan that is over went on");
        (answer(&ended), found)
    }
}
