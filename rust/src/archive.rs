//! The functions of libhekatosuy.a, as include/hekatosuy.h declares them, and a safe function over
//! each. All `unsafe` of the crate is here.
//!
//! A call is lent whole slices, or one tally, and writes only into those that are lent to be written,
//! and only inside them: that is proved of the archive's functions for every length and all bytes. None
//! of them keeps a pointer, and none reads what it was not lent.

use crate::{Rid, Tally, Touched};

extern "C" {
    fn hk_insert_record(
        segment: *mut u8,
        segment_len: usize,
        inventory: *mut u8,
        inventory_len: usize,
        record: *const u8,
        record_len: usize,
        id: *mut u64,
    ) -> u64;
    fn hk_insert_records(
        segment: *mut u8,
        segment_len: usize,
        inventory: *mut u8,
        inventory_len: usize,
        rows: *const u8,
        rows_len: usize,
        lengths: *const u64,
        lengths_len: usize,
        ids: *mut u64,
        ids_len: usize,
        inserted: *mut u64,
    ) -> u64;
    fn hk_allocate(
        segment: *mut u8,
        segment_len: usize,
        inventory: *mut u8,
        inventory_len: usize,
        size: u64,
        id: *mut u64,
    ) -> u64;
    fn hk_get_record(segment: *const u8, segment_len: usize, id: u64, offset: *mut u64, length: *mut u64) -> u64;
    fn hk_write_record(
        segment: *mut u8,
        segment_len: usize,
        inventory: *mut u8,
        inventory_len: usize,
        id: u64,
        record: *const u8,
        record_len: usize,
    ) -> u64;
    fn hk_resize_record(
        segment: *mut u8,
        segment_len: usize,
        inventory: *mut u8,
        inventory_len: usize,
        id: u64,
        size: u64,
    ) -> u64;
    fn hk_erase_record(
        segment: *mut u8,
        segment_len: usize,
        inventory: *mut u8,
        inventory_len: usize,
        id: u64,
    ) -> u64;
    fn hk_scan_step(
        segment: *const u8,
        segment_len: usize,
        position: *mut u64,
        found: *mut u64,
        id: *mut u64,
        offset: *mut u64,
        length: *mut u64,
    ) -> u64;
    fn hk_repair(
        segment: *mut u8,
        segment_len: usize,
        inventory: *mut u8,
        inventory_len: usize,
        entries: *mut u64,
        entries_len: usize,
        count: *mut u64,
    ) -> u64;
    fn hk_fill_report(segment: *const u8, segment_len: usize, tally: *mut Tally) -> u64;
    fn hk_import(
        segment: *mut u8,
        segment_len: usize,
        inventory: *mut u8,
        inventory_len: usize,
        file: *const u8,
        file_len: usize,
        inserted: *mut u64,
    ) -> u64;
    fn hk_export(
        segment: *const u8,
        segment_len: usize,
        file: *mut u8,
        file_room: usize,
        length: *mut u64,
        passed: *mut u64,
    ) -> u64;
    fn hk_cleared(
        segment: *const u8,
        segment_len: usize,
        mirror: u64,
        rows: u64,
        edition: u64,
        cleared: *mut u64,
    ) -> u64;
    fn hk_whole_readings(
        segment: *const u8,
        segment_len: usize,
        mirror: u64,
        rows: u64,
        words: *mut u64,
        words_len: usize,
    ) -> u64;
}

/// A record in the segment: where it starts, counted from the segment's first byte, and its length.
#[derive(Clone, Copy, Default)]
pub(crate) struct Place {
    pub offset: u64,
    pub length: u64,
}

/// What a step of a scan gave: a record and its id, where `found` is 1.
#[derive(Clone, Copy, Default)]
pub(crate) struct Step {
    pub answer: u64,
    pub found: u64,
    pub id: u64,
    pub place: Place,
}

/// The answer, and the new record's id where it is 0.
pub(crate) fn insert_record(segment: &mut [u8], inventory: &mut [u8], record: &[u8]) -> (u64, u64) {
    let mut id = 0;
    let answer = unsafe {
        hk_insert_record(
            segment.as_mut_ptr(),
            segment.len(),
            inventory.as_mut_ptr(),
            inventory.len(),
            record.as_ptr(),
            record.len(),
            &mut id,
        )
    };
    (answer, id)
}

/// The answer, and how many rows went in. An id is one word.
pub(crate) fn insert_records(
    segment: &mut [u8],
    inventory: &mut [u8],
    rows: &[u8],
    lengths: &[u64],
    ids: &mut [Rid],
) -> (u64, u64) {
    let mut inserted = 0;
    let answer = unsafe {
        hk_insert_records(
            segment.as_mut_ptr(),
            segment.len(),
            inventory.as_mut_ptr(),
            inventory.len(),
            rows.as_ptr(),
            rows.len(),
            lengths.as_ptr(),
            lengths.len(),
            ids.as_mut_ptr().cast(),
            ids.len(),
            &mut inserted,
        )
    };
    (answer, inserted)
}

/// The answer, and the new record's id where it is 0.
pub(crate) fn allocate(segment: &mut [u8], inventory: &mut [u8], size: u64) -> (u64, u64) {
    let mut id = 0;
    let answer = unsafe {
        hk_allocate(segment.as_mut_ptr(), segment.len(), inventory.as_mut_ptr(), inventory.len(), size, &mut id)
    };
    (answer, id)
}

/// The answer, and the record's place where it is 0.
pub(crate) fn get_record(segment: &[u8], id: u64) -> (u64, Place) {
    let mut place = Place::default();
    let answer =
        unsafe { hk_get_record(segment.as_ptr(), segment.len(), id, &mut place.offset, &mut place.length) };
    (answer, place)
}

pub(crate) fn write_record(segment: &mut [u8], inventory: &mut [u8], id: u64, record: &[u8]) -> u64 {
    unsafe {
        hk_write_record(
            segment.as_mut_ptr(),
            segment.len(),
            inventory.as_mut_ptr(),
            inventory.len(),
            id,
            record.as_ptr(),
            record.len(),
        )
    }
}

pub(crate) fn resize_record(segment: &mut [u8], inventory: &mut [u8], id: u64, size: u64) -> u64 {
    unsafe {
        hk_resize_record(segment.as_mut_ptr(), segment.len(), inventory.as_mut_ptr(), inventory.len(), id, size)
    }
}

pub(crate) fn erase_record(segment: &mut [u8], inventory: &mut [u8], id: u64) -> u64 {
    unsafe { hk_erase_record(segment.as_mut_ptr(), segment.len(), inventory.as_mut_ptr(), inventory.len(), id) }
}

/// One step of a scan; `scanned` is 0 before the first, and then what the step before left there.
pub(crate) fn scan_step(segment: &[u8], scanned: &mut u64) -> Step {
    let mut step = Step::default();
    step.answer = unsafe {
        hk_scan_step(
            segment.as_ptr(),
            segment.len(),
            scanned,
            &mut step.found,
            &mut step.id,
            &mut step.place.offset,
            &mut step.place.length,
        )
    };
    step
}

/// The answer, and how many entries there are or, where it is 11, would be. An entry is three words.
pub(crate) fn repair(segment: &mut [u8], inventory: &mut [u8], list: &mut [Touched]) -> (u64, u64) {
    let mut count = 0;
    let answer = unsafe {
        hk_repair(
            segment.as_mut_ptr(),
            segment.len(),
            inventory.as_mut_ptr(),
            inventory.len(),
            list.as_mut_ptr().cast(),
            3 * list.len(),
            &mut count,
        )
    };
    (answer, count)
}

/// The answer. A tally lies in memory as C's does; where the answer is 0 the segment's figures were added to it.
pub(crate) fn fill_report(segment: &[u8], tally: &mut Tally) -> u64 {
    unsafe { hk_fill_report(segment.as_ptr(), segment.len(), tally) }
}

/// The answer, and how many records of the file went in.
pub(crate) fn import(segment: &mut [u8], inventory: &mut [u8], file: &[u8]) -> (u64, u64) {
    let mut inserted = 0;
    let answer = unsafe {
        hk_import(
            segment.as_mut_ptr(),
            segment.len(),
            inventory.as_mut_ptr(),
            inventory.len(),
            file.as_ptr(),
            file.len(),
            &mut inserted,
        )
    };
    (answer, inserted)
}

/// The answer; and the file's length, and how many records are passed over, where it is 0 or 11.
pub(crate) fn export(segment: &[u8], file: &mut [u8]) -> (u64, u64, u64) {
    let (mut length, mut passed) = (0, 0);
    let answer = unsafe {
        hk_export(segment.as_ptr(), segment.len(), file.as_mut_ptr(), file.len(), &mut length, &mut passed)
    };
    (answer, length, passed)
}

/// The answer, and 1 where the mirror is cleared.
pub(crate) fn cleared(segment: &[u8], mirror: u64, rows: u64, edition: u64) -> (u64, u64) {
    let mut cleared = 0;
    let answer = unsafe { hk_cleared(segment.as_ptr(), segment.len(), mirror, rows, edition, &mut cleared) };
    (answer, cleared)
}

/// The answer; where it is 0, the first 1,024 words have a bit for each reading, 1 where it is whole.
pub(crate) fn whole_readings(segment: &[u8], mirror: u64, rows: u64, words: &mut [u64]) -> u64 {
    unsafe {
        hk_whole_readings(segment.as_ptr(), segment.len(), mirror, rows, words.as_mut_ptr(), words.len())
    }
}
