//! One page.

use crate::notes::{Notes, Step};

pub const PAGE: usize = 16384;
pub const HEADER: usize = 12;

#[derive(Clone, Copy, PartialEq, Eq, Debug)]
pub enum Kind {
    Plain,
    Free,
    Redirect,
    Target,
}

/// `offset` and `length` of a record; for a redirect `id`.
#[derive(Clone, Copy, PartialEq, Eq, Debug)]
pub struct Slot {
    pub kind: Kind,
    pub offset: usize,
    pub length: usize,
    pub id: u64,
}

impl Slot {
    pub fn is_record(&self) -> bool {
        matches!(self.kind, Kind::Plain | Kind::Target)
    }

    /// Offset and length without a target's back id.
    pub fn data(&self) -> (usize, usize) {
        let back = if self.kind == Kind::Target { 8 } else { 0 };
        (self.offset + back, self.length - back)
    }
}

fn number(page: &[u8], place: usize, bytes: usize) -> usize {
    page[place..place + bytes].iter().fold(0, |sum, &byte| sum * 256 + byte as usize)
}

fn set_number(page: &mut [u8], place: usize, bytes: usize, value: usize) {
    page[place..place + bytes].copy_from_slice(&(value as u64).to_be_bytes()[8 - bytes..]);
}

pub fn count(page: &[u8]) -> usize {
    number(page, 0, 2)
}

pub fn first_free(page: &[u8]) -> usize {
    number(page, 2, 2)
}

pub fn data_start(page: &[u8]) -> usize {
    number(page, 4, 4)
}

pub fn free_space(page: &[u8]) -> usize {
    number(page, 8, 4)
}

fn set_count(page: &mut [u8], value: usize) {
    set_number(page, 0, 2, value);
}

fn set_first_free(page: &mut [u8], value: usize) {
    set_number(page, 2, 2, value);
}

fn set_data_start(page: &mut [u8], value: usize) {
    set_number(page, 4, 4, value);
}

fn set_free_space(page: &mut [u8], value: usize) {
    set_number(page, 8, 4, value);
}

pub fn slot(page: &[u8], k: usize) -> Slot {
    let place = HEADER + 8 * k;
    let (high, length) = (number(page, place, 4), number(page, place + 4, 4));
    let kind = [Kind::Plain, Kind::Free, Kind::Redirect, Kind::Target][high >> 30];
    let offset = high % (1 << 30);
    Slot { kind, offset, length, id: (offset as u64) << 32 | length as u64 }
}

fn set_record(page: &mut [u8], k: usize, kind: Kind, offset: usize, length: usize) {
    let top = if kind == Kind::Target { 3 << 30 } else { 0 };
    set_number(page, HEADER + 8 * k, 4, top | offset);
    set_number(page, HEADER + 8 * k + 4, 4, length);
}

fn set_free(page: &mut [u8], k: usize) {
    set_number(page, HEADER + 8 * k, 8, 1 << 62);
}

pub fn set_redirect(page: &mut [u8], k: usize, id: u64) {
    set_number(page, HEADER + 8 * k, 8, 2 << 62 | id as usize);
}

pub fn set_target(page: &mut [u8], k: usize) {
    let made = slot(page, k);
    set_record(page, k, Kind::Target, made.offset, made.length);
}

pub fn gap(page: &[u8]) -> usize {
    data_start(page) - HEADER - 8 * count(page)
}

fn next_free(page: &[u8], from: usize) -> usize {
    let count = count(page);
    (from..count).find(|&k| slot(page, k).kind == Kind::Free).unwrap_or(count)
}

/// Whether the header is all zero, or exactly the initialised one.
pub fn fresh(page: &[u8]) -> bool {
    let header = &page[..HEADER];
    header == [0; HEADER] || header == [0, 0, 0, 0, 0, 0, 0x40, 0, 0, 0, 0x3F, 0xF4]
}

/// Which line of the sound-page rule the page breaks first, if any.
pub fn unsound(page: &[u8]) -> Option<Step> {
    let count = count(page);
    if count == 0 {
        return (!fresh(page)).then_some(Step::UnsoundEmptied);
    }
    let start = data_start(page);
    if count > 2046 {
        return Some(Step::UnsoundCount);
    }
    if first_free(page) != next_free(page, 0) {
        return Some(Step::UnsoundFirstFree);
    }
    if start < HEADER + 8 * count {
        return Some(Step::UnsoundDataStartLow);
    }
    if start > PAGE {
        return Some(Step::UnsoundDataStartHigh);
    }
    let mut taken = [false; PAGE];
    let mut lengths = 0;
    for record in (0..count).map(|k| slot(page, k)).filter(Slot::is_record) {
        let end = record.offset + record.length;
        if record.length == 0 && record.offset > PAGE {
            return Some(Step::UnsoundEmptyBeyond);
        }
        if record.length > 0 && record.offset < start {
            return Some(Step::UnsoundBelow);
        }
        if end > PAGE {
            return Some(Step::UnsoundBeyond);
        }
        if record.kind == Kind::Target && record.length < 8 {
            return Some(Step::UnsoundTarget);
        }
        if taken[record.offset..end].contains(&true) {
            return Some(Step::UnsoundOverlap);
        }
        taken[record.offset..end].fill(true);
        lengths += record.length;
    }
    (free_space(page) + 8 * count + lengths != 16372).then_some(Step::UnsoundFreeSpace)
}

pub fn sound(page: &[u8]) -> bool {
    unsound(page).is_none()
}

pub fn initialise(page: &mut [u8]) {
    set_count(page, 0);
    set_first_free(page, 0);
    set_data_start(page, PAGE);
    set_free_space(page, 16372);
}

/// Whether allocate finds room; a fresh page has 16,372 bytes.
pub fn has_room(page: &[u8], size: usize, notes: &mut Notes) -> bool {
    let (free, new_slot) = if fresh(page) { (16372, true) } else { (free_space(page), first_free(page) == count(page)) };
    let room = size + if new_slot { 8 } else { 0 } <= free;
    notes.fault_if(new_slot && free < 8, 1);
    notes.step_if(!room, if new_slot { Step::NewSlotNoRoom } else { Step::FreeSlotNoRoom });
    room
}

/// Allocates where there is room, and gives the slot. The record's bytes are left as they are.
pub fn allocate(page: &mut [u8], size: usize, notes: &mut Notes) -> usize {
    if fresh(page) {
        initialise(page);
        notes.step(Step::Initialise);
    }
    let k = first_free(page);
    let new_slot = k == count(page);
    let added = size + if new_slot { 8 } else { 0 };
    notes.step_if(gap(page) == added, Step::AllocateTight);
    if gap(page) < added {
        notes.fault_if(gap(page) >= size, 2);
        notes.step(Step::AllocateCompactify);
        compactify(page, None, notes);
    }
    let free = free_space(page) - added;
    set_free_space(page, free);
    notes.step_if(free == 0, Step::AllocateLastByte);
    if new_slot {
        set_count(page, k + 1);
        notes.step(Step::NewSlot);
    }
    let offset = take_place(page, size);
    set_record(page, k, Kind::Plain, offset, size);
    let next = next_free(page, k + 1);
    set_first_free(page, next);
    if !new_slot {
        notes.step(if next < count(page) { Step::FreeSlotNext } else { Step::FreeSlot });
    }
    k
}

/// Takes the bytes just under data start.
fn take_place(page: &mut [u8], size: usize) -> usize {
    let offset = data_start(page) - size;
    set_data_start(page, offset);
    offset
}

/// Gives the place of a record back: free space, and data start if it lies there.
fn give_place(page: &mut [u8], record: Slot) -> bool {
    let start = data_start(page);
    set_free_space(page, free_space(page) + record.length);
    if record.offset == start {
        set_data_start(page, start + record.length);
    }
    record.offset == start
}

pub fn erase(page: &mut [u8], k: usize, notes: &mut Notes) {
    let erased = slot(page, k);
    if erased.is_record() {
        notes.step_if(erased.length == 0, Step::EraseEmpty);
        let at_start = give_place(page, erased);
        notes.step(if at_start { Step::EraseAtDataStart } else { Step::EraseAbove });
    } else {
        notes.step(Step::EraseRedirect);
    }
    if erased.kind == Kind::Target {
        notes.fault(7);
        notes.step(Step::EraseTarget);
    }
    set_free(page, k);
    let falls = k < first_free(page);
    notes.step(if falls { Step::EraseFirstFree } else { Step::EraseNotFirstFree });
    if falls {
        set_first_free(page, k);
    }
    if k + 1 == count(page) {
        take_off(page, k, notes);
    }
}

/// Takes the free slots just below the last slot `k`, itself free, off the count.
fn take_off(page: &mut [u8], k: usize, notes: &mut Notes) {
    let run = (0..k).rev().take_while(|&j| slot(page, j).kind == Kind::Free).count();
    notes.step(if run > 0 { Step::EraseTrim } else { Step::EraseLast });
    set_count(page, k + 1 - run);
    set_free_space(page, free_space(page) + 8 * run);
}

pub fn erase_for_redirect(page: &mut [u8], k: usize, id: u64, notes: &mut Notes) {
    let erased = slot(page, k);
    let at_start = give_place(page, erased);
    notes.step(if at_start { Step::RedirectAtDataStart } else { Step::RedirectAbove });
    set_redirect(page, k, id);
}

/// Whether the slot can be given so many bytes on its page.
pub fn can_relocate(page: &[u8], k: usize, size: usize, notes: &mut Notes) -> bool {
    let old = slot(page, k);
    let redirect = old.kind == Kind::Redirect;
    let can = size <= free_space(page) + if redirect { 0 } else { old.length };
    notes.step_if(!can, if redirect { Step::RelocateRedirectRefused } else { Step::RelocateLargerRefused });
    can
}

/// Gives the slot so many bytes. Of a record the old ones stay as prefix; bytes added are left as
/// they are.
pub fn relocate(page: &mut [u8], k: usize, size: usize, notes: &mut Notes) {
    let old = slot(page, k);
    match old.kind {
        Kind::Redirect => relocate_redirect(page, k, size, notes),
        _ if size > old.length => grow(page, k, size, notes),
        _ if size < old.length => shrink(page, k, size, notes),
        _ => notes.step(Step::RelocateEqual),
    }
}

fn relocate_redirect(page: &mut [u8], k: usize, size: usize, notes: &mut Notes) {
    notes.fault_if(size > 0, 6);
    notes.step(if size > 0 { Step::RelocateRedirect } else { Step::RelocateRedirectEmpty });
    if gap(page) < size {
        notes.step(Step::RelocateRedirectCompactify);
        compactify(page, None, notes);
    }
    set_free_space(page, free_space(page) - size);
    let offset = take_place(page, size);
    set_record(page, k, Kind::Plain, offset, size);
}

fn shrink(page: &mut [u8], k: usize, size: usize, notes: &mut Notes) {
    let old = slot(page, k);
    notes.step(if size == 0 { Step::RelocateToNothing } else { Step::RelocateSmaller });
    if old.kind == Kind::Target {
        notes.fault(4);
        notes.step(Step::RelocateTargetSmaller);
    }
    set_record(page, k, old.kind, old.offset, size);
    set_free_space(page, free_space(page) + old.length - size);
}

fn grow(page: &mut [u8], k: usize, size: usize, notes: &mut Notes) {
    let old = slot(page, k);
    let kept = page[old.offset..old.offset + old.length].to_vec();
    notes.fault(5);
    notes.step(if old.kind == Kind::Target { Step::RelocateTargetLarger } else { Step::RelocateLarger });
    if gap(page) < size {
        notes.step(Step::RelocateLargerCompactify);
        compactify(page, Some(k), notes);
    }
    let free = free_space(page) + old.length - size;
    notes.step_if(free == 0, Step::RelocateLargerLastByte);
    set_free_space(page, free);
    let offset = take_place(page, size);
    set_record(page, k, old.kind, offset, size);
    page[offset..offset + old.length].copy_from_slice(&kept);
}

/// Packs all records but that of slot `without` against the end of the page.
fn compactify(page: &mut [u8], without: Option<usize>, notes: &mut Notes) {
    let mut records: Vec<(usize, usize, usize)> = (0..count(page))
        .filter(|&k| slot(page, k).is_record() && Some(k) != without)
        .map(|k| (slot(page, k).offset, slot(page, k).length, k))
        .collect();
    records.sort();
    records.reverse();
    note_compactify(page, &records, notes);
    let before = page.to_vec();
    let mut place = PAGE;
    for (offset, length, k) in records {
        place -= length;
        notes.step_if(place > offset && place < offset + length, Step::CompactifyMoved);
        page[place..place + length].copy_from_slice(&before[offset..offset + length]);
        let kind = slot(page, k).kind;
        set_record(page, k, kind, place, length);
    }
    set_data_start(page, place);
}

fn note_compactify(page: &[u8], records: &[(usize, usize, usize)], notes: &mut Notes) {
    let target = records.iter().any(|&(_, _, k)| slot(page, k).kind == Kind::Target);
    let tie = records.windows(2).any(|pair| pair[0].0 == pair[1].0);
    let empty_tie = records.windows(2).any(|pair| pair[0].0 == pair[1].0 && pair[0].1 == 0);
    let inside = records.windows(2).any(|pair| pair[0].1 == 0 && pair[0].0 < pair[1].0 + pair[1].1 && pair[0].0 > pair[1].0);
    notes.fault_if(target || tie, 3);
    notes.step_if(target, Step::CompactifyTarget);
    notes.step_if(tie, Step::CompactifyTie);
    notes.step_if(empty_tie, Step::CompactifyTieTwoEmpty);
    notes.step_if(inside, Step::CompactifyEmptyInside);
    notes.step_if(records.is_empty(), Step::CompactifyNothing);
}
