//! Repair, of document 02's Ask 4. It has no counterpart in the published Rust: this is a plain
//! second implementation, written from the request's words and from nothing else, page by page over
//! the bytes as they stood before.

use crate::inventory::class;
use crate::page::{self, slot, Kind, Slot, HEADER, PAGE};
use std::collections::BTreeSet;

/// An entry's place where it is not a slot.
pub const AT_HEADER: u64 = 65535;
pub const AT_INVENTORY: u64 = 65536;

/// What was done, by its number.
pub const RECORD_FREED: u64 = 1;
pub const REDIRECT_FREED: u64 = 2;
pub const MADE_ORDINARY: u64 = 3;
pub const HEADER_WORKED_OUT: u64 = 4;
pub const HEADER_ZEROED: u64 = 5;
pub const INVENTORY_WORKED_OUT: u64 = 6;

const SIZE: u64 = 1;
const ROOM: u64 = 11;

/// Page, place and what was done.
pub type Entry = [u64; 3];

store::meetings! {
    /// Why a slot, a header's number or the inventory is changed, and what is met on the way and stays.
    Reason REASONS:
    CountHigh "lost: count above 2,046"
    CountWiped "lost: count 0, and the header of no fresh page"
    Leaves "freed: record leaves the page"
    EmptyLeaves "freed: empty record past the page"
    ShortTarget "freed: target under 8 bytes"
    InDirectory "freed: record reaches into the directory"
    Overlaps "freed: record overlaps a kept one"
    OverlapsFreed "kept: record overlaps freed ones alone"
    NoPage "redirect: to page n or past it"
    OwnPage "redirect: to its own page"
    LostPage "redirect: to a lost page"
    NoSlot "redirect: to a slot past the count"
    NoTarget "redirect: to no target"
    TargetFreed "redirect: to a target that is freed"
    PointsElsewhere "redirect: target points elsewhere"
    Paired "redirect and target kept"
    PairedUnsound "redirect and target kept, on a page that is not sound"
    Unnamed "target: no kept redirect names it"
    UnnamedOf8 "target: of exactly 8 bytes, unnamed"
    UnpairedSound "redirect or target unpaired, on a page that is sound"
    FirstFree "header: first free"
    StartInDirectory "header: data start in the directory"
    StartPast "header: data start past the page"
    StartAbove "header: data start above a record"
    StartLow "header: data start lower than it need be, kept"
    FreeSpace "header: free space"
    Inventory "inventory"
}

/// What a repair is to leave, and what it is to tell.
pub struct Plan {
    pub segment: Vec<u8>,
    pub inventory: Vec<u8>,
    pub entries: Vec<Entry>,
    pub reasons: Vec<Reason>,
}

/// A page as it stood before: its slots, none where it is fresh or lost, and whether each holds a
/// record that is kept.
struct Judged {
    lost: Option<Reason>,
    slots: Vec<Slot>,
    kept: Vec<bool>,
}

/// Repairs as the call does: answer, and the number of entries. Places of the list are three words each.
pub fn repair(segment: &mut [u8], inventory: &mut [u8], list: &mut [u64]) -> (u64, u64) {
    if segment.len() % PAGE != 0 || segment.len() / PAGE > 32527 || inventory.len() != PAGE {
        return (SIZE, 0);
    }
    let plan = plan(segment, inventory);
    let count = plan.entries.len();
    if list.len() / 3 < count {
        return (ROOM, count as u64);
    }
    segment.copy_from_slice(&plan.segment);
    inventory.copy_from_slice(&plan.inventory);
    list[..3 * count].copy_from_slice(&plan.entries.concat());
    (0, count as u64)
}

/// The repair of a segment of whole pages and its inventory.
pub fn plan(segment: &[u8], inventory: &[u8]) -> Plan {
    let mut plan = Plan { segment: segment.to_vec(), inventory: vec![], entries: vec![], reasons: vec![] };
    let pages: Vec<Judged> = segment.chunks(PAGE).map(|page| judge_page(page, &mut plan.reasons)).collect();
    let named = kept_redirects(segment, &pages, &mut plan.reasons);
    for (number, before) in pages.iter().enumerate() {
        let mut page = segment[number * PAGE..][..PAGE].to_vec();
        if before.lost.is_some() {
            page[..HEADER].fill(0);
            plan.entries.push([number as u64, AT_HEADER, HEADER_ZEROED]);
        } else if !before.slots.is_empty() {
            let told = plan.entries.len();
            mend_slots(&mut page, number, before, &named, &mut plan);
            if plan.entries.len() > told && page::sound(&segment[number * PAGE..][..PAGE]) {
                plan.reasons.push(Reason::UnpairedSound);
            }
            mend_header(&mut page, number, &mut plan);
        }
        plan.segment[number * PAGE..][..PAGE].copy_from_slice(&page);
    }
    plan.inventory = true_inventory(&plan.segment);
    if plan.inventory != inventory {
        plan.reasons.push(Reason::Inventory);
        plan.entries.push([pages.len() as u64, AT_INVENTORY, INVENTORY_WORKED_OUT]);
    }
    plan
}

fn judge_page(page: &[u8], reasons: &mut Vec<Reason>) -> Judged {
    let count = page::count(page);
    let lost = match count {
        0 if !page::fresh(page) => Some(Reason::CountWiped),
        2047.. => Some(Reason::CountHigh),
        _ => None,
    };
    reasons.extend(lost);
    let slots: Vec<Slot> = if lost.is_some() { vec![] } else { (0..count).map(|k| slot(page, k)).collect() };
    let kept = judge_records(&slots, reasons);
    Judged { lost, slots, kept }
}

/// Slots upward: a record that lies as it must and overlaps no record kept before it is kept.
fn judge_records(slots: &[Slot], reasons: &mut Vec<Reason>) -> Vec<bool> {
    let (mut kept, mut kept_runs, mut freed_runs) = (vec![], vec![], vec![]);
    for record in slots {
        if !record.is_record() {
            kept.push(false);
            continue;
        }
        let run = (record.offset, record.offset + record.length);
        let overlaps = |runs: &[(usize, usize)]| record.length > 0 && runs.iter().any(|&other| share_a_byte(run, other));
        let freed = misplaced(record, slots.len()).or(overlaps(&kept_runs).then_some(Reason::Overlaps));
        reasons.extend(freed);
        if freed.is_none() && overlaps(&freed_runs) {
            reasons.push(Reason::OverlapsFreed);
        }
        kept.push(freed.is_none());
        if record.length > 0 {
            if freed.is_none() { kept_runs.push(run) } else { freed_runs.push(run) }
        }
    }
    kept
}

fn misplaced(record: &Slot, count: usize) -> Option<Reason> {
    if record.offset + record.length > PAGE {
        return Some(if record.length == 0 { Reason::EmptyLeaves } else { Reason::Leaves });
    }
    if record.kind == Kind::Target && record.length < 8 {
        return Some(Reason::ShortTarget);
    }
    (record.length > 0 && record.offset < HEADER + 8 * count).then_some(Reason::InDirectory)
}

/// Two runs of at least a byte, each up to its end.
fn share_a_byte(one: (usize, usize), other: (usize, usize)) -> bool {
    one.0 < other.1 && other.0 < one.1
}

/// The ids that kept redirects have and those that they name.
struct Named {
    roots: BTreeSet<u64>,
    targets: BTreeSet<u64>,
}

fn kept_redirects(segment: &[u8], pages: &[Judged], reasons: &mut Vec<Reason>) -> Named {
    let mut named = Named { roots: BTreeSet::new(), targets: BTreeSet::new() };
    for (number, page) in pages.iter().enumerate() {
        for (k, redirect) in page.slots.iter().enumerate().filter(|(_, slot)| slot.kind == Kind::Redirect) {
            let id = number as u64 * 65536 + k as u64;
            let astray = astray(segment, pages, id, redirect.id);
            reasons.extend(astray);
            if astray.is_none() {
                let page = &segment[(redirect.id / 65536) as usize * PAGE..][..PAGE];
                reasons.push(if page::sound(page) { Reason::Paired } else { Reason::PairedUnsound });
                named.roots.insert(id);
                named.targets.insert(redirect.id);
            }
        }
    }
    named
}

/// Why the redirect of this id, which names that target, is not kept; nothing if it is.
fn astray(segment: &[u8], pages: &[Judged], id: u64, target: u64) -> Option<Reason> {
    let (number, k) = (target / 65536, (target % 65536) as usize);
    if number >= pages.len() as u64 {
        return Some(Reason::NoPage);
    }
    if number == id / 65536 {
        return Some(Reason::OwnPage);
    }
    let page = &pages[number as usize];
    if page.lost.is_some() {
        return Some(Reason::LostPage);
    }
    if k >= page.slots.len() {
        return Some(Reason::NoSlot);
    }
    if page.slots[k].kind != Kind::Target {
        return Some(Reason::NoTarget);
    }
    if !page.kept[k] {
        return Some(Reason::TargetFreed);
    }
    let place = number as usize * PAGE + page.slots[k].offset;
    (segment[place..place + 8] != id.to_be_bytes()).then_some(Reason::PointsElsewhere)
}

fn mend_slots(page: &mut [u8], number: usize, before: &Judged, named: &Named, plan: &mut Plan) {
    for (k, old) in before.slots.iter().enumerate() {
        let id = number as u64 * 65536 + k as u64;
        let what = match old.kind {
            Kind::Redirect if !named.roots.contains(&id) => REDIRECT_FREED,
            Kind::Plain | Kind::Target if !before.kept[k] => RECORD_FREED,
            Kind::Target if !named.targets.contains(&id) => MADE_ORDINARY,
            _ => continue,
        };
        let bytes = &mut page[HEADER + 8 * k..][..8];
        if what == MADE_ORDINARY {
            plan.reasons.push(if old.length == 8 { Reason::UnnamedOf8 } else { Reason::Unnamed });
            bytes[..4].copy_from_slice(&(old.offset as u32 + 8).to_be_bytes());
            bytes[4..].copy_from_slice(&(old.length as u32 - 8).to_be_bytes());
        } else {
            bytes.copy_from_slice(&[0x40, 0, 0, 0, 0, 0, 0, 0]);
        }
        plan.entries.push([number as u64, k as u64, what]);
    }
}

/// The header's three numbers, each for itself, over the slots as they are now.
fn mend_header(page: &mut [u8], number: usize, plan: &mut Plan) {
    let count = page::count(page);
    let slots: Vec<Slot> = (0..count).map(|k| slot(page, k)).collect();
    let first_free = slots.iter().position(|slot| slot.kind == Kind::Free).unwrap_or(count);
    let records: Vec<Slot> = slots.into_iter().filter(Slot::is_record).collect();
    let lowest = records.iter().filter(|record| record.length > 0).map(|record| record.offset).min();
    let free_space = 16372 - 8 * count - records.iter().map(|record| record.length).sum::<usize>();
    let header = page[..HEADER].to_vec();

    if page::first_free(page) != first_free {
        plan.reasons.push(Reason::FirstFree);
        page[2..4].copy_from_slice(&(first_free as u16).to_be_bytes());
    }
    let start = page::data_start(page);
    let breaks = match lowest {
        _ if start < HEADER + 8 * count => Some(Reason::StartInDirectory),
        _ if start > PAGE => Some(Reason::StartPast),
        Some(lowest) if start > lowest => Some(Reason::StartAbove),
        _ => None,
    };
    plan.reasons.extend(breaks);
    if breaks.is_some() {
        page[4..8].copy_from_slice(&(lowest.unwrap_or(PAGE) as u32).to_be_bytes());
    } else if start < lowest.unwrap_or(PAGE) {
        plan.reasons.push(Reason::StartLow);
    }
    if page::free_space(page) != free_space {
        plan.reasons.push(Reason::FreeSpace);
        page[8..12].copy_from_slice(&(free_space as u32).to_be_bytes());
    }
    if page[..HEADER] != header {
        plan.entries.push([number as u64, AT_HEADER, HEADER_WORKED_OUT]);
    }
}

/// The inventory of sound pages: their nibbles, and entry c the lowest page whose nibble is at most c, n if there is none.
fn true_inventory(segment: &[u8]) -> Vec<u8> {
    let nibble = |page: &[u8]| if page::fresh(page) { 0 } else { class(16372 - page::free_space(page)) };
    let nibbles: Vec<usize> = segment.chunks(PAGE).map(nibble).collect();
    let mut inventory = vec![0; PAGE];
    for c in 0..15 {
        let lowest = nibbles.iter().position(|&nibble| nibble <= c).unwrap_or(nibbles.len());
        inventory[8 * c..8 * c + 8].copy_from_slice(&(lowest as u64).to_le_bytes());
    }
    for (page, &nibble) in nibbles.iter().enumerate() {
        inventory[120 + page / 2] |= if page % 2 == 0 { nibble as u8 } else { 16 * nibble as u8 };
    }
    inventory
}
