//! The model's repair: the worked examples of document 02's Ask 4, and over generated wrecks what the request asks of every repair.

use crate::repair_examples::{self as examples, Example, EXAMPLES};
use crate::soundness::is_sound;
use crate::wreck::wreck;
use model::page::{self, slot, Kind};
use model::repair::{self, plan, Entry, Plan, REASONS};
use model::Model;
use std::collections::BTreeSet;
use store::{record, Answer, Store, DONE, PAGE_SIZE};

/// What stands in a list before a repair.
pub const LEFTOVER: u64 = 0x1EF7_0FE4_1EF7_0FE4;

/// Pages, inventory and list.
pub type Lent = (Vec<u8>, Vec<u8>, Vec<u64>);

/// What an example begins with: its calls are made by the model.
fn begin(example: &Example) -> Result<Lent, String> {
    let mut model = Model::new(&vec![0; example.pages * PAGE_SIZE], &[0; PAGE_SIZE]);
    for call in example.calls {
        let answer = match *call {
            examples::Call::Insert(length) => model.insert_record(&record(length as u64, 1)).0,
            examples::Call::Write(page, slot, length) => model.write_record(page * 65536 + u64::from(slot), &record(length as u64, 2)),
        };
        if answer != DONE {
            return Err(format!("{}: a call before the damage answers {answer}", example.title));
        }
    }
    let (mut segment, mut inventory) = (model.segment().to_vec(), model.inventory().to_vec());
    example.damage(&mut segment, &mut inventory);
    let words = example.too_few.map_or(3 * example.entries.len() + 4, |(words, _)| words);
    Ok((segment, inventory, vec![LEFTOVER; words]))
}

fn check_example(example: &Example) -> Result<(), String> {
    let (mut segment, mut inventory, mut list) = begin(example)?;
    let (mut segment_after, mut inventory_after, mut list_after) = (segment.clone(), inventory.clone(), list.clone());
    let answer = repair::repair(&mut segment, &mut inventory, &mut list);
    let wanted = match example.too_few {
        Some((_, needed)) => (11, needed as u64),
        None => {
            example.mend(&mut segment_after, &mut inventory_after);
            list_after[..3 * example.entries.len()].copy_from_slice(&example.entries.concat());
            (0, example.entries.len() as u64)
        }
    };
    if (answer, &list) != (wanted, &list_after) {
        return Err(format!("{}: answers {answer:?} and tells {list:?}", example.title));
    }
    if (segment, inventory) != (segment_after, inventory_after) {
        return Err(format!("{}: leaves other bytes", example.title));
    }
    Ok(())
}

/// Sizes that are refused by 1, and one that is not.
fn check_sizes() -> Result<(), String> {
    for (pages, inventory, wanted) in [(16383, 16384, 1), (16384, 16383, 1), (16384, 16385, 1), (32528 * PAGE_SIZE, 16384, 1), (0, 16384, 0)] {
        for words in [0, 30] {
            let (mut pages, mut inventory, mut list) = (vec![0; pages], vec![0; inventory], vec![LEFTOVER; words]);
            let answer = repair::repair(&mut pages, &mut inventory, &mut list);
            if answer != (wanted, 0) || list.iter().any(|&word| word != LEFTOVER) {
                return Err(format!("{} and {} bytes: {answer:?}", pages.len(), inventory.len()));
            }
        }
    }
    Ok(())
}

/// The examples, each with every byte; how many there are.
pub fn check_examples() -> Result<usize, String> {
    check_sizes()?;
    EXAMPLES.iter().try_for_each(check_example)?;
    Ok(EXAMPLES.len())
}

/// A record that can be read: its id, and its offset and length in the segment.
pub type Read = (u64, u64, u64);

/// The ids that may be read: those of the slots of sound pages, at most some forty a page.
pub fn ids(segment: &[u8]) -> Vec<u64> {
    let of_page = |(number, page): (usize, &[u8])| {
        let count = if page::sound(page) { page::count(page) } else { 0 };
        (0..count).step_by(count / 40 + 1).map(move |k| (number * 65536 + k) as u64).collect::<Vec<_>>()
    };
    segment.chunks(PAGE_SIZE).enumerate().flat_map(of_page).collect()
}

/// The reads of these ids that answer 0.
pub fn reads(store: &mut dyn Store, ids: &[u64]) -> Vec<Read> {
    let read = |&id: &u64| match store.get_record(id) {
        (Answer::Number(0), offset, length) => Some((id, offset, length)),
        _ => None,
    };
    ids.iter().filter_map(read).collect()
}

/// Every record that can be read, by ascending id: what [`reads`] tells of all ids, with each page checked once.
pub fn readable(segment: &[u8]) -> Vec<Read> {
    let pages: Vec<Option<&[u8]>> = segment.chunks(PAGE_SIZE).map(|page| page::sound(page).then_some(page)).collect();
    let slot_of = |id: u64| {
        let page = pages.get((id / 65536) as usize).copied().flatten()?;
        let k = (id % 65536) as usize;
        (k < page::count(page)).then(|| slot(page, k))
    };
    let read = |id: u64| {
        let own = slot_of(id)?;
        let (at, held) = if own.kind == Kind::Redirect { (own.id, slot_of(own.id)?) } else { (id, own) };
        let page = (at / 65536) as usize * PAGE_SIZE;
        let points_back = || {
            let start = page + held.offset;
            held.kind == Kind::Target && at / 65536 != id / 65536 && segment[start..start + 8] == id.to_be_bytes()
        };
        let (offset, length) = held.data();
        (held.is_record() && (at == id || points_back())).then_some((id, (page + offset) as u64, length as u64))
    };
    let ids = |number: usize| (0..pages[number].map_or(0, page::count)).map(move |k| (number * 65536 + k) as u64);
    (0..pages.len()).flat_map(ids).filter_map(read).collect()
}

/// Of the records that can be read, those of these ids.
pub fn asked(ids: &[u64], readable: &[Read]) -> Vec<Read> {
    readable.iter().filter(|read| ids.binary_search(&read.0).is_ok()).copied().collect()
}

/// Whether every record that could be read can be read, at the same place and with the same bytes.
pub fn still_readable(before: &[u8], after: &[u8]) -> bool {
    let can: BTreeSet<Read> = readable(after).into_iter().collect();
    readable(before).iter().all(|read| can.contains(read) && same_bytes(read, before, after))
}

/// Whether the record of a read has the same bytes.
pub fn same_bytes(&(_, offset, length): &Read, before: &[u8], after: &[u8]) -> bool {
    let part = offset as usize..(offset + length) as usize;
    before[part.clone()] == after[part]
}

/// The entries that tell what changed on a page.
fn changes_of_page(number: usize, before: &[u8], after: &[u8]) -> Result<Vec<Entry>, String> {
    let told = |what: &str| Err(format!("page {number}: {what}"));
    let count = page::count(before);
    let lost = count > 2046 || count == 0 && !page::fresh(before);
    let slots = if lost { 0 } else { count };
    if before[12 + 8 * slots..] != after[12 + 8 * slots..] {
        return told("a byte outside header and directory changed");
    }
    let mut entries = vec![];
    for k in (0..slots).filter(|k| before[12 + 8 * k..][..8] != after[12 + 8 * k..][..8]) {
        let (old, new) = (slot(before, k), slot(after, k));
        let freed = after[12 + 8 * k..][..8] == [0x40, 0, 0, 0, 0, 0, 0, 0];
        let what = match old.kind {
            Kind::Plain | Kind::Target if freed => repair::RECORD_FREED,
            Kind::Redirect if freed => repair::REDIRECT_FREED,
            Kind::Target if new.kind == Kind::Plain && (new.offset, new.length + 8) == (old.offset + 8, old.length) => repair::MADE_ORDINARY,
            _ => return told("a slot became something else"),
        };
        entries.push([number as u64, k as u64, what]);
    }
    match (before[..12] != after[..12], lost) {
        (true, true) if after[..12] == [0; 12] => entries.push([number as u64, repair::AT_HEADER, repair::HEADER_ZEROED]),
        (true, false) if before[..2] == after[..2] => entries.push([number as u64, repair::AT_HEADER, repair::HEADER_WORKED_OUT]),
        (false, false) => {}
        _ => return told("the header became something else"),
    }
    Ok(entries)
}

/// The entries that tell what changed, by the bytes before and after.
pub fn changes(before: (&[u8], &[u8]), after: (&[u8], &[u8])) -> Result<Vec<Entry>, String> {
    let pages = before.0.chunks(PAGE_SIZE).zip(after.0.chunks(PAGE_SIZE)).enumerate();
    let of_pages: Result<Vec<_>, _> = pages.map(|(number, (before, after))| changes_of_page(number, before, after)).collect();
    let mut entries = of_pages?.concat();
    if before.1 != after.1 {
        entries.push([(before.0.len() / PAGE_SIZE) as u64, repair::AT_INVENTORY, repair::INVENTORY_WORKED_OUT]);
    }
    Ok(entries)
}

/// What was repaired, changed and met.
#[derive(Default)]
pub struct RepairCounts {
    pub repairs: u64,
    pub sound: u64,
    pub changes: [u64; 7],
    pub reads: u64,
    pub reasons: Vec<u64>,
}

impl RepairCounts {
    pub fn count(&mut self, plan: &Plan) {
        self.repairs += 1;
        self.sound += plan.entries.is_empty() as u64;
        plan.entries.iter().for_each(|entry| self.changes[entry[2] as usize] += 1);
        self.reasons.resize(REASONS.len(), 0);
        plan.reasons.iter().for_each(|&reason| self.reasons[reason as usize] += 1);
    }

    pub fn add(&mut self, other: &RepairCounts) {
        self.repairs += other.repairs;
        self.sound += other.sound;
        self.reads += other.reads;
        self.changes.iter_mut().zip(other.changes).for_each(|(sum, more)| *sum += more);
        self.reasons.resize(REASONS.len(), 0);
        self.reasons.iter_mut().zip(&other.reasons).for_each(|(sum, more)| *sum += more);
    }

    /// The reasons that no repair met.
    pub fn holes(&self) -> Vec<&str> {
        REASONS.iter().zip(&self.reasons).filter(|(_, &times)| times == 0).map(|(name, _)| *name).collect()
    }

    /// How many repairs and changes of each kind there were, in a line.
    pub fn told(&self) -> String {
        let [_, freed, redirects, ordinary, headers, zeroed, inventories] = self.changes;
        format!(
            "{} repairs, of {} sound segments; {freed} records and {redirects} redirects freed, {ordinary} targets made ordinary, \
             {headers} headers worked out, {zeroed} zeroed, {inventories} inventories; {} reads",
            self.repairs, self.sound, self.reads
        )
    }

    fn print(&self) {
        println!("{}", self.told());
        println!("met:");
        for (name, times) in REASONS.iter().zip(&self.reasons) {
            println!("{times:9}  {name}");
        }
        let holes = self.holes();
        println!("never met: {}", if holes.is_empty() { "none".to_string() } else { holes.join("; ") });
    }
}

fn check_wreck(seed: u64, counts: &mut RepairCounts) -> Result<(), String> {
    let before = wreck(seed);
    let plan = plan(&before.segment, &before.inventory);
    counts.count(&plan);
    let fails = |what: &str| Err(format!("seed {seed}: {what}"));
    if is_sound_bytes(&before.segment, &before.inventory) != plan.entries.is_empty() {
        return fails("nothing is told exactly of a sound segment");
    }
    if !is_sound(&plan.segment, &plan.inventory) {
        return fails("not sound afterwards");
    }
    let again = repair::plan(&plan.segment, &plan.inventory);
    if !again.entries.is_empty() || (&again.segment, &again.inventory) != (&plan.segment, &plan.inventory) {
        return fails("a second repair changes something");
    }
    let changes = changes((&before.segment, &before.inventory), (&plan.segment, &plan.inventory)).map_err(|what| format!("seed {seed}: {what}"))?;
    if changes != plan.entries {
        return fails(&format!("told {:?}, changed {changes:?}", plan.entries));
    }
    let ids = ids(&before.segment);
    let could = reads(&mut Model::new(&before.segment, &before.inventory), &ids);
    let can = reads(&mut Model::new(&plan.segment, &plan.inventory), &could.iter().map(|read| read.0).collect::<Vec<_>>());
    counts.reads += could.len() as u64;
    if could != can || !still_readable(&before.segment, &plan.segment) {
        return fails("what could be read cannot be read as it was");
    }
    if could != asked(&ids, &readable(&before.segment)) {
        return fails("the model reads other records than can be read");
    }
    Ok(())
}

/// As [`is_sound`], of any bytes: a back id is read only on pages that are sound.
fn is_sound_bytes(segment: &[u8], inventory: &[u8]) -> bool {
    segment.chunks(PAGE_SIZE).all(page::sound) && is_sound(segment, inventory)
}

/// The examples, and so many wrecks; an error also where something was never met.
pub fn check(repairs: u64) -> Result<(), String> {
    println!("worked examples of Ask 4 met by the model: {}", check_examples()?);
    let mut counts = RepairCounts::default();
    (1..=repairs).try_for_each(|seed| check_wreck(seed, &mut counts))?;
    counts.print();
    if counts.holes().is_empty() { Ok(()) } else { Err("not everything was met".to_string()) }
}
