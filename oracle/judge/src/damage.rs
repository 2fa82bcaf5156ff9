//! Damage of each kind that the sound-page rule forbids, redirects that lead astray, and
//! inventories that are not true.

use crate::poke::{self, Poke};
use crate::random::Random;
use model::page::{self, slot, Kind, Slot};
use store::PAGE_SIZE;

/// A page in use, and how to change it.
struct Patient<'a> {
    random: &'a mut Random,
    n: usize,
    number: usize,
    page: &'a [u8],
}

const HUGE: u64 = u32::MAX as u64;

impl Patient<'_> {
    fn count(&self) -> usize {
        page::count(self.page)
    }

    fn any_slot(&mut self) -> usize {
        self.random.below(self.count().min(2046) as u64) as usize
    }

    /// A slot of a record with at least so many bytes; else any.
    fn record_slot(&mut self, least: usize) -> usize {
        let count = self.count().min(2046);
        let from = self.any_slot();
        let fits = |&k: &usize| {
            let slot = slot(self.page, k);
            slot.is_record() && slot.length >= least
        };
        (from..count).chain(0..from).find(fits).unwrap_or(from)
    }

    /// Sets a slot and the free space with it, so that nothing else is wrong afterwards.
    fn replace(&self, k: usize, value: u64, length: usize) -> Vec<Poke> {
        let old = slot(self.page, k);
        let old_length = if old.is_record() { old.length } else { 0 };
        let free = (page::free_space(self.page) + old_length).wrapping_sub(length) as u64 % (1 << 32);
        vec![poke::slot(self.number, k, value), poke::free_space(self.number, free)]
    }

    fn count_damage(&mut self) -> Vec<Poke> {
        let value = self.random.pick(&[1, 2047, 3000, 65535, self.count() as u64 + 1]);
        vec![poke::count(self.number, value)]
    }

    /// The count wiped, alone or with what stands behind it in the header.
    fn wiped_count(&mut self) -> Vec<Poke> {
        let (start, free) = (page::data_start(self.page) as u64, page::free_space(self.page) as u64);
        let first = page::first_free(self.page) as u64;
        let (kept, wiped) = ([0, first, start, free], [0, 0, 0, free]);
        let headers = [kept, kept, kept, [0, 0, start, free], wiped, [0, 0, start, 16372], [0, 0, 16384, free], [0, 0, 16384, 0]];
        poke::header(self.number, self.random.pick(&headers)).to_vec()
    }

    fn first_free_damage(&mut self) -> Vec<Poke> {
        let any = self.any_slot() as u64;
        let value = self.random.pick(&[0, any, self.count() as u64, self.count() as u64 + 1, 65535]);
        vec![poke::first_free(self.number, value)]
    }

    fn data_start_damage(&mut self) -> Vec<Poke> {
        let low = 12 + 8 * self.count() as u64;
        let start = page::data_start(self.page) as u64;
        let value = self.random.pick(&[0, low - 1, low, start + 1, 16384, 16385, HUGE]);
        vec![poke::data_start(self.number, value)]
    }

    fn free_space_damage(&mut self) -> Vec<Poke> {
        let free = page::free_space(self.page) as u64;
        let value = self.random.pick(&[0, free + 1, free.saturating_sub(1), free + 8, 16372, HUGE, HUGE - 7]);
        vec![poke::free_space(self.number, value % (1 << 32))]
    }

    fn place_damage(&mut self) -> Vec<Poke> {
        let k = self.record_slot(1);
        let record = slot(self.page, k);
        let start = page::data_start(self.page);
        let offset = self.random.pick(&[start.saturating_sub(1), 0, PAGE_SIZE + 1 - record.length.min(PAGE_SIZE), (1 << 30) - 1]);
        vec![poke::slot(self.number, k, of_kind(record.kind, offset, record.length))]
    }

    fn length_damage(&mut self) -> Vec<Poke> {
        let k = self.record_slot(1);
        let record = slot(self.page, k);
        let length = self.random.pick(&[HUGE as usize, PAGE_SIZE, PAGE_SIZE + 1 - record.offset.min(PAGE_SIZE)]);
        self.replace(k, of_kind(record.kind, record.offset, length), length)
    }

    fn empty_damage(&mut self) -> Vec<Poke> {
        let k = self.record_slot(0);
        let offset = self.random.pick(&[16383, 16384, 16385, 16392, (1 << 30) - 1]);
        self.replace(k, poke::plain(offset, 0), 0)
    }

    fn overlap_damage(&mut self) -> Vec<Poke> {
        let (from, to) = (self.record_slot(1), self.record_slot(1));
        let (first, second) = (slot(self.page, from), slot(self.page, to));
        let offset = first.offset + self.random.below(first.length as u64) as usize;
        vec![poke::slot(self.number, to, of_kind(second.kind, offset.min(16384 - second.length.min(16384)), second.length))]
    }

    fn target_damage(&mut self) -> Vec<Poke> {
        let k = self.record_slot(1);
        let record = slot(self.page, k);
        let length = self.random.pick(&[0, 1, 7, 8]).min(record.length);
        self.replace(k, poke::target(record.offset, length), length)
    }

    fn astray(&mut self) -> Vec<Poke> {
        let k = self.any_slot();
        let (n, other, any) = (self.n as u64, self.random.below(self.n as u64), self.random.below(8));
        let slot = self.random.pick(&[0, 1, any, 2045, 65535]);
        let page = self.random.pick(&[n, n + 1, self.number as u64, other, other, other, (1 << 46) - 1, 1 << 32]);
        self.replace(k, poke::redirect(page * 65536 + slot), 0)
    }

    fn kind_damage(&mut self) -> Vec<Poke> {
        let k = self.record_slot(8);
        let record = slot(self.page, k);
        let other = if record.kind == Kind::Plain { Kind::Target } else { Kind::Plain };
        vec![poke::slot(self.number, k, of_kind(other, record.offset, record.length))]
    }

    /// Any byte of header or directory.
    fn noise(&mut self) -> Vec<Poke> {
        let place = self.random.below(12 + 8 * self.count().min(2046) as u64);
        let offset = (self.number * PAGE_SIZE) as u64 + place;
        vec![Poke::Segment { offset, width: 1, value: self.random.below(256) }]
    }

    fn back_id_damage(&mut self) -> Vec<Poke> {
        let count = self.count().min(2046);
        let targets: Vec<Slot> = (0..count).map(|k| slot(self.page, k)).filter(|slot| slot.kind == Kind::Target).collect();
        if targets.is_empty() {
            return self.kind_damage();
        }
        let offset = self.random.pick(&targets).offset.min(PAGE_SIZE - 8);
        let old = u64::from_be_bytes(self.page[offset..offset + 8].try_into().unwrap());
        let value = self.random.pick(&[0, old ^ 1, old ^ 65536, old ^ 1 << 62, old ^ 1 << 63]);
        vec![poke::back_id(self.number, offset, value)]
    }
}

fn of_kind(kind: Kind, offset: usize, length: usize) -> u64 {
    if kind == Kind::Target { poke::target(offset, length) } else { poke::plain(offset, length) }
}

const DAMAGES: [fn(&mut Patient) -> Vec<Poke>; 14] = [
    |patient| patient.count_damage(),
    |patient| patient.wiped_count(),
    |patient| patient.first_free_damage(),
    |patient| patient.data_start_damage(),
    |patient| patient.free_space_damage(),
    |patient| patient.place_damage(),
    |patient| patient.length_damage(),
    |patient| patient.empty_damage(),
    |patient| patient.overlap_damage(),
    |patient| patient.target_damage(),
    |patient| patient.astray(),
    |patient| patient.kind_damage(),
    |patient| patient.back_id_damage(),
    |patient| patient.noise(),
];

/// The header of a page without slots, in one or two of its numbers.
fn emptied(random: &mut Random, number: usize, page: &[u8]) -> Vec<Poke> {
    let (start, free) = (page::data_start(page) as u64, page::free_space(page) as u64);
    let counted = [[1, 0, start, free], [2, 0, start, free], [2047, 0, start, free]];
    let first = [[0, 1, start, free], [0, 65535, start, free]];
    let rest = [[0, 0, 16000, 16372], [0, 0, 16383, free], [0, 0, start, free + 1], [0, 0, 16384, 0], [0, 0, 0, 16372], [0, 0, 11, 16372]];
    poke::header(number, random.pick(&[&counted[..], &first, &rest].concat())).to_vec()
}

/// Damages one page of the segment.
pub fn damage(random: &mut Random, segment: &[u8]) -> Vec<Poke> {
    let n = segment.len() / PAGE_SIZE;
    if n == 0 {
        return Vec::new();
    }
    let number = random.below(n as u64) as usize;
    let page = &segment[number * PAGE_SIZE..(number + 1) * PAGE_SIZE];
    if page::count(page) == 0 {
        return emptied(random, number, page);
    }
    let damage = random.pick(&DAMAGES);
    damage(&mut Patient { random, n, number, page })
}

/// Makes the inventory say something else.
pub fn untruth(random: &mut Random, n: usize) -> Vec<Poke> {
    let page = 2 * random.below(n as u64 / 2 + 3) as usize;
    match random.below(4) {
        0 => vec![poke::nibbles(page.min(32526), random.below(16), random.below(16))],
        1 => vec![poke::nibbles((n / 2 * 2).min(32526), random.below(16), random.below(16))],
        2 => vec![poke::entry(random.below(15) as usize, random.below(n as u64 + 2))],
        _ => {
            let any = random.below(n as u64 + 1);
            let named = random.pick(&[0, any, n as u64 + 1, u64::MAX]);
            (0..15).map(|number| poke::entry(number, named)).collect()
        }
    }
}
