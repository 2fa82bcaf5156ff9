//! Segments to be repaired: sound ones, some with a few calls made on them, and then damage of one
//! kind or of many. Repeatable from a seed.

use crate::damage::{damage, untruth};
use crate::poke::{self, Poke};
use crate::populate::{fresh_with_leftovers, populate};
use crate::random::Random;
use crate::sequence::{Event, Sequence, Start, Style};
use model::page::{self, slot, Slot};
use model::Model;
use store::{perform, Store, PAGE_SIZE};

const FREE: u64 = 1;
const REDIRECT: u64 = 2;
const TARGET: u64 = 3;

/// What is to be repaired, and how its pages were some calls ago.
pub struct Wreck {
    pub segment: Vec<u8>,
    pub inventory: Vec<u8>,
    older: Vec<u8>,
    random: Random,
}

/// Up to five pages, mostly with few slots; for each five hundredth seed some hundred pages.
pub fn wreck(seed: u64) -> Wreck {
    let mut random = Random::new(seed ^ 0x0004_BE4C);
    let many = seed % 500 == 0;
    let few = random.pick(&[0, 1, 1, 1, 1, 1, 1, 2, 2, 2, 2, 2, 2, 3, 3, 3, 3, 3, 4, 5]);
    let n = if many { 60 + random.below(80) as usize } else { few };
    let most_slots = if many { 4 } else { random.pick(&[1, 2, 3, 5, 8, 8, 12, 12, 40, 2046]) };
    let (segment, inventory) = sound(&mut random, n, most_slots);
    let mut wreck = Wreck { older: segment.clone(), segment, inventory, random };
    if wreck.random.one_in(3) {
        make_calls(&mut wreck.random, &mut wreck.segment, &mut wreck.inventory);
    }
    if n > 0 {
        wreck.damage();
    } else if wreck.random.one_in(2) {
        wreck.inventory_bytes();
    }
    wreck
}

/// A sound segment and its inventory: all zero, fresh pages full of leftovers, mostly populated.
pub fn sound(random: &mut Random, n: usize, most_slots: usize) -> (Vec<u8>, Vec<u8>) {
    let pokes = match random.below(16) {
        0 => vec![],
        1 => fresh_with_leftovers(random, n),
        _ => populate(random, n, most_slots),
    };
    let (mut segment, mut inventory) = (vec![0; n * PAGE_SIZE], vec![0; PAGE_SIZE]);
    pokes.iter().for_each(|poke| poke.apply(&mut segment, &mut inventory));
    (segment, inventory)
}

/// Up to twenty calls on a sound segment.
pub fn make_calls(random: &mut Random, segment: &mut [u8], inventory: &mut [u8]) {
    let style = Style { start: Start::Zero, damages: false, untruths: false, most_slots: 0 };
    let (seed, times) = (random.next(), random.below(20));
    let mut calls = Sequence::new(seed, style, segment.len() / PAGE_SIZE, times);
    let mut model = Model::new(segment, inventory);
    while let Some(Event::Call(call)) = calls.next(model.segment()) {
        perform(&mut model, call);
    }
    segment.copy_from_slice(model.segment());
    inventory.copy_from_slice(model.inventory());
}

const KINDS: [fn(&mut Wreck); 20] = [
    Wreck::known,
    Wreck::known,
    Wreck::untrue,
    Wreck::inventory_bytes,
    Wreck::header_bytes,
    Wreck::header_number,
    Wreck::directory_bytes,
    Wreck::page_bytes,
    Wreck::torn,
    Wreck::wiped,
    Wreck::odd_record,
    Wreck::odd_record,
    Wreck::doubled_slot,
    Wreck::count,
    Wreck::pair,
    Wreck::astray_pair,
    Wreck::link_bit,
    Wreck::second_link,
    Wreck::empty_record,
    Wreck::free_slot,
];

impl Wreck {
    fn n(&self) -> usize {
        self.segment.len() / PAGE_SIZE
    }

    /// Nothing; one damage; several of one kind; several of any kind.
    fn damage(&mut self) {
        let times = self.random.pick(&[0, 1, 1, 1, 1, 2, 3, 4, 8, 30]) * self.n().div_ceil(5);
        let one = self.random.pick(&KINDS);
        let alike = self.random.one_in(3);
        for _ in 0..times {
            let kind = if alike { one } else { self.random.pick(&KINDS) };
            kind(self);
        }
    }

    fn poke(&mut self, poke: Poke) {
        poke.apply(&mut self.segment, &mut self.inventory);
    }

    fn page(&mut self) -> usize {
        self.random.below(self.n() as u64) as usize
    }

    fn bytes(&self, number: usize) -> &[u8] {
        &self.segment[number * PAGE_SIZE..][..PAGE_SIZE]
    }

    fn count_of(&self, number: usize) -> usize {
        page::count(self.bytes(number)).min(2046)
    }

    /// A page and one of its slots; 0, past the count, where it has none.
    fn slot(&mut self) -> (usize, usize) {
        let number = self.page();
        (number, self.random.below(self.count_of(number) as u64) as usize)
    }

    fn slot_at(&self, (number, k): (usize, usize)) -> Slot {
        slot(self.bytes(number), k)
    }

    /// A slot as wanted, if one is met soon.
    fn slot_of(&mut self, wanted: impl Fn(&Slot) -> bool) -> Option<(usize, usize)> {
        let tried: Vec<_> = (0..12).map(|_| self.slot()).collect();
        tried.into_iter().find(|&(number, k)| k < self.count_of(number) && wanted(&self.slot_at((number, k))))
    }

    fn some_bytes(&mut self, place: usize, length: usize) {
        for at in place..place + length {
            self.segment[at] = self.random.next() as u8;
        }
    }

    /// One of the kinds that calls are tried on.
    fn known(&mut self) {
        let pokes = damage(&mut self.random, &self.segment);
        pokes.into_iter().for_each(|poke| self.poke(poke));
    }

    fn untrue(&mut self) {
        let n = self.n();
        let pokes = untruth(&mut self.random, n);
        pokes.into_iter().for_each(|poke| self.poke(poke));
    }

    /// The inventory in a byte, in its last one, or as a whole.
    fn inventory_bytes(&mut self) {
        let any = self.random.below(PAGE_SIZE as u64) as usize;
        match self.random.below(6) {
            0 => self.inventory.fill(0),
            1 => self.inventory.fill(0xFF),
            2 => self.inventory[PAGE_SIZE - 1] ^= self.random.pick(&[1, 8, 16, 128, 255]),
            3 => self.inventory[any % 120] ^= 1 << self.random.below(8),
            4 => self.inventory[120 + any % 4] ^= 1 << self.random.below(8),
            _ => self.inventory[any] ^= 1 << self.random.below(8),
        }
    }

    fn header_bytes(&mut self) {
        let (number, times) = (self.page(), self.random.below(4) + 1);
        for _ in 0..times {
            let at = number * PAGE_SIZE + self.random.below(12) as usize;
            self.some_bytes(at, 1);
        }
    }

    /// One of the header's numbers, a little off or far.
    fn header_number(&mut self) {
        let number = self.page();
        let page = self.bytes(number);
        let (count, first, start, free) = (page::count(page), page::first_free(page), page::data_start(page), page::free_space(page));
        let off = self.random.pick(&[-1, 1, -8, 8, -1000, 1000, -16384, 16384]);
        let near = |old: usize| old.wrapping_add_signed(off) as u64 % (1 << 32);
        let edge = self.random.pick(&[12 + 8 * count as u64, 11 + 8 * count as u64, 16384, 16385, near(start)]);
        let poke = match self.random.below(4) {
            0 => poke::first_free(number, near(first) % 65536),
            1 => poke::data_start(number, near(start)),
            2 => poke::data_start(number, edge),
            _ => poke::free_space(number, near(free)),
        };
        self.poke(poke);
    }

    fn directory_bytes(&mut self) {
        let (number, times) = (self.page(), self.random.below(12) + 1);
        let end = 12 + 8 * self.count_of(number) as u64;
        for _ in 0..times {
            let at = number * PAGE_SIZE + self.random.below(end) as usize;
            self.some_bytes(at, 1);
        }
    }

    /// A whole page of noise, half the time behind a count that can be.
    fn page_bytes(&mut self) {
        let number = self.page();
        self.some_bytes(number * PAGE_SIZE, PAGE_SIZE);
        let count = self.random.pick(&[0, 1, 2, 5, 60, 2046]);
        if self.random.one_in(2) {
            self.poke(poke::count(number, count));
        }
    }

    /// The begin of a page as it is and its end as it was some calls ago, or of another page; or the other way round.
    fn torn(&mut self) {
        let (number, other) = (self.page(), self.page());
        let from = if self.random.one_in(2) { self.older[number * PAGE_SIZE..][..PAGE_SIZE].to_vec() } else { self.bytes(other).to_vec() };
        let any = self.random.below(PAGE_SIZE as u64) as usize;
        let cut = self.random.pick(&[any / 512 * 512, any / 4096 * 4096, any % 200, any]);
        let part = if self.random.one_in(2) { 0..cut } else { cut..PAGE_SIZE };
        self.segment[number * PAGE_SIZE..][..PAGE_SIZE][part.clone()].copy_from_slice(&from[part]);
    }

    /// A run of zeros: the count, the header, a part of the directory, any.
    fn wiped(&mut self) {
        let number = self.page();
        let directory = 12 + 8 * self.count_of(number) as u64;
        let (place, length) = (self.random.below(directory) as usize, self.random.below(40) as usize);
        let (place, length) = self.random.pick(&[(0, 2), (0, 12), (2, 10), (0, 4096), (place, length), (place, 8)]);
        self.segment[number * PAGE_SIZE + place..][..length.min(PAGE_SIZE - place)].fill(0);
    }

    /// A record or target at the edges of the page, of the directory, or of another record.
    fn odd_record(&mut self) {
        let at = self.slot();
        let directory = 12 + 8 * self.count_of(at.0);
        let k = self.random.below(self.count_of(at.0) as u64) as usize;
        let other = self.slot_at((at.0, k));
        let end = other.offset + other.length;
        let any = self.random.below(16400) as usize;
        let places = [0, directory - 1, directory, directory + 1, other.offset, other.offset + 1, end, end.saturating_sub(1), any];
        let offset = if self.random.one_in(5) { self.random.pick(&[16376, 16383, 16384, 16385, (1 << 30) - 1]) } else { self.random.pick(&places) };
        let offset = offset % (1 << 30);
        let rest = PAGE_SIZE.saturating_sub(offset);
        let up_to = other.offset.saturating_sub(offset);
        let lengths = [0, 1, 7, 8, 9, rest, rest + 1, other.length, up_to, up_to + 1, any % 300, any, u32::MAX as usize];
        let length = self.random.pick(&lengths) % (1 << 32);
        let kind = self.random.pick(&[0, 0, 0, TARGET]);
        self.poke(poke::slot(at.0, at.1, kind << 62 | poke::plain(offset, length)));
    }

    /// A slot with the bytes of another, of any page.
    fn doubled_slot(&mut self) {
        let (from, to) = (self.slot(), self.slot());
        let bytes = self.bytes(from.0)[12 + 8 * from.1..][..8].to_vec();
        self.segment[to.0 * PAGE_SIZE + 12 + 8 * to.1..][..8].copy_from_slice(&bytes);
    }

    fn count(&mut self) {
        let number = self.page();
        let count = self.count_of(number) as u64;
        let any = self.random.below(60);
        let value = self.random.pick(&[0, count + 1, count + 1, count + 2, count + any, count.saturating_sub(1), 2046, 2047, 65535]);
        self.poke(poke::count(number, value));
    }

    /// A redirect and a target that name each other, whatever stood there.
    fn pair(&mut self) {
        let (root, target) = (self.slot(), self.slot());
        self.link(root, target, 0, 0);
    }

    fn astray_pair(&mut self) {
        let (root, target) = (self.slot(), self.slot());
        let bits = [1, 1 << 16, 1 << 17, 1 << 32, 1 << 61];
        let (named, back) = (self.random.pick(&bits), self.random.pick(&[bits[0], bits[1], bits[3], 1 << 62, 1 << 63]));
        match self.random.below(4) {
            0 => self.link(root, target, named, 0),
            1 => self.link(root, target, 0, back),
            2 => self.link(root, (root.0, target.1), 0, 0),
            _ => {
                let page = self.random.pick(&[self.n() as u64, self.n() as u64 + 1, (1 << 46) - 1]);
                self.poke(poke::slot(root.0, root.1, REDIRECT << 62 | page << 16 | target.1 as u64));
            }
        }
    }

    /// Turns two slots into redirect and target, with these bits wrong in what they say of each other. A record that lies on its page
    /// keeps its place.
    fn link(&mut self, root: (usize, usize), target: (usize, usize), named: u64, back: u64) {
        let id = |(number, k): (usize, usize)| (number * 65536 + k) as u64;
        let old = self.slot_at(target);
        let offset = if old.is_record() && old.offset <= 16376 { old.offset } else { 16376 - self.random.below(12000) as usize };
        let length = if old.is_record() && old.length >= 8 { old.length } else { 8 + self.random.below(20) as usize };
        self.poke(poke::slot(root.0, root.1, REDIRECT << 62 | (id(target) ^ named) % (1 << 62)));
        self.poke(poke::slot(target.0, target.1, TARGET << 62 | poke::plain(offset, length)));
        self.poke(poke::back_id(target.0, offset, id(root) ^ back));
    }

    /// One bit of a redirect or of a back id.
    fn link_bit(&mut self) {
        let bit = self.random.pick(&[0, 1, 15, 16, 17, 18, 32, 47, 48, 61, 62, 63]);
        let byte = 7 - bit / 8;
        let wanted = self.random.pick(&[page::Kind::Redirect, page::Kind::Target]);
        let Some((number, k)) = self.slot_of(|slot| slot.kind == wanted) else { return };
        let offset = self.slot_at((number, k)).offset;
        let place = if wanted == page::Kind::Redirect { 12 + 8 * k } else { offset.min(16376) };
        self.segment[number * PAGE_SIZE + place + byte] ^= 1 << (bit % 8);
    }

    /// A second redirect to a target, or a second target for a redirect.
    fn second_link(&mut self) {
        let Some(root) = self.slot_of(|slot| slot.kind == page::Kind::Redirect) else { return };
        let named = self.slot_at(root).id;
        let other = self.slot();
        if self.random.one_in(2) {
            self.poke(poke::slot(other.0, other.1, REDIRECT << 62 | named));
            return;
        }
        let bytes = self.bytes(root.0)[12 + 8 * root.1..][..8].to_vec();
        self.link(root, other, 0, 0);
        self.segment[root.0 * PAGE_SIZE + 12 + 8 * root.1..][..8].copy_from_slice(&bytes);
    }

    fn empty_record(&mut self) {
        let at = self.slot();
        let any = self.random.below(17000) as usize;
        let offset = self.random.pick(&[0, 12, 16376, 16383, 16384, 16385, any, (1 << 30) - 1]);
        self.poke(poke::slot(at.0, at.1, poke::plain(offset, 0)));
    }

    /// A free slot, half the time with low bits that don't matter.
    fn free_slot(&mut self) {
        let at = self.slot();
        let low = if self.random.one_in(2) { 0 } else { self.random.next() };
        self.poke(poke::slot(at.0, at.1, FREE << 62 | low % (1 << 62)));
    }
}
