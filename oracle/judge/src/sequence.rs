//! Sequences of calls, repeatable from a seed. Each next call is chosen with a view of the
//! segment, so that sizes lie on the boundaries of the pages as they are.

use crate::damage::{damage, untruth};
use crate::poke::{undoing, Poke};
use crate::populate::{fresh_with_leftovers, populate, true_inventory};
use crate::random::Random;
use model::page::{self, slot, Kind};
use store::{Call, PAGE_SIZE};

pub const BOUNDARIES: [u64; 21] = [
    0, 1, 7, 8, 9, 4092, 4093, 4094, 12269, 12270, 12271, 12272, 16355, 16356, 16357, 16363, 16364, 16365, 16366, 16372, 16373,
];

#[derive(Clone, Debug)]
pub enum Event {
    Pokes(Vec<Poke>),
    Call(Call),
}

/// How a sequence begins.
#[derive(Clone, Copy, PartialEq, Eq, Debug)]
pub enum Start {
    Zero,
    Leftovers,
    Populated,
}

#[derive(Clone, Copy, Debug)]
pub struct Style {
    pub start: Start,
    pub damages: bool,
    pub untruths: bool,
    /// A populated page has at most so many slots, redirects and targets apart.
    pub most_slots: usize,
}

impl Style {
    /// Whether sequences of this style keep to sound segments.
    pub fn is_calm(&self) -> bool {
        !self.damages && !self.untruths
    }
}

/// How what was done by hand is mended some calls later.
enum Mending {
    Bytes(Vec<Poke>),
    Inventory,
}

pub struct Sequence {
    random: Random,
    n: usize,
    style: Style,
    start: Option<Vec<Poke>>,
    mending: Option<(u64, Mending)>,
    calls_left: u64,
    usual_size: u64,
}

fn start_pokes(style: Style, random: &mut Random, n: usize) -> Option<Vec<Poke>> {
    match style.start {
        Start::Zero => None,
        Start::Leftovers => Some(fresh_with_leftovers(random, n)),
        Start::Populated => Some(populate(random, n, style.most_slots)),
    }
}

/// The usual number of pages: few, and up to a dozen.
pub fn few_pages(seed: u64) -> usize {
    Random::new(!seed).pick(&[0, 1, 1, 2, 2, 2, 3, 3, 3, 3, 4, 5, 8, 12])
}

/// Any style, by a seed.
pub fn any_style(seed: u64) -> Style {
    let mut random = Random::new(seed ^ 0x5A5A);
    Style {
        start: random.pick(&[Start::Zero, Start::Leftovers, Start::Populated, Start::Populated]),
        damages: random.one_in(3),
        untruths: random.one_in(3),
        most_slots: 2046,
    }
}

impl Sequence {
    /// A sequence for n pages of so many calls.
    pub fn new(seed: u64, style: Style, n: usize, calls: u64) -> Sequence {
        let mut random = Random::new(seed);
        let start = start_pokes(style, &mut random, n);
        let usual_size = random.pick(&[0, 30, 300, 3000, 6000, 16400]);
        Sequence { random, n, style, start, mending: None, calls_left: calls, usual_size }
    }

    pub fn next(&mut self, segment: &[u8]) -> Option<Event> {
        if let Some(pokes) = self.by_hand(segment) {
            return Some(Event::Pokes(pokes));
        }
        self.calls_left = self.calls_left.checked_sub(1)?;
        Some(Event::Call(self.call(segment)))
    }

    /// What is done by hand before the next call.
    fn by_hand(&mut self, segment: &[u8]) -> Option<Vec<Poke>> {
        if let Some(start) = self.start.take() {
            return Some(start);
        }
        match self.mending.take() {
            Some((0, Mending::Bytes(pokes))) => return Some(pokes),
            Some((0, Mending::Inventory)) => return Some(true_inventory(segment)),
            Some((calls, mending)) => self.mending = Some((calls - 1, mending)),
            None => {}
        }
        if self.mending.is_some() || !self.random.one_in(8) {
            return None;
        }
        let (damages, calls) = (self.random.one_in(2), self.random.below(8) + 1);
        let (pokes, mending) = match damages {
            true if self.style.damages => {
                let pokes = damage(&mut self.random, segment);
                let undoing = undoing(&pokes, segment);
                (pokes, Mending::Bytes(undoing))
            }
            false if self.style.untruths => (untruth(&mut self.random, self.n), Mending::Inventory),
            _ => return None,
        };
        self.mending = (!self.random.one_in(8)).then_some((calls, mending));
        Some(pokes)
    }

    fn call(&mut self, segment: &[u8]) -> Call {
        let seed = self.random.below(256);
        let id = self.id(segment);
        match self.random.below(100) {
            0..24 => Call::Insert { length: self.new_size(segment).min(16400), seed },
            24..31 => Call::Allocate { size: self.huge_or(|this| this.new_size(segment)) },
            31..38 => Call::Read { id },
            38..62 => Call::Write { id, length: self.size(segment, id).min(16400), seed },
            62..81 => Call::Resize { id, size: self.huge_or(|this| this.size(segment, id)) },
            81..96 => Call::Erase { id },
            _ => Call::Scan,
        }
    }

    fn huge_or(&mut self, size: impl FnOnce(&mut Self) -> u64) -> u64 {
        if self.random.one_in(60) {
            return self.random.pick(&[16365, 65535, 65536, 65636, 1 << 32, u64::MAX - 7, u64::MAX]);
        }
        size(self)
    }

    /// Mostly a slot in use; also a target, a free slot, one past the count, a page past n.
    fn id(&mut self, segment: &[u8]) -> u64 {
        let n = self.n as u64;
        if n == 0 || self.random.one_in(25) {
            let page = self.random.pick(&[n, n + 1, 65536, (1 << 48) - 1]);
            return page * 65536 + self.random.below(3);
        }
        let number = self.page_in_use(segment);
        let page = page_of(segment, number);
        let count = page::count(page).min(2046);
        let from = self.random.below(count as u64) as usize;
        if count == 0 || self.random.one_in(20) {
            return number * 65536 + self.random.pick(&[from, count, count + 1, 2045, 2046, 65535]) as u64;
        }
        let wanted = self.random.pick(&[Kind::Plain, Kind::Plain, Kind::Redirect, Kind::Redirect, Kind::Redirect, Kind::Target]);
        let find = |wanted: &dyn Fn(Kind) -> bool| (from..count).chain(0..from).find(|&k| wanted(slot(page, k).kind));
        let found = find(&|kind| kind == wanted).or_else(|| find(&|kind| kind != Kind::Free));
        number * 65536 + found.unwrap_or(from) as u64
    }

    /// The page damaged last, or mostly one in use, if there are such.
    fn page_in_use(&mut self, segment: &[u8]) -> u64 {
        let n = self.n as u64;
        if let Some((_, Mending::Bytes(pokes))) = &self.mending {
            if let (Some(Poke::Segment { offset, .. }), true) = (pokes.first(), self.random.one_in(2)) {
                return offset / PAGE_SIZE as u64;
            }
        }
        let tried: Vec<u64> = (0..4).map(|_| self.random.below(n)).collect();
        tried.iter().copied().find(|&number| page::count(page_of(segment, number)) > 0).unwrap_or(tried[0])
    }

    fn plain_size(&mut self) -> u64 {
        match self.random.below(10) {
            0 | 1 => self.random.pick(&BOUNDARIES),
            2 => self.random.below(16400),
            _ => self.random.below(self.usual_size + 1),
        }
    }

    fn new_size(&mut self, segment: &[u8]) -> u64 {
        if self.n == 0 || self.random.one_in(2) {
            return self.plain_size();
        }
        let page = page_of(segment, self.random.below(self.n as u64));
        let (free, gap) = (page::free_space(page) as u64, gap(page));
        self.near(&[free, free.saturating_sub(8), gap, gap.saturating_sub(8), gap.saturating_sub(4)])
    }

    /// A size for the record of an id: near what its page, or its target's page, has room for.
    fn size(&mut self, segment: &[u8], id: u64) -> u64 {
        let Some((page, k)) = self.slot_of(segment, id) else { return self.plain_size() };
        if self.random.one_in(3) {
            return self.plain_size();
        }
        let named = slot(page, k);
        let free = page::free_space(page) as u64;
        if named.kind != Kind::Redirect {
            let length = named.length as u64;
            return self.near(&[length, free + length, gap(page), length / 2, 0]);
        }
        let Some((other, j)) = self.slot_of(segment, named.id) else { return self.near(&[free]) };
        let target = slot(other, j);
        let (length, room) = (target.length as u64, page::free_space(other) as u64);
        let most = (room + length).saturating_sub(8);
        self.near(&[free, gap(page), length.saturating_sub(8), most, most, gap(other), 0, length / 2])
    }

    fn slot_of<'a>(&self, segment: &'a [u8], id: u64) -> Option<(&'a [u8], usize)> {
        let (number, k) = (id / 65536, (id % 65536) as usize);
        let page = (number < self.n as u64).then(|| page_of(segment, number))?;
        (k < page::count(page).min(2046)).then_some((page, k))
    }

    fn near(&mut self, sizes: &[u64]) -> u64 {
        let size = self.random.pick(sizes).min(20000);
        (size + self.random.pick(&[0, 0, 0, 1, 8])).saturating_sub(self.random.pick(&[0, 0, 0, 1, 8]))
    }
}

fn page_of(segment: &[u8], number: u64) -> &[u8] {
    &segment[number as usize * PAGE_SIZE..(number as usize + 1) * PAGE_SIZE]
}

fn gap(page: &[u8]) -> u64 {
    (page::data_start(page) as u64).saturating_sub(12 + 8 * page::count(page) as u64)
}
