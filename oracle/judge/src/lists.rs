//! Lists of rows, each with a store that they are to go into by one call. Repeatable from a seed. Each
//! next row is chosen with a view of the pages as the rows before it leave them.

use crate::damage::{damage, untruth};
use crate::poke::{self, Poke};
use crate::random::Random;
use crate::repairs::LEFTOVER;
use crate::sequence::BOUNDARIES;
use crate::wreck::{make_calls, sound, wreck};
use model::inventory::entry;
use model::page;
use model::Model;
use store::{record, Store, DONE, PAGE_SIZE};

/// What is wrong with a list.
#[derive(Clone, Copy, PartialEq, Eq, Debug)]
pub enum Wrong {
    OneByteLess,
    OneByteMore,
    /// The lengths sum to the bytes and 2^64.
    Wraps,
    Huge,
    NoLengths,
    FewPlaces,
}

pub struct List {
    pub segment: Vec<u8>,
    pub inventory: Vec<u8>,
    /// The rows' bytes end to end.
    pub rows: Vec<u8>,
    pub lengths: Vec<u64>,
    /// The bytes of row k are `record(lengths[k], seeds[k])`, unless the list is wrong.
    pub seeds: Vec<u64>,
    pub places: usize,
    pub wrong: Option<Wrong>,
    /// Segment or inventory have a length that is refused.
    pub wrong_size: bool,
}

/// A list for a store of few pages, now and then of some forty.
pub fn list(seed: u64) -> List {
    let mut random = Random::new(seed ^ 0x0002_0A11);
    let (segment, inventory) = store(&mut random);
    let lengths = lengths(&mut random, &segment, &inventory);
    let seeds: Vec<u64> = lengths.iter().map(|_| random.below(256)).collect();
    let rows = lengths.iter().zip(&seeds).flat_map(|(&length, &seed)| record(length, seed)).collect();
    let places = lengths.len() + random.pick(&[0, 0, 0, 1, 2, 50]);
    let mut list = List { segment, inventory, rows, lengths, seeds, places, wrong: None, wrong_size: false };
    if random.one_in(10) {
        list.make_wrong(&mut random);
    }
    if random.one_in(30) {
        list.make_wrong_size(&mut random);
    }
    list
}

impl List {
    /// The id places as they are before the call.
    pub fn ids(&self) -> Vec<u64> {
        (0..self.places as u64).map(|k| LEFTOVER + k).collect()
    }

    /// The answer before any row, if there is one.
    pub fn refused(&self) -> Option<u64> {
        if self.wrong_size { Some(1) } else { self.wrong.map(|_| 10) }
    }

    /// The bytes of a row.
    pub fn row(&self, k: usize) -> Vec<u8> {
        record(self.lengths[k], self.seeds[k])
    }

    fn make_wrong(&mut self, random: &mut Random) {
        let wrong = random.pick(&[Wrong::OneByteLess, Wrong::OneByteMore, Wrong::Wraps, Wrong::Huge, Wrong::NoLengths, Wrong::FewPlaces]);
        let wrong = if wrong == Wrong::OneByteLess && self.rows.is_empty() { Wrong::OneByteMore } else { wrong };
        let any = |random: &mut Random, list: &List| random.below(list.lengths.len() as u64 + 1) as usize;
        match wrong {
            Wrong::OneByteLess => drop(self.rows.pop()),
            Wrong::OneByteMore => self.rows.push(1),
            Wrong::Wraps => {
                let less: u64 = random.pick(&[1 << 63, 1, 2, 20, 16364]);
                for length in [less, less.wrapping_neg()] {
                    let at = any(random, self);
                    self.lengths.insert(at, length);
                }
                self.places += 2;
            }
            Wrong::Huge => {
                let (at, length) = (any(random, self), random.pick(&[1 << 32, 1 << 63, u64::MAX - 7, u64::MAX]));
                self.lengths.insert(at, length);
                self.places += 1;
            }
            Wrong::NoLengths => {
                self.rows.push(1);
                self.lengths.clear();
            }
            Wrong::FewPlaces => {
                self.lengths.push(0);
                self.places = random.pick(&[self.lengths.len() - 1, self.lengths.len() - 1, 0]);
            }
        }
        self.wrong = Some(wrong);
    }

    fn make_wrong_size(&mut self, random: &mut Random) {
        match random.below(6) {
            0 => self.segment.push(0),
            1 => self.segment.resize(self.segment.len() + PAGE_SIZE - 1, 0),
            2 => self.inventory.push(0),
            3 => drop(self.inventory.pop()),
            4 => self.inventory.clear(),
            _ => self.inventory.resize(2 * PAGE_SIZE, 0),
        }
        if random.one_in(4) {
            self.lengths.clear();
            self.rows.clear();
        }
        self.wrong_size = true;
    }
}

/// A sound store, a damaged one, one whose inventory is not true, or one to be repaired.
pub fn store(random: &mut Random) -> (Vec<u8>, Vec<u8>) {
    if random.one_in(6) {
        let wreck = wreck(random.next());
        return (wreck.segment, wreck.inventory);
    }
    let n = random.pick(&[0, 1, 1, 1, 1, 2, 2, 2, 2, 2, 3, 3, 3, 3, 3, 4, 4, 4, 5, 8, 12, 17, 20, 40]);
    let most_slots = random.pick(&[1, 2, 3, 3, 8, 8, 12, 40, 2046]);
    let (mut segment, mut inventory) = if random.one_in(5) { (vec![0; n * PAGE_SIZE], vec![0; PAGE_SIZE]) } else { sound(random, n, most_slots) };
    if random.one_in(3) {
        make_calls(random, &mut segment, &mut inventory);
    }
    let (damages, untruths) = random.pick(&[(0, 0), (0, 0), (0, 0), (1, 0), (2, 0), (0, 1), (0, 2), (0, 4), (1, 1)]);
    for _ in 0..damages {
        let pokes = damage(random, &segment);
        pokes.iter().for_each(|poke| poke.apply(&mut segment, &mut inventory));
    }
    for _ in 0..untruths {
        untrue(random, n, &mut inventory);
    }
    if n > 16 && !random.one_in(4) || n > 0 && random.one_in(10) {
        name_few(random, n, &mut segment, &mut inventory);
    }
    (segment, inventory)
}

/// Makes the inventory say something else, in a part or as a whole.
fn untrue(random: &mut Random, n: usize, inventory: &mut [u8]) {
    let pokes = match random.below(8) {
        0 => {
            inventory.fill(random.pick(&[0, 0x11, 0xFF]));
            vec![]
        }
        1 => (0..n).step_by(2).map(|page| poke::nibbles(page, random.below(16), random.below(16))).collect(),
        2 => (0..15).map(|number| poke::entry(number, random.below(n as u64 + 1))).collect(),
        _ => untruth(random, n),
    };
    pokes.iter().for_each(|poke| poke.apply(&mut [], inventory));
}

/// The entries name two pages whose numbers differ by 16, and any other, so that rows of different lengths go to them in turn. They may
/// be made fresh, and one of them damaged.
fn name_few(random: &mut Random, n: usize, segment: &mut [u8], inventory: &mut [u8]) {
    let first = random.below(if n > 16 { n as u64 - 16 } else { n as u64 }) as usize;
    let other = random.below(n as u64) as usize;
    let pages: Vec<usize> = [first, first, first + 16, first + 16, other].into_iter().filter(|&page| page < n).collect();
    let mut pokes: Vec<Poke> = (0..15).map(|number| poke::entry(number, random.pick(&pages) as u64)).collect();
    if random.one_in(2) {
        pokes.extend(pages.iter().flat_map(|&page| poke::header(page, [0; 4])));
        pokes.extend(pages.iter().map(|&page| poke::nibbles(page / 2 * 2, 0, 0)));
    }
    if random.one_in(2) {
        let free = random.pick(&[1, 11, 16372]);
        pokes.push(poke::free_space(random.pick(&pages), free));
    }
    pokes.iter().for_each(|poke| poke.apply(segment, inventory));
}

/// How the rows' lengths are chosen.
#[derive(Clone, Copy)]
enum Shape {
    One(u64),
    InTurn(u64, u64),
    UpTo(u64),
    Boundaries,
    /// Near what a page that the inventory names has room for.
    Fits,
    /// Of one length, until the store is full.
    Filling(u64),
}

fn shape(random: &mut Random, n: usize) -> Shape {
    let usual = random.pick(&[0, 8, 30, 300, 300, 1000, 3000, 6000, 16364]);
    let (short, long) = (random.below(100), random.pick(&[2560, 4096, 6000, 9000, 12000, 12270]));
    match random.below(13) {
        _ if n > 16 && random.one_in(2) => Shape::InTurn(short, long),
        0 => Shape::One(usual),
        1 => Shape::One(random.below(usual + 1)),
        2 | 3 => Shape::InTurn(short, long),
        4 => Shape::InTurn(random.below(usual + 1), random.below(12000)),
        5..8 => Shape::UpTo(usual),
        8 => Shape::Boundaries,
        9 | 10 => Shape::Fits,
        // on one page also of a length of nothing: 2,046 rows
        _ if n == 1 && random.one_in(4) => Shape::Filling(random.below(9)),
        _ => Shape::Filling((random.below(usual + 1)).max(60 * n as u64)),
    }
}

/// The lengths of rows for a store.
pub fn lengths(random: &mut Random, segment: &[u8], inventory: &[u8]) -> Vec<u64> {
    let shape = shape(random, segment.len() / PAGE_SIZE);
    let mut left = match shape {
        Shape::Filling(_) => 2100,
        _ => random.pick(&[0, 1, 1, 2, 2, 3, 4, 6, 10, 20, 50, 120]),
    };
    // one row that is too long, in some lists
    let too_long = if random.one_in(12) { random.below(left + 1) } else { u64::MAX };
    let mut model = Model::new(segment, inventory);
    let mut lengths = vec![];
    while left > 0 {
        let k = lengths.len() as u64;
        let length = if k == too_long { random.pick(&[16365, 16366, 16372, 16373, 20000, 65536 + 20]) } else { next(random, shape, k, &model) };
        lengths.push(length);
        left -= 1;
        // some rows after the refused one, too
        if model.insert_record(&vec![0; length as usize]).0 != DONE {
            left = left.min(random.pick(&[0, 1, 3]));
        }
    }
    lengths
}

fn next(random: &mut Random, shape: Shape, k: u64, model: &Model) -> u64 {
    match shape {
        Shape::One(length) | Shape::Filling(length) => length,
        Shape::InTurn(one, other) => if k % 2 == 0 { one } else { other },
        Shape::UpTo(most) => random.below(most + 1),
        Shape::Boundaries => random.pick(&BOUNDARIES),
        Shape::Fits => fits(random, model),
    }
}

fn fits(random: &mut Random, model: &Model) -> u64 {
    let named = entry(model.inventory(), random.below(15) as usize);
    let any = random.below(3000);
    if named >= (model.segment().len() / PAGE_SIZE) as u64 || random.one_in(4) {
        return any;
    }
    let page = &model.segment()[named as usize * PAGE_SIZE..][..PAGE_SIZE];
    if page::fresh(page) {
        return random.pick(&[16364, 16364, 16363, 12270, any]);
    }
    let free = page::free_space(page).min(PAGE_SIZE) as u64;
    let gap = (page::data_start(page).min(PAGE_SIZE) as u64).saturating_sub(12 + 8 * page::count(page) as u64);
    let room = random.pick(&[free, free, gap, gap.saturating_sub(8), free.saturating_sub(8)]);
    (room + random.pick(&[0, 0, 1])).saturating_sub(random.pick(&[0, 0, 1, 8]))
}
