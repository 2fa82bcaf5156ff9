//! Segments to be reported on, and the tally that they are added to one after the other. Repeatable from
//! a seed.

use crate::lists::store;
use crate::poke::{self, Poke};
use crate::populate::true_inventory;
use crate::random::Random;
use model::page::{self, slot, Kind};
use model::report::{fill_report, Tally, CLASSES, FIGURES};
use store::PAGE_SIZE;

/// A segment, and an inventory that a report is not lent.
pub struct Lent {
    pub segment: Vec<u8>,
    pub inventory: Vec<u8>,
}

impl Lent {
    /// Whether it is whole pages, and no more than there may be.
    pub fn has_right_size(&self) -> bool {
        self.segment.len() % PAGE_SIZE == 0 && self.segment.len() / PAGE_SIZE <= 32527
    }
}

/// One to three segments, and the tally before the first.
pub struct Run {
    pub segments: Vec<Lent>,
    pub tally: Tally,
}

pub fn run(seed: u64) -> Run {
    let mut random = Random::new(seed ^ 0x0001_F111);
    let times = random.pick(&[1, 1, 1, 2, 2, 3]);
    let segments: Vec<Lent> = (0..times).map(|_| lent(&mut random)).collect();
    let tally = tally(&mut random, &segments);
    Run { segments, tally }
}

/// Any store, now and then pages at the boundaries of classes; some are cut off, or have a byte too many.
fn lent(random: &mut Random) -> Lent {
    let (mut segment, inventory) = if random.one_in(5) { at_boundaries(random) } else { store(random) };
    if random.one_in(25) {
        let length = segment.len();
        let any = random.below(length as u64 + 1) as usize;
        segment.resize(random.pick(&[length + 1, length + 8192, length.saturating_sub(1), any, 1]), 0);
    }
    Lent { segment, inventory }
}

/// The most bytes used that pages of the classes 2 to 14 can have.
const CLASS_ENDS: [usize; 13] = [4093, 6487, 8186, 9503, 10580, 11490, 12279, 12974, 13596, 14159, 14673, 15145, 15583];

/// A few pages of one record, or of as many as there may be, with as many bytes used as a class has at the most, or one byte more; or the
/// fewest and the most of a page.
fn at_boundaries(random: &mut Random) -> (Vec<u8>, Vec<u8>) {
    let n = random.below(6) as usize + 1;
    let (mut segment, mut inventory) = (vec![random.next() as u8; n * PAGE_SIZE], vec![0; PAGE_SIZE]);
    for page in 0..n {
        let at_an_end = random.pick(&CLASS_ENDS) + random.below(2) as usize;
        let (slots, used) = if random.one_in(6) { random.pick(&[(1, 8), (1, 9), (1, 16371), (1, 16372), (2046, 16368), (2046, 16372)]) } else { (1, at_an_end) };
        let length = used - 8 * slots;
        let offset = PAGE_SIZE - length;
        let mut pokes = poke::header(page, [slots as u64, slots as u64, offset as u64, 16372 - used as u64]).to_vec();
        pokes.extend((0..slots).map(|k| poke::slot(page, k, poke::plain(offset, if k == 0 { length } else { 0 }))));
        pokes.iter().for_each(|poke| poke.apply(&mut segment, &mut inventory));
    }
    true_inventory(&segment).iter().for_each(|poke| poke.apply(&mut [], &mut inventory));
    (segment, inventory)
}

/// The figures of one segment, zeros where it is refused.
fn figures(segment: &[u8]) -> Tally {
    let mut tally = [0; FIGURES];
    fill_report(segment, &mut tally);
    tally
}

fn tally(random: &mut Random, segments: &[Lent]) -> Tally {
    let mut tally = if random.one_in(3) { earlier(random) } else { [0; FIGURES] };
    let each: Vec<Tally> = segments.iter().map(|lent| figures(&lent.segment)).collect();
    let sums: Tally = std::array::from_fn(|figure| each.iter().map(|figures| figures[figure]).sum());
    match random.below(10) {
        0 => tally = std::array::from_fn(|_| random.next()),
        1 => tally = [u64::MAX; FIGURES],
        2 => tally = sums.map(|sum| u64::MAX - sum),
        3 => tally[random.below(FIGURES as u64) as usize] = u64::MAX,
        4..8 => near(random, &sums, &each, &mut tally),
        _ => {}
    }
    tally
}

/// What some earlier segments may have left.
fn earlier(random: &mut Random) -> Tally {
    let times = random.pick(&[1, 1, 11, 1000, 1 << 30]);
    figures(&store(random).0).map(|figure| figure * times)
}

/// One figure that gets something added, mostly that of a class, so that its sum becomes 2^64 - 1, or 2^64, or passes it by more; or so that
/// the first segment fits and the next does not.
fn near(random: &mut Random, sums: &Tally, each: &[Tally], tally: &mut Tally) {
    let first = if random.one_in(3) { 0 } else { CLASSES };
    let rising: Vec<usize> = (first..FIGURES).filter(|&figure| sums[figure] > 0).collect();
    if rising.is_empty() {
        return;
    }
    let figure = random.pick(&rising);
    let (sum, first) = (sums[figure], each[0][figure]);
    let less = random.pick(&[sum, sum, sum - 1, sum - 1, 0, sum / 2, first]);
    tally[figure] = u64::MAX - less;
}

/// The same sound pages with other bytes where no call looks: behind and between the records, in free slots, and on a fresh page in all
/// but its header, which becomes either of the two.
pub fn unseen(random: &mut Random, segment: &[u8]) -> Vec<u8> {
    let mut other = segment.to_vec();
    for (number, page) in segment.chunks(PAGE_SIZE).enumerate() {
        other[number * PAGE_SIZE..][..PAGE_SIZE].fill(random.next() as u8);
        let pokes = if page::fresh(page) {
            poke::header(number, random.pick(&[[0; 4], [0, 0, 16384, 16372]])).to_vec()
        } else {
            keep_seen(number, page, &mut other);
            free_slots(random, number, page)
        };
        pokes.iter().for_each(|poke| poke.apply(&mut other, &mut []));
    }
    other
}

/// Header, directory and records of a page in use.
fn keep_seen(number: usize, page: &[u8], other: &mut [u8]) {
    let slots = (0..page::count(page)).map(|k| slot(page, k));
    let records = slots.filter(|slot| slot.is_record()).map(|record| record.offset..record.offset + record.length);
    for seen in records.chain([0..12 + 8 * page::count(page)]) {
        other[number * PAGE_SIZE..][seen.clone()].copy_from_slice(&page[seen]);
    }
}

fn free_slots(random: &mut Random, number: usize, page: &[u8]) -> Vec<Poke> {
    let free = (0..page::count(page)).filter(|&k| slot(page, k).kind == Kind::Free);
    free.map(|k| poke::slot(number, k, poke::free(random.next()))).collect()
}
