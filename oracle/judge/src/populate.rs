//! Sound segments that no calls need have made: any directory, any order of the records, gaps
//! between them, leftovers everywhere.

use crate::poke::{self, Poke};
use crate::random::Random;
use model::inventory::class;
use model::page;
use store::PAGE_SIZE;

#[derive(Clone, Copy, PartialEq)]
enum Wanted {
    Plain(usize),
    Target { length: usize, root: u64 },
    Redirect(u64),
    Free,
}

impl Wanted {
    fn length(&self) -> usize {
        match *self {
            Wanted::Plain(length) | Wanted::Target { length, .. } => length,
            _ => 0,
        }
    }
}

/// What the directory and the records of a page take.
fn used(page: &[Wanted]) -> usize {
    page.iter().map(|slot| 8 + slot.length()).sum()
}

/// A page of slots, none for a fresh page.
fn directory(random: &mut Random, most_slots: usize) -> Vec<Wanted> {
    if random.one_in(4) {
        return Vec::new();
    }
    let slack = random.pick(&[0, 1, 7, 8, 9, 40, 500, 3000, 9000, 16000]);
    let most = random.pick(&[1, 2, 3, 8, 40, 2046]).min(most_slots);
    let longest = random.pick(&[0, 8, 100, 2000, 9000, 16364]);
    let mut page = Vec::new();
    while page.len() < most && used(&page) + 8 + slack <= 16372 {
        let left = 16372 - slack - used(&page) - 8;
        let length = random.below(longest + 1).min(left as u64) as usize;
        page.push(if random.one_in(5) { Wanted::Free } else { Wanted::Plain(length) });
    }
    page
}

/// Redirects and targets, each on pages that have room for it.
fn forward(random: &mut Random, pages: &mut [Vec<Wanted>]) {
    for _ in 0..random.below(3 * pages.len() as u64 + 1) {
        let root = random.below(pages.len() as u64) as usize;
        let target = random.below(pages.len() as u64) as usize;
        let length = random.pick(&[8, 9, 16, 100, 2000, 5008]);
        let room = |page: &[Wanted], more| used(page) + 8 + more <= 16372 && page.len() < 2046;
        if root == target || !room(&pages[root], 0) || !room(&pages[target], length) {
            continue;
        }
        let id = |page: usize, slots: &[Wanted]| (page * 65536 + slots.len()) as u64;
        let (root_id, target_id) = (id(root, &pages[root]), id(target, &pages[target]));
        pages[root].push(Wanted::Redirect(target_id));
        pages[target].push(Wanted::Target { length, root: root_id });
    }
}

/// Places for the records in a random order from the page's end down, with gaps between them.
fn places(random: &mut Random, slots: &[Wanted]) -> (usize, Vec<usize>) {
    let mut order: Vec<usize> = (0..slots.len()).collect();
    (1..order.len()).for_each(|k| order.swap(k, random.below(k as u64 + 1) as usize));
    let mut slack = 16372 - used(slots);
    let mut offsets = vec![0; slots.len()];
    let mut start = PAGE_SIZE;
    for k in order {
        if random.one_in(3) {
            let gap = random.below(slack as u64 / 2 + 1) as usize;
            slack -= gap;
            start -= gap;
        }
        start -= slots[k].length();
        let astray = slots[k].length() == 0 && random.one_in(2);
        offsets[k] = if astray { random.below(PAGE_SIZE as u64 + 1) as usize } else { start };
    }
    (start, offsets)
}

fn slot_value(random: &mut Random, slot: Wanted, offset: usize) -> u64 {
    match slot {
        Wanted::Plain(length) => poke::plain(offset, length),
        Wanted::Target { length, .. } => poke::target(offset, length),
        Wanted::Redirect(id) => poke::redirect(id),
        Wanted::Free => poke::free(if random.one_in(2) { 0 } else { random.next() }),
    }
}

/// One of the two headers of a fresh page.
fn fresh_header(random: &mut Random, page: usize) -> [Poke; 4] {
    poke::header(page, random.pick(&[[0, 0, 0, 0], [0, 0, 16384, 16372]]))
}

fn page_pokes(random: &mut Random, page: usize, slots: &[Wanted], pokes: &mut Vec<Poke>) {
    if slots.is_empty() {
        pokes.extend(fresh_header(random, page));
        return;
    }
    let (start, offsets) = places(random, slots);
    let first_free = slots.iter().position(|&slot| slot == Wanted::Free).unwrap_or(slots.len());
    pokes.extend(poke::header(page, [slots.len() as u64, first_free as u64, start as u64, 16372 - used(slots) as u64]));
    for (k, &slot) in slots.iter().enumerate() {
        pokes.push(poke::slot(page, k, slot_value(random, slot, offsets[k])));
        if let Wanted::Target { root, .. } = slot {
            pokes.push(poke::back_id(page, offsets[k], root));
        }
    }
}

/// The nibbles of these classes, 0 for a few pages from n on, and the entries.
fn inventory_pokes(classes: &[usize]) -> Vec<Poke> {
    let mut pokes = Vec::new();
    for (pair, nibbles) in classes.chunks(2).enumerate() {
        let high = nibbles.get(1).copied().unwrap_or(0);
        pokes.push(poke::nibbles(2 * pair, nibbles[0] as u64, high as u64));
    }
    for number in 0..15 {
        let lowest = classes.iter().position(|&class| class <= number).unwrap_or(classes.len());
        pokes.push(poke::entry(number, lowest as u64));
    }
    let past = classes.len().div_ceil(2) * 2;
    if past < 32526 {
        pokes.push(poke::nibbles(past, 0, 0));
    }
    pokes
}

/// Makes an all-zero segment of n pages, with its inventory, a populated sound one.
pub fn populate(random: &mut Random, n: usize, most_slots: usize) -> Vec<Poke> {
    let mut slots: Vec<Vec<Wanted>> = (0..n).map(|_| directory(random, most_slots)).collect();
    if n > 0 {
        forward(random, &mut slots);
    }
    let mut pokes = vec![leftovers(random, n)];
    for (page, slots) in slots.iter().enumerate() {
        page_pokes(random, page, slots, &mut pokes);
    }
    let class = |slots: &Vec<Wanted>| if slots.is_empty() { 0 } else { class(used(slots)) };
    pokes.extend(inventory_pokes(&slots.iter().map(class).collect::<Vec<_>>()));
    pokes
}

/// Makes the inventory true.
pub fn true_inventory(segment: &[u8]) -> Vec<Poke> {
    let class = |page: &[u8]| if page::fresh(page) { 0 } else { class(16372_usize.saturating_sub(page::free_space(page))) };
    inventory_pokes(&segment.chunks(PAGE_SIZE).map(class).collect::<Vec<_>>())
}

fn leftovers(random: &mut Random, n: usize) -> Poke {
    Poke::Fill { offset: 0, length: (n * PAGE_SIZE) as u64, seed: random.below(256) }
}

/// Fresh pages full of leftovers.
pub fn fresh_with_leftovers(random: &mut Random, n: usize) -> Vec<Poke> {
    let mut pokes = vec![leftovers(random, n)];
    (0..n).for_each(|page| pokes.extend(fresh_header(random, page)));
    pokes
}
