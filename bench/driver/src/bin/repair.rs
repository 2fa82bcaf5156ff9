//! `repair SEGMENT PAGES slots|check|count UNITS`: a repair by the archive of a segment made by hand.
//! `slots` prints how many slots it has, and how many of them are redirects and targets; `check`
//! compares a repair with the judge's plain one, and looks whether it leaves a sound segment; `count`
//! repairs the first of two copies, or both, so that what two take less what one takes is a repair.

use driver::making::{page, Start};
use hekatosuy::{SlottedPageSegment, Touched};
use judge::random::Random;
use std::hint::black_box;
use std::process::ExitCode;
use workload::PAGE_SIZE;

struct Lent {
    segment: Vec<u8>,
    inventory: Vec<u8>,
    slots: usize,
    forwarded: usize,
}

fn shuffled(random: &mut Random, n: usize) -> Vec<usize> {
    let mut order: Vec<usize> = (0..n).collect();
    (1..n).rev().for_each(|k| order.swap(k, random.below(k as u64 + 1) as usize));
    order
}

/// Pages full of rows of one length, which lie in the order of their slots or in none.
fn full(pages: usize, length: usize, in_order: bool) -> Lent {
    let mut random = Random::new(1);
    let lengths = vec![length; (PAGE_SIZE - 12) / (length + 8)];
    let pages: Vec<Vec<u8>> = (0..pages)
        .map(|_| page(&lengths, &if in_order { (0..lengths.len()).collect() } else { shuffled(&mut random, lengths.len()) }))
        .collect();
    let start = Start::by_hand(&pages, Vec::new());
    Lent { slots: pages.len() * lengths.len(), forwarded: 0, segment: start.segment, inventory: start.inventory }
}

/// Rows of 64 in no order on pairs of pages: on the first of two every tenth slot is a redirect to the second, where its record lies.
fn forwarded(pages: usize) -> Lent {
    let mut random = Random::new(2);
    let (first, second) = (227, 222);
    let lengths = |n: usize, of_tenth: usize| -> Vec<usize> { (0..n).map(|k| if k % 10 == 0 && k / 10 < 23 { of_tenth } else { 64 }).collect() };
    let mut made = Vec::new();
    for pair in 0..pages / 2 {
        let mut roots = page(&lengths(first, 0), &shuffled(&mut random, first));
        let mut targets = page(&lengths(second, 72), &shuffled(&mut random, second));
        for k in (0..first).step_by(10) {
            let (root, target) = ((2 * pair * 65536 + k) as u64, ((2 * pair + 1) * 65536 + k) as u64);
            roots[12 + 8 * k..20 + 8 * k].copy_from_slice(&(target | 1 << 63).to_be_bytes());
            let offset = u32::from_be_bytes(targets[12 + 8 * k..16 + 8 * k].try_into().expect("four bytes")) as usize;
            targets[12 + 8 * k] |= 0xC0;
            targets[offset..offset + 8].copy_from_slice(&root.to_be_bytes());
        }
        made.extend([roots, targets]);
    }
    let start = Start::by_hand(&made, Vec::new());
    Lent { slots: pages / 2 * (first + second), forwarded: pages * 23, segment: start.segment, inventory: start.inventory }
}

/// Rows of 64, in no order, one of which on every sixteenth page reaches into another.
fn light(pages: usize) -> Lent {
    let mut lent = full(pages, 64, false);
    for page in lent.segment.chunks_mut(PAGE_SIZE).step_by(16) {
        let offset = u32::from_be_bytes(page[12..16].try_into().expect("four bytes"));
        page[52..56].copy_from_slice(&(offset.saturating_sub(32).max(2000)).to_be_bytes());
    }
    lent
}

/// Every page damaged: its count, its header, a hundred bytes of its directory, or all of it.
fn wrecked(pages: usize) -> Lent {
    let mut random = Random::new(3);
    let mut lent = forwarded(pages);
    for (number, page) in lent.segment.chunks_mut(PAGE_SIZE).enumerate() {
        match number % 4 {
            0 => page[4..12].iter_mut().for_each(|byte| *byte = random.next() as u8),
            1 | 2 => (0..100).for_each(|_| page[12 + random.below(1816) as usize] = random.next() as u8),
            _ if number % 8 == 3 => page[..2].copy_from_slice(&[0xFF; 2]),
            _ => page[12..].iter_mut().for_each(|byte| *byte = random.next() as u8),
        }
    }
    lent
}

fn made(name: &str, pages: usize) -> Option<Lent> {
    Some(match name {
        "order-64" => full(pages, 64, true),
        "shuffled-64" => full(pages, 64, false),
        "forwarded-64" => forwarded(pages),
        "order-1000" => full(pages, 1000, true),
        "shuffled-1000" => full(pages, 1000, false),
        "light" => light(pages),
        "wrecked" => wrecked(pages),
        _ => return None,
    })
}

fn list_for(pages: usize) -> Vec<Touched> {
    vec![Touched::default(); 2047 * pages + 1]
}

fn check(lent: &Lent) -> bool {
    let (mut segment, mut inventory) = (lent.segment.clone(), lent.inventory.clone());
    let mut list = list_for(segment.len() / PAGE_SIZE);
    let told = SlottedPageSegment::new(&mut segment, &mut inventory).repair(&mut list).map(<[Touched]>::to_vec);
    let words: Vec<[u64; 3]> = told.unwrap_or_default().into_iter().map(Touched::words).collect();
    let plain = model::repair::plan(&lent.segment, &lent.inventory);
    plain.entries == words && plain.segment == segment && plain.inventory == inventory && judge::soundness::is_sound(&segment, &inventory)
}

fn count(lent: &Lent, units: usize) {
    let mut copies = [(lent.segment.clone(), lent.inventory.clone()), (lent.segment.clone(), lent.inventory.clone())];
    let mut list = list_for(lent.segment.len() / PAGE_SIZE);
    for (segment, inventory) in copies.iter_mut().take(units) {
        let told = SlottedPageSegment::new(segment, inventory).repair(&mut list).map(<[Touched]>::len);
        let _ = black_box(told);
    }
    black_box(&copies);
}

fn main() -> ExitCode {
    let words: Vec<String> = std::env::args().skip(1).collect();
    let words: Vec<&str> = words.iter().map(String::as_str).collect();
    let (name, pages, rest) = match words[..] {
        [name, pages, ref rest @ ..] => (name, pages.parse().unwrap_or(0), rest),
        _ => ("", 0, &words[..]),
    };
    let Some(lent) = made(name, pages) else {
        eprintln!("repair SEGMENT PAGES slots|check|count UNITS");
        return ExitCode::FAILURE;
    };
    match rest {
        ["slots"] => println!("{} {}", lent.slots, lent.forwarded),
        ["check"] if !check(&lent) => {
            eprintln!("repair {name} {pages}: not as the judge's");
            return ExitCode::FAILURE;
        }
        ["count", units] => count(&lent, units.parse().unwrap_or(0)),
        _ => {}
    }
    ExitCode::SUCCESS
}
