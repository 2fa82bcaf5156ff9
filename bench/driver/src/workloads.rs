//! The workloads, by name.

use crate::making::{erase, insert, page, plan, read, resize, scan, segment, write, Session, Start};
use judge::random::Random;
use workload::{Call, Plan, PAGE_SIZE};

/// The usual segment.
const PAGES: usize = 64;
const WIDEST: usize = 32527;
/// The usual number of calls of a unit.
const CALLS: usize = 2000;

fn two(mut unit: impl FnMut() -> Vec<Call>) -> [Vec<Call>; 2] {
    [unit(), unit()]
}

fn full_of(length: u64) -> Start {
    Start::filled(PAGES, |_| Some(length))
}

/// Rows of these lengths in turn into an empty segment, until one finds no room.
fn inserts(lengths: &[u64]) -> Plan {
    let length = |row: usize| lengths[row % lengths.len()];
    let rows = Start::filled(PAGES, |rows| Some(length(rows.len()))).rows.len();
    let unit = |number| [segment(number)].into_iter().chain((0..rows).map(|row| insert(length(row), row as u64))).collect();
    plan(&Start::empty(PAGES), 2, [unit(0), unit(1)], rows as u64)
}

fn reads(start: &Start) -> Plan {
    let mut random = Random::new(1);
    plan(start, 1, two(|| (0..CALLS).map(|_| read(random.pick(&start.rows))).collect()), CALLS as u64)
}

fn scans(start: &Start) -> Plan {
    plan(start, 1, two(|| vec![scan()]), start.rows.len() as u64)
}

/// Fresh pages, every other of them with the initialised header.
fn scan_of_fresh_pages() -> Plan {
    let headers = [vec![0; PAGE_SIZE], page(&[], &[])];
    let pages: Vec<Vec<u8>> = (0..PAGES).map(|number| headers[number % 2].clone()).collect();
    plan(&Start::by_hand(&pages, Vec::new()), 1, two(|| vec![scan()]), PAGES as u64)
}

/// Writes of the length that a record has already.
fn overwrites(start: &Start, length: u64) -> Plan {
    let mut random = Random::new(2);
    let mut overwrite = || write(random.pick(&start.rows), length, random.next());
    plan(start, 1, two(|| (0..CALLS).map(|_| overwrite()).collect()), CALLS as u64)
}

/// Rows of 0 to 2,000 bytes that take less than half of the segment, written and resized in turn.
fn mix() -> Plan {
    let mut random = Random::new(3);
    let start = Start::filled(PAGES, |rows| (rows.len() < 400).then(|| random.below(2001)));
    let mut change = |turn: usize| {
        let (id, length) = (random.pick(&start.rows), random.below(2001));
        if turn % 2 == 0 { write(id, length, random.next()) } else { resize(id, length) }
    };
    plan(&start, 1, two(|| (0..CALLS).map(&mut change).collect()), CALLS as u64)
}

/// A row is erased and another inserted, each time.
fn churn(start: Start, mut length: impl FnMut(&mut Random) -> u64) -> Plan {
    let mut random = Random::new(4);
    let mut rows = start.rows.clone();
    let mut session = Session::new(Start { segment: start.segment.clone(), inventory: start.inventory.clone(), rows: Vec::new() });
    let units = two(|| {
        for _ in 0..CALLS / 2 {
            let row = random.below(rows.len() as u64) as usize;
            session.call(erase(rows[row]));
            rows[row] = session.call(insert(length(&mut random), random.next()));
        }
        std::mem::take(&mut session.calls)
    });
    plan(&start, 1, units, CALLS as u64)
}

/// All rows of a full segment of 64-byte rows.
fn churn_small() -> Plan {
    churn(full_of(64), |_| 64)
}

/// Rows of 500 to 1,500 bytes in a segment of which nine pages in ten are in use.
fn churn_varied() -> Plan {
    let varied = |random: &mut Random| 500 + random.below(1001);
    let mut random = Random::new(5);
    let start = Start::filled(PAGES, |rows| (rows.last().map_or(0, |id| id >> 16) < 57).then(|| varied(&mut random)));
    churn(start, varied)
}

/// A hundred rows of 64 bytes on one page, which is never full.
fn churn_on_one_page() -> Plan {
    churn(Start::filled(PAGES, |rows| (rows.len() < 100).then_some(64)), |_| 64)
}

/// Full pages; fifty rows at a time grow, so that they are forwarded, and then shrink, so that they
/// move home.
fn forward_and_home() -> Plan {
    const BATCH: usize = 50;
    let start = Start::filled(PAGES, |rows| (rows.len() < 32 * 16).then_some(1000));
    let mut random = Random::new(6);
    let units = two(|| {
        let mut calls = Vec::new();
        for batch in 0..CALLS / 2 / BATCH {
            let some = || start.rows.iter().skip(batch % 7).step_by(start.rows.len() / BATCH).take(BATCH);
            calls.extend(some().map(|&id| write(id, 3000, random.next())));
            calls.extend(some().map(|&id| write(id, 1000, random.next())));
        }
        calls
    });
    let calls = units[0].len() as u64;
    plan(&start, 1, units, calls)
}

/// One row of each page is forwarded, for the first time; no page is in class 15.
fn forward_once() -> Plan {
    const ROWS: usize = 15;
    const FULL: usize = 40;
    const SEGMENTS: usize = 10;
    let start = Start::filled(PAGES, |rows| (rows.len() < FULL * ROWS).then_some(1030));
    let unit = |row: usize| {
        let forward = |number| {
            let rows = start.rows.iter().skip(row).step_by(ROWS);
            [segment(number as u64)].into_iter().chain(rows.map(|&id| write(id, 3000, id))).collect::<Vec<_>>()
        };
        (0..SEGMENTS).flat_map(forward).collect()
    };
    plan(&start, SEGMENTS, [unit(3), unit(8)], (FULL * SEGMENTS) as u64)
}

/// One record on the first page, all other pages full: whenever the first page fills, the entries
/// that named it find no other.
fn lonely(pages: usize) -> Start {
    let other = page(&[16000], &[0]);
    Start::by_hand(&[vec![page(&[0], &[0])], vec![other; pages - 1]].concat(), vec![0])
}

const PAIRS: usize = 20;

/// Thirteen entries are moved to the end and back.
fn search_by_resize(pages: usize) -> Plan {
    let unit = || (0..PAIRS).flat_map(|_| [resize(0, 16300), resize(0, 0)]).collect();
    plan(&lonely(pages), 1, two(unit), 2 * PAIRS as u64)
}

/// Six entries are moved to the end and back.
fn search_by_insert(pages: usize) -> Plan {
    let unit = || (0..PAIRS).flat_map(|_| [erase(0), insert(12270, 1)]).collect();
    plan(&lonely(pages), 1, two(unit), 2 * PAIRS as u64)
}

/// The slots of a page, in an order of this name.
fn ordered(count: usize, name: &str) -> Option<Vec<usize>> {
    let mut order: Vec<usize> = (0..count).collect();
    let mut random = Random::new(7);
    match name {
        "order" => (),
        "reversed" => order.reverse(),
        "shuffled" => (1..count).for_each(|k| order.swap(k, random.below(k as u64 + 1) as usize)),
        _ => return None,
    }
    Some(order)
}

/// A page alone, of so many records of one byte, each of which lies under the one before it in this order.
fn slots(order: Vec<usize>) -> Start {
    let count = order.len();
    Start::by_hand(&[page(&vec![1; count], &order)], (0..count as u64).collect())
}

/// The last record of a page is written with so many bytes. The page has records of no bytes, so that it
/// may have 2,046; each has the offset below that of the one before it in this order, and the gap is of
/// one byte: a write of two compactifies the page, a write of one does not.
fn write_last(order: Vec<usize>, length: u64) -> Plan {
    const SEGMENTS: usize = 10;
    let count = order.len();
    let mut page = page(&vec![0; count], &order);
    for (place, &k) in order.iter().enumerate() {
        page[12 + 8 * k..16 + 8 * k].copy_from_slice(&((PAGE_SIZE - place) as u32).to_be_bytes());
    }
    page[4..8].copy_from_slice(&((13 + 8 * count) as u32).to_be_bytes());
    let last = count as u64 - 1;
    let unit = |first: u64| (first..first + SEGMENTS as u64).flat_map(|number| [segment(number), write(last, length, number)]).collect();
    plan(&Start::by_hand(&[page], vec![last]), 2 * SEGMENTS, [unit(0), unit(SEGMENTS as u64)], SEGMENTS as u64)
}

/// So many pages, each of a hundred rows of 64 bytes.
fn wide(pages: usize) -> Start {
    const ROWS: usize = 100;
    let row = |k: usize| (k as u64 % pages as u64) << 16 | (k % ROWS) as u64;
    let order: Vec<usize> = (0..ROWS).collect();
    Start::by_hand(&vec![page(&[64; ROWS], &order); pages], (0..1000).map(|k| row(k * 7919)).collect())
}

/// The rows of the first page alone are erased and inserted again.
fn churn_first_page(pages: usize) -> Plan {
    let start = wide(pages);
    churn(Start { rows: (0..100).collect(), ..start }, |_| 64)
}

fn alone(length: u64) -> Start {
    Start::by_hand(&[page(&[length as usize], &[0])], vec![0])
}

/// The plan of a name, if there is one.
pub fn named(name: &str) -> Option<Plan> {
    let words: Vec<&str> = name.split('-').collect();
    let number: u64 = words.last()?.parse().unwrap_or(0);
    Some(match words[..] {
        ["insert", _] => inserts(&[number]),
        ["insert", first, _] => inserts(&[first.parse().ok()?, number]),
        ["read", _] => reads(&full_of(number)),
        ["scan", "fresh"] => scan_of_fresh_pages(),
        ["scan", _] => scans(&full_of(number)),
        ["overwrite", _] => overwrites(&full_of(number), number),
        ["mix"] => mix(),
        ["churn", "small"] => churn_small(),
        ["churn", "varied"] => churn_varied(),
        ["churn", "page"] => churn_on_one_page(),
        ["forward", "home"] => forward_and_home(),
        ["forward", "once"] => forward_once(),
        ["search", "resize"] => search_by_resize(WIDEST),
        ["search", "insert"] => search_by_insert(WIDEST),
        ["slots", "read", _] => reads(&slots(ordered(number as usize, "order")?)),
        ["slots", "shuffled", _] => reads(&slots(ordered(number as usize, "shuffled")?)),
        ["slots", "scan", _] => scans(&slots(ordered(number as usize, "order")?)),
        ["slots", "churn", _] => churn(slots(ordered(number as usize, "order")?), |_| 1),
        ["gap", order, _] => write_last(ordered(number as usize, order)?, 1),
        ["compactify", order, _] => write_last(ordered(number as usize, order)?, 2),
        ["pages", "read", _] => reads(&wide(number as usize)),
        ["pages", "churn", _] => churn_first_page(number as usize),
        ["pages", "search", _] => search_by_resize(number as usize),
        ["length", "read", _] => reads(&alone(number)),
        ["length", "overwrite", _] => overwrites(&alone(number), number),
        ["length", "churn", _] => churn(alone(number), |_| number),
        _ => return None,
    })
}
