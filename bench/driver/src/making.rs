//! How plans are made: the bytes at the start, and the calls.

use crate::stores::{sum_of_bytes, Held, Modelled};
use judge::populate::true_inventory;
use judge::soundness::is_sound;
use store::Store;
use workload::{parts, play, pool, refused, Call, Left, Op, Plan, PAGE_SIZE};

const SEGMENT: Call = Call { op: Op::Segment, id: 0, length: 0, seed: 0 };

pub fn segment(number: u64) -> Call {
    Call { id: number, ..SEGMENT }
}

pub fn insert(length: u64, seed: u64) -> Call {
    Call { op: Op::Insert, length, seed, ..SEGMENT }
}

pub fn read(id: u64) -> Call {
    Call { op: Op::Read, id, ..SEGMENT }
}

pub fn write(id: u64, length: u64, seed: u64) -> Call {
    Call { op: Op::Write, id, length, seed }
}

pub fn resize(id: u64, length: u64) -> Call {
    Call { op: Op::Resize, id, length, ..SEGMENT }
}

pub fn erase(id: u64) -> Call {
    Call { op: Op::Erase, id, ..SEGMENT }
}

pub fn scan() -> Call {
    Call { op: Op::Scan, ..SEGMENT }
}

/// A sound segment with its inventory, and the rows in it.
pub struct Start {
    pub segment: Vec<u8>,
    pub inventory: Vec<u8>,
    pub rows: Vec<u64>,
}

/// A page of records of these lengths, which lie from the page's end down in this order of slots.
pub fn page(lengths: &[usize], order: &[usize]) -> Vec<u8> {
    let mut page = vec![0; PAGE_SIZE];
    let mut data_start = PAGE_SIZE;
    for &k in order {
        data_start -= lengths[k];
        page[12 + 8 * k..16 + 8 * k].copy_from_slice(&(data_start as u32).to_be_bytes());
        page[16 + 8 * k..20 + 8 * k].copy_from_slice(&(lengths[k] as u32).to_be_bytes());
    }
    let (count, free) = (lengths.len(), 16372 - 8 * lengths.len() - lengths.iter().sum::<usize>());
    page[..2].copy_from_slice(&(count as u16).to_be_bytes());
    page[2..4].copy_from_slice(&(count as u16).to_be_bytes());
    page[4..8].copy_from_slice(&(data_start as u32).to_be_bytes());
    page[8..12].copy_from_slice(&(free as u32).to_be_bytes());
    page
}

impl Start {
    pub fn empty(pages: usize) -> Start {
        Start { segment: vec![0; pages * PAGE_SIZE], inventory: vec![0; PAGE_SIZE], rows: Vec::new() }
    }

    /// Rows of the lengths that `next` gives, until it gives none or a row finds no room.
    pub fn filled(pages: usize, mut next: impl FnMut(&[u64]) -> Option<u64>) -> Start {
        let mut session = Session::new(Start::empty(pages));
        let mut rows = Vec::new();
        while let Some(length) = next(&rows) {
            match session.call(insert(length, rows.len() as u64)) {
                full if full == refused(7) => break,
                id => rows.push(id),
            }
        }
        session.start(rows)
    }

    /// Pages made by hand, of which the first has these rows.
    pub fn by_hand(pages: &[Vec<u8>], rows: Vec<u64>) -> Start {
        let mut start = Start { segment: pages.concat(), inventory: vec![0; PAGE_SIZE], rows };
        for poke in true_inventory(&start.segment) {
            poke.apply(&mut start.segment, &mut start.inventory);
        }
        start
    }
}

/// Calls chosen by what those before them answered.
pub struct Session {
    stores: [Modelled; 1],
    pool: Vec<u8>,
    pub calls: Vec<Call>,
}

impl Session {
    pub fn new(start: Start) -> Session {
        Session { stores: [Modelled::new(&start.segment, &start.inventory)], pool: pool(), calls: Vec::new() }
    }

    pub fn call(&mut self, call: Call) -> u64 {
        self.calls.push(call);
        play(&mut self.stores, &[call], &self.pool)
    }

    fn start(self, rows: Vec<u64>) -> Start {
        let model = &self.stores[0].model;
        Start { segment: model.segment().to_vec(), inventory: model.inventory().to_vec(), rows }
    }
}

/// The plan of a start, of so many equal segments, and two units of so many steps each.
pub fn plan(start: &Start, segments: usize, units: [Vec<Call>; 2], steps: u64) -> Plan {
    assert!(is_sound(&start.segment, &start.inventory), "a plan starts with a sound segment");
    assert_eq!(units[0].len(), units[1].len(), "units have equally many calls");
    let pool = pool();
    let mut stores: Vec<Modelled> = (0..segments).map(|_| Modelled::new(&start.segment, &start.inventory)).collect();
    let left = units.each_ref().map(|unit| {
        let answers = play(&mut stores, unit, &pool);
        Left { answers, bytes: sum_of_bytes(&stores) }
    });
    assert!(stores.iter().all(|store| store.refusals == 0), "no call of a plan is refused");
    Plan {
        pages: start.segment.len() / PAGE_SIZE,
        segments,
        parts: parts(&start.segment),
        inventory: start.inventory.clone(),
        rows: start.rows.clone(),
        units,
        steps,
        faults: stores.iter().fold(0, |faults, store| faults | u64::from(store.faults)),
        left,
    }
}
