//! What a user would pick instead: the same rows inserted, read by id and scanned. The id of a row is
//! its number, from 1 on, in the order in which the rows are inserted.

use std::collections::HashMap;
use std::path::Path;
use std::process::ExitCode;
use std::time::Instant;
use workload::{play, pool, summary, Op, Plan, Subject, PAGE_SIZE};

/// Only inserts, reads and scans are asked for. A scan answers the number of rows.
pub trait Other {
    fn new() -> Self;
    fn insert(&mut self, row: &[u8]) -> u64;
    fn read(&mut self, id: u64) -> u64;
    fn scan(&mut self) -> u64;
    /// Commits what was inserted.
    fn commit(&mut self);
}

struct Asked<O>(O);

impl<O: Other> Subject for Asked<O> {
    fn insert_record(&mut self, record: &[u8]) -> u64 {
        self.0.insert(record)
    }

    fn get_record(&mut self, id: u64) -> u64 {
        self.0.read(id)
    }

    fn scan(&mut self) -> u64 {
        self.0.scan()
    }

    fn write_record(&mut self, _id: u64, _record: &[u8]) -> u64 {
        unimplemented!("rows are not written")
    }

    fn resize_record(&mut self, _id: u64, _size: u64) -> u64 {
        unimplemented!("rows are not resized")
    }

    fn erase_record(&mut self, _id: u64) -> u64 {
        unimplemented!("rows are not erased")
    }
}

/// A row of a plan's segment, where it is an ordinary record.
fn row(segment: &[u8], id: u64) -> &[u8] {
    let page = &segment[(id >> 16) as usize * PAGE_SIZE..][..PAGE_SIZE];
    let slot = &page[12 + 8 * (id as u16 as usize)..][..8];
    let number = |bytes: &[u8]| bytes.iter().fold(0, |sum, &byte| sum << 8 | byte as usize);
    &page[number(&slot[..4])..][..number(&slot[4..])]
}

/// The plan with the numbers of rows in the place of their ids.
fn numbered(mut plan: Plan) -> Plan {
    let numbers: HashMap<u64, u64> = plan.rows.iter().copied().zip(1..).collect();
    for call in plan.units.iter_mut().flatten().filter(|call| call.op == Op::Read) {
        call.id = numbers[&call.id];
    }
    plan
}

fn set_up<O: Other>(plan: &Plan) -> Vec<Asked<O>> {
    let segment = plan.segment();
    let filled = |_| {
        let mut store = O::new();
        plan.rows.iter().for_each(|&id| assert_ne!(store.insert(row(&segment, id)), 0));
        store.commit();
        Asked(store)
    };
    (0..plan.segments).map(filled).collect()
}

fn unit<O: Other>(stores: &mut [Asked<O>], plan: &Plan, number: usize, pool: &[u8]) -> u64 {
    let answers = play(stores, &plan.units[number], pool);
    stores.iter_mut().for_each(|store| store.0.commit());
    answers
}

/// Reads must answer as the plan says; scans, and scans after inserts, must find every row.
fn check<O: Other>(plan: &Plan) -> Result<(), String> {
    let (mut stores, pool) = (set_up::<O>(plan), pool());
    for (number, left) in plan.left.iter().enumerate() {
        let answers = unit(&mut stores, plan, number, &pool);
        if plan.units[number].iter().all(|call| call.op == Op::Read) && answers != left.answers {
            return Err("a read gave another row".to_string());
        }
    }
    let inserted = plan.units[0].iter().filter(|call| call.op == Op::Insert).count();
    let rows = (plan.rows.len() + inserted) as u64;
    if stores[0].0.scan() == rows { Ok(()) } else { Err("a scan found another number of rows".to_string()) }
}

fn run<O: Other>(words: &[&str]) -> Result<(), String> {
    let load = |path: &str| Plan::load(Path::new(path)).map(numbered).map_err(|why| format!("{path}: {why}"));
    match *words {
        ["check", path] => check::<O>(&load(path)?),
        ["count", path, units] => {
            let (plan, pool) = (load(path)?, pool());
            let mut stores = set_up::<O>(&plan);
            for number in 0..units.parse().unwrap_or(0) {
                std::hint::black_box(unit(&mut stores, &plan, number, &pool));
            }
            Ok(())
        }
        ["time", path] => {
            let (plan, pool) = (load(path)?, pool());
            let mut stores = set_up::<O>(&plan);
            std::hint::black_box(unit(&mut stores, &plan, 0, &pool));
            let start = Instant::now();
            std::hint::black_box(unit(&mut stores, &plan, 1, &pool));
            println!("{}", start.elapsed().as_nanos() / u128::from(plan.steps));
            Ok(())
        }
        _ => Err("check PLAN | count PLAN UNITS | time PLAN".to_string()),
    }
}

/// The program of a store.
pub fn main<O: Other>() -> ExitCode {
    let words: Vec<String> = std::env::args().skip(1).collect();
    let words: Vec<&str> = words.iter().map(String::as_str).collect();
    run::<O>(&words).map_or_else(|why| { eprintln!("{}: {why}", words.join(" ")); ExitCode::FAILURE }, |()| ExitCode::SUCCESS)
}

/// What a read answers of a row that a C library points to.
///
/// # Safety
/// `data` points to `size` bytes, or `size` is 0.
pub unsafe fn summary_at(data: *const u8, size: usize) -> u64 {
    if size == 0 { summary(&[]) } else { summary(std::slice::from_raw_parts(data, size)) }
}
