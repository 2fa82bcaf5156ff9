//! `rows check|count STORE one|each PLAN UNITS`: plays one unit or both of a plan of inserts, the rows
//! of a unit in one list, or each row in a list of its own. `check` fails unless every id and all that
//! is left are as after document 01's inserts, one at a time; `count` does without, to be run under a
//! counter of instructions.

use driver::stores::{sum_of_bytes, Lists, Nothing, Ours};
use hekatosuy::Rid;
use std::hint::black_box;
use std::path::Path;
use std::process::ExitCode;
use workload::{pool, record, with_answer, Call, Left, Op, Plan};

const USAGE: &str = "rows check|count STORE one|each PLAN UNITS";

/// The rows of a unit, end to end, the places for their ids, and the segment that they go to.
struct List {
    segment: usize,
    rows: Vec<u8>,
    lengths: Vec<u64>,
    ids: Vec<Rid>,
}

impl List {
    fn new(unit: &[Call], pool: &[u8]) -> Option<List> {
        let (first, inserts) = unit.split_first()?;
        if first.op != Op::Segment || inserts.iter().any(|call| call.op != Op::Insert) {
            return None;
        }
        Some(List {
            segment: first.id as usize,
            rows: inserts.iter().flat_map(|call| record(pool, call)).copied().collect(),
            lengths: inserts.iter().map(|call| call.length).collect(),
            ids: vec![Rid::from(u64::MAX); inserts.len()],
        })
    }

    #[inline(never)]
    fn insert_in_one<S: Lists>(&mut self, store: &mut S) -> bool {
        store.insert_records(&self.rows, &self.lengths, &mut self.ids)
    }

    #[inline(never)]
    fn insert_each<S: Lists>(&mut self, store: &mut S) -> bool {
        let mut rows = &self.rows[..];
        let mut done = true;
        for (length, id) in self.lengths.chunks(1).zip(self.ids.chunks_mut(1)) {
            let (row, rest) = rows.split_at(length[0] as usize);
            done &= store.insert_records(row, length, id);
            rows = rest;
        }
        done
    }
}

/// What is played: the stores, and a list for each unit.
struct Set<S> {
    stores: Vec<S>,
    lists: Vec<List>,
    in_one: bool,
}

impl<S: Lists> Set<S> {
    fn new(plan: &Plan, in_one: bool) -> Option<Set<S>> {
        let (segment, pool) = (plan.segment(), pool());
        let lists = plan.units.iter().map(|unit| List::new(unit, &pool)).collect::<Option<_>>()?;
        Some(Set { stores: (0..plan.segments).map(|_| S::new(&segment, &plan.inventory)).collect(), lists, in_one })
    }

    fn play(&mut self, unit: usize) -> bool {
        let list = &mut self.lists[unit];
        let store = &mut self.stores[list.segment];
        if self.in_one { list.insert_in_one(store) } else { list.insert_each(store) }
    }

    fn check(&mut self, plan: &Plan, units: usize) -> Result<(), String> {
        for (unit, expected) in plan.left.iter().enumerate().take(units) {
            if !self.play(unit) {
                return Err("a row was refused".to_string());
            }
            let answers = self.lists[unit].ids.iter().fold(0, |sum, id| with_answer(sum, id.into()));
            let left = Left { answers, bytes: sum_of_bytes(&self.stores) };
            if left != *expected {
                return Err(format!("ids and bytes are {left:?}, should be {expected:?}"));
            }
        }
        Ok(())
    }

    fn count(&mut self, units: usize) {
        (0..units).for_each(|unit| { black_box(self.play(unit)); });
        black_box(&self.lists);
    }
}

fn run<S: Lists>(what: &str, in_one: bool, plan: &Plan, units: usize) -> Result<(), String> {
    let mut set: Set<S> = Set::new(plan, in_one).ok_or("not a plan of inserts into a segment")?;
    match what {
        "check" => set.check(plan, units),
        "count" => Ok(set.count(units)),
        _ => Err(USAGE.to_string()),
    }
}

fn run_on(words: &[&str]) -> Result<(), String> {
    let &[what, store, way @ ("one" | "each"), path, units @ ("1" | "2")] = words else { return Err(USAGE.to_string()) };
    let plan = Plan::load(Path::new(path)).map_err(|why| format!("{path}: {why}"))?;
    let (in_one, units) = (way == "one", if units == "1" { 1 } else { 2 });
    match store {
        "nothing" => run::<Nothing>(what, in_one, &plan, units),
        "ours" => run::<Ours>(what, in_one, &plan, units),
        _ => Err(format!("no store is called {store}")),
    }
}

fn main() -> ExitCode {
    let words: Vec<String> = std::env::args().skip(1).collect();
    let words: Vec<&str> = words.iter().map(String::as_str).collect();
    run_on(&words).map_or_else(|why| { eprintln!("{}: {why}", words.join(" ")); ExitCode::FAILURE }, |()| ExitCode::SUCCESS)
}
