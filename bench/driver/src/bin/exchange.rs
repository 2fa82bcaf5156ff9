//! `exchange check PLAN` and `exchange count import|rows|export|copy PLAN UNITS`: imports and exports by the
//! archive. Of a plan of inserts the rows of a unit go into its empty segment, as an exchange file, or
//! as many rows in one call; of any other plan the segment at the start is exported, or a file of that
//! length is copied once. `check` fails unless an import leaves what document 01's inserts leave, one at a
//! time, and an export is the judge's file; `count` makes one or two of these calls, so that what two take
//! less what one takes is one.

use driver::stores::{sum_of_bytes, Held, Lists, Ours};
use hekatosuy::{Rid, SlottedPages};
use std::hint::black_box;
use std::path::Path;
use std::process::ExitCode;
use workload::{pool, record, Call, Op, Plan};

const USAGE: &str = "exchange check PLAN | exchange count import|rows|export|copy PLAN UNITS";

/// The rows of a unit, as an exchange file and as many rows in one call; and the segment that they go to.
struct Rows {
    segment: usize,
    file: Vec<u8>,
    rows: Vec<u8>,
    lengths: Vec<u64>,
    ids: Vec<Rid>,
}

impl Rows {
    fn new(unit: &[Call], pool: &[u8]) -> Option<Rows> {
        let (first, inserts) = unit.split_first()?;
        if first.op != Op::Segment || inserts.iter().any(|call| call.op != Op::Insert || call.length < 8) {
            return None;
        }
        let rows: Vec<&[u8]> = inserts.iter().map(|call| record(pool, call)).collect();
        Some(Rows {
            segment: first.id as usize,
            file: model::exchange::file_of(&rows),
            rows: rows.concat(),
            lengths: inserts.iter().map(|call| call.length).collect(),
            ids: vec![Rid::from(u64::MAX); inserts.len()],
        })
    }

    #[inline(never)]
    fn import(&self, store: &mut Ours) -> bool {
        store.import(&self.file)
    }

    #[inline(never)]
    fn insert(&mut self, store: &mut Ours) -> bool {
        store.insert_records(&self.rows, &self.lengths, &mut self.ids)
    }
}

/// The stores of a plan of inserts, and the rows of each unit.
fn inserts(plan: &Plan) -> Option<(Vec<Ours>, Vec<Rows>)> {
    let (segment, pool) = (plan.segment(), pool());
    let rows = plan.units.iter().map(|unit| Rows::new(unit, &pool)).collect::<Option<_>>()?;
    Some(((0..plan.segments).map(|_| Ours::new(&segment, &plan.inventory)).collect(), rows))
}

#[inline(never)]
fn export(segment: &[u8], place: &mut [u8]) -> Option<usize> {
    SlottedPages::new(segment).export(place).ok().map(|told| told.length)
}

#[inline(never)]
fn copy(file: &[u8], place: &mut [u8]) {
    place.copy_from_slice(file);
}

fn check_imports(plan: &Plan, mut stores: Vec<Ours>, rows: &[Rows]) -> Result<(), String> {
    for (rows, expected) in rows.iter().zip(plan.left) {
        if !rows.import(&mut stores[rows.segment]) {
            return Err("a record was refused".to_string());
        }
        let bytes = sum_of_bytes(&stores);
        if bytes != expected.bytes {
            return Err(format!("bytes sum to {bytes}, should be {}", expected.bytes));
        }
    }
    Ok(())
}

fn check_export(segment: &[u8]) -> Result<(), String> {
    let (mut place, mut plain) = (vec![1; segment.len()], vec![1; segment.len()]);
    let told = model::exchange::export(&mut model::Model::new(segment, &[0; workload::PAGE_SIZE]), &mut plain);
    match export(segment, &mut place) {
        Some(length) if told == (0, length as u64, 0) && place == plain => Ok(()),
        other => Err(format!("an export tells {other:?}, the judge's {told:?}, or the files differ")),
    }
}

fn check(plan: &Plan) -> Result<(), String> {
    match inserts(plan) {
        Some((stores, rows)) => check_imports(plan, stores, &rows),
        None => check_export(&plan.segment()),
    }
}

fn count(what: &str, plan: &Plan, units: usize) -> Result<(), String> {
    if let ("import" | "rows", Some((mut stores, mut rows))) = (what, inserts(plan)) {
        for rows in rows.iter_mut().take(units) {
            let store = &mut stores[rows.segment];
            black_box(if what == "import" { rows.import(store) } else { rows.insert(store) });
        }
        black_box((&stores, &rows));
        return Ok(());
    }
    let segment = plan.segment();
    let length = SlottedPages::new(&segment).exported().map_err(|refusal| refusal.to_string())?.length;
    let (file, mut place) = (vec![2; length], vec![1; length]);
    for _ in 0..units {
        match what {
            "export" => _ = black_box(export(black_box(&segment), &mut place)),
            "copy" => copy(black_box(&file), &mut place),
            _ => return Err(USAGE.to_string()),
        }
        black_box(&place);
    }
    Ok(())
}

fn run(words: &[&str]) -> Result<(), String> {
    let plan = |path: &str| Plan::load(Path::new(path)).map_err(|why| format!("{path}: {why}"));
    match *words {
        ["check", path] => check(&plan(path)?),
        ["count", what, path, units @ ("1" | "2")] => count(what, &plan(path)?, if units == "1" { 1 } else { 2 }),
        _ => Err(USAGE.to_string()),
    }
}

fn main() -> ExitCode {
    let words: Vec<String> = std::env::args().skip(1).collect();
    let words: Vec<&str> = words.iter().map(String::as_str).collect();
    run(&words).map_or_else(|why| { eprintln!("exchange {}: {why}", words.join(" ")); ExitCode::FAILURE }, |()| ExitCode::SUCCESS)
}
