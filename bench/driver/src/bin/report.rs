//! `report check PLAN` and `report count report|scan PLAN UNITS`: fill reports by the archive over the
//! segment of a plan, beside whole scans of it, by the archive's own step and not through the crate's
//! iterator. `check` fails unless a report has the judge's figures, and a scan the records and bytes that
//! these tell; `count` makes one or two reports or scans, so that what two take less what one takes is a
//! report or a scan.

use driver::stores::scan;
use hekatosuy::{Refusal, SlottedPages, Tally};
use std::hint::black_box;
use std::path::Path;
use std::process::ExitCode;
use workload::Plan;

const USAGE: &str = "report check PLAN | report count report|scan PLAN UNITS";

#[inline(never)]
fn report(segment: &[u8]) -> Result<Tally, Refusal> {
    let mut tally = Tally::default();
    SlottedPages::new(segment).fill_report(&mut tally).map(|()| tally)
}

fn check(segment: &[u8]) -> Result<(), String> {
    let mut plain = [0; model::report::FIGURES];
    let answer = model::report::fill_report(segment, &mut plain);
    let tally = report(segment).map_err(|refusal| refusal.to_string())?;
    let seven = [tally.pages, tally.fresh_pages, tally.slots, tally.records, tally.record_bytes, tally.forwarded, tally.free_bytes];
    if answer != 0 || plain[..] != [&seven[..], &tally.classes].concat() {
        return Err(format!("{tally:?}, and the judge's {plain:?}"));
    }
    if scan(segment) != Some((tally.records, tally.record_bytes)) {
        return Err(format!("{tally:?}, and by a scan {:?}", scan(segment)));
    }
    Ok(())
}

fn count(what: &str, segment: &[u8], units: usize) -> Result<(), String> {
    for _ in 0..units {
        match what {
            "report" => _ = black_box(report(black_box(segment))),
            "scan" => _ = black_box(scan(black_box(segment))),
            _ => return Err(USAGE.to_string()),
        }
    }
    Ok(())
}

fn run(words: &[&str]) -> Result<(), String> {
    let segment = |path: &str| Plan::load(Path::new(path)).map(|plan| plan.segment()).map_err(|why| format!("{path}: {why}"));
    match *words {
        ["check", path] => check(&segment(path)?),
        ["count", what, path, units @ ("1" | "2")] => count(what, &segment(path)?, if units == "1" { 1 } else { 2 }),
        _ => Err(USAGE.to_string()),
    }
}

fn main() -> ExitCode {
    let words: Vec<String> = std::env::args().skip(1).collect();
    let words: Vec<&str> = words.iter().map(String::as_str).collect();
    run(&words).map_or_else(|why| { eprintln!("report {}: {why}", words.join(" ")); ExitCode::FAILURE }, |()| ExitCode::SUCCESS)
}
