//! Generated segments reported on by the archive and by the model, whose report is written from the request, with tallies of every kind:
//! equal answers and figures. And what the request asks of each report, by the archive's own.

use compare::{fill_report, over, seeds};
use hekatosuy::{Refusal, SlottedPages, Tally};
use judge::fills::run;
use judge::reports::{check_run, ReportCounts};
use model::report::{self, CLASSES, FIGURES};
use store::PAGE_SIZE;

/// How many tallies are lent, each for one to three segments, unless HEKATOSUY_REPORTS says another number.
const USUAL_TALLIES: u64 = 5000;

fn tally(figures: &report::Tally) -> Tally {
    let [pages, fresh_pages, slots, records, record_bytes, forwarded, free_bytes, ..] = *figures;
    let classes = figures[CLASSES..].try_into().expect("sixteen classes");
    Tally { pages, fresh_pages, slots, records, record_bytes, forwarded, free_bytes, classes }
}

fn run_one(seed: u64, counts: &mut ReportCounts) {
    let run = run(seed);
    let (mut ours, mut plain, mut through) = (run.tally, run.tally, tally(&run.tally));
    for (place, lent) in run.segments.iter().enumerate() {
        let (answer, wanted) = (fill_report(&lent.segment, &mut ours), report::fill_report(&lent.segment, &mut plain));
        assert_eq!(answer, wanted, "seed {seed}, segment {place}: ours and the model's answer");
        assert_eq!(ours, plain, "seed {seed}, segment {place}: ours and the model's tally");
        let told = SlottedPages::new(&lent.segment).fill_report(&mut through);
        assert_eq!(told.map_or_else(Refusal::number, |()| 0), wanted, "seed {seed}, segment {place}: through the crate");
        assert_eq!(through, tally(&plain), "seed {seed}, segment {place}: through the crate, another tally");
    }
    let told = check_run(fill_report, &run, seed).unwrap_or_else(|what| panic!("{what}"));
    assert_eq!(told.last().map(|told| told.after), Some(plain), "seed {seed}: the run again");
    counts.count(&run, &told);
}

/// Answer 1 comes first and leaves the tally; the most pages are 32,527.
#[test]
fn sizes() {
    let widest = 32527 * PAGE_SIZE;
    for (length, answer) in [(1, 1), (16383, 1), (16385, 1), (widest + 1, 1), (widest + PAGE_SIZE, 1), (0, 0), (widest, 9)] {
        let mut tally = [u64::MAX; FIGURES];
        assert_eq!(fill_report(&vec![0; length], &mut tally), answer, "{length} bytes");
        assert_eq!(tally, [u64::MAX; FIGURES], "{length} bytes: the tally");
    }
}

#[test]
fn generated_segments() {
    let seeds = seeds("HEKATOSUY_REPORTS", 10_000_000, USUAL_TALLIES);
    let counts = over(&seeds, run_one, ReportCounts::add);
    println!("counted: {}; 0 differences from the model", counts.told());
    assert_eq!(counts.runs, seeds.end - seeds.start);
    assert!(counts.holes().is_empty() || counts.runs < 3000, "never met: {:?}", counts.holes());
}
