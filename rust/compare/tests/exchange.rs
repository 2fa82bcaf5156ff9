//! Generated exchange files imported, and generated stores exported, by the archive and by the model, whose calls are written from the
//! request and made on the corrected Rust: equal answers, numbers, segments, inventories and places. And what the request asks of each
//! import, export and round trip, by the archive's own.

use compare::{export, import, over, seeds, Archive};
use hekatosuy::{Refusal, SlottedPageSegment, SlottedPages};
use judge::exchanges::{check_case, check_examples, check_sizes, Exchange, ExchangeCounts, Plain};
use judge::files::{case, Case};
use judge::random::Random;
use store::PAGE_SIZE;

/// How many files are imported, unless HEKATOSUY_EXCHANGES says another number.
const USUAL_FILES: u64 = 1000;

fn compare_import(seed: u64, case: &Case) {
    let copies = || (case.segment.clone(), case.inventory.clone());
    let ((mut ours, mut nibbles), (mut plain, mut wanted_nibbles), (mut through, mut its_nibbles)) = (copies(), copies(), copies());
    let told = import(&mut ours, &mut nibbles, &case.file);
    let wanted = Plain.import(&mut plain, &mut wanted_nibbles, &case.file);
    assert_eq!(told, wanted, "seed {seed}: ours and the model's answer and records told");
    assert!(ours == plain, "seed {seed} leaves another segment");
    assert!(nibbles == wanted_nibbles, "seed {seed} leaves another inventory");
    let by_crate = SlottedPageSegment::new(&mut through, &mut its_nibbles).import(&case.file);
    let numbers = by_crate.map_or_else(|stopped| (stopped.refusal.number(), stopped.rows as u64), |rows| (0, rows));
    assert_eq!(numbers, wanted, "seed {seed}: through the crate");
    assert!((through, its_nibbles) == (plain, wanted_nibbles), "seed {seed}: through the crate, other bytes");
}

fn compare_export(seed: u64, segment: &[u8], room: usize) {
    let before: Vec<u8> = (0..room).map(|k| (13 * k + 5) as u8).collect();
    let (mut ours, mut plain, mut through) = (before.clone(), before.clone(), before);
    let (told, wanted) = (export(segment, &mut ours), Plain.export(segment, &mut plain));
    assert_eq!(told, wanted, "seed {seed}, room {room}: ours and the model's answer and numbers");
    assert!(ours == plain, "seed {seed}, room {room}: another place");
    let pages = SlottedPages::new(segment);
    let numbers = |refusal: Refusal| (refusal.number(), 0, 0);
    let by_crate = pages.export(&mut through).map_or_else(numbers, |told| (0, told.length as u64, told.passed));
    assert_eq!(by_crate, if wanted.0 == 11 { (11, 0, 0) } else { wanted }, "seed {seed}, room {room}: through the crate");
    assert!(through == plain, "seed {seed}, room {room}: through the crate, another place");
    let asked = pages.exported().map_or_else(numbers, |told| (0, told.length as u64, told.passed));
    assert_eq!(asked, (if wanted.0 == 11 { 0 } else { wanted.0 }, wanted.1, wanted.2), "seed {seed}: asked for the length");
}

fn run_one(seed: u64, counts: &mut ExchangeCounts) {
    let case = case(seed);
    compare_import(seed, &case);
    let mut random = Random::new(seed);
    let length = Plain.export(&case.segment, &mut []).1 as usize;
    let any = random.below(case.segment.len() as u64) as usize;
    compare_export(seed, &case.segment, random.pick(&[0, length.saturating_sub(1), any]));
    compare_export(seed, &case.segment, length + random.pick(&[0, 1, 40]));
    let told = check_case(&Archive, &case, seed).unwrap_or_else(|what| panic!("{what}"));
    counts.count(&case, &told);
}

#[test]
fn worked_examples() {
    assert_eq!(check_examples(&Archive), Ok(15));
}

/// Answer 1 comes first, with no record told, and leaves every byte; the most pages are 32,527.
#[test]
fn sizes() {
    assert_eq!(check_sizes(&Archive), Ok(()));
    let widest = 32527 * PAGE_SIZE;
    let file = [0x52, 0x54, 0, 0, 0, 7, 0, 1, 0, 3, 0, 0];
    let (mut segment, mut inventory, mut place) = (vec![0; widest + PAGE_SIZE], vec![0; PAGE_SIZE], [0; 12]);
    assert_eq!(import(&mut segment, &mut inventory, &file), (1, 0));
    assert_eq!(import(&mut segment[..widest + 1], &mut inventory, &file), (1, 0));
    assert_eq!(import(&mut segment[..widest], &mut inventory, &file), (0, 1));
    assert_eq!(export(&segment, &mut place), (1, 0, 0));
    assert_eq!(export(&segment[..widest], &mut place[..11]), (11, 12, 0));
    assert_eq!(export(&segment[..widest], &mut place), (0, 12, 0));
    assert_eq!(place, file);
}

#[test]
fn generated_files() {
    let seeds = seeds("HEKATOSUY_EXCHANGES", 11_000_000, USUAL_FILES);
    let counts = over(&seeds, run_one, ExchangeCounts::add);
    println!("counted: {}; 0 differences from the model", counts.told());
    assert_eq!(counts.cases, seeds.end - seeds.start);
    assert!(counts.holes().is_empty() || counts.cases < 3000, "never met: {:?}", counts.holes());
}
