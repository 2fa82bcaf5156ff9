//! Generated segments asked by the archive and by the model, whose rule is written from the request, whether a mirror is cleared and which
//! of its readings are whole: equal answers and words, and no byte changed. And what the request asks of each answer, by the archive's own.

use compare::{cleared, over, seeds, whole_readings, Archive};
use hekatosuy::{Refusal, SlottedPages};
use judge::clearings::{check_case, check_examples, check_sizes, ClearingCounts, PlainRule, Polishing};
use judge::mirrors::{case, Asked, Case};
use judge::random::Random;
use store::PAGE_SIZE;

/// How many segments are asked, unless HEKATOSUY_CLEARINGS says another number.
const USUAL_SEGMENTS: u64 = 500;

/// Through the crate, whose mirrors are of 32 bits.
fn compare_crate(seed: u64, segment: &[u8], asked: Asked, wanted: (u64, u64), answer: u64, words: &[u64]) {
    let Ok(mirror) = u32::try_from(asked.mirror) else { return };
    let pages = SlottedPages::new(segment);
    let told = pages.cleared(mirror, asked.rows, asked.edition).map_or_else(|refusal| (refusal.number(), 0), |yes| (0, yes as u64));
    assert_eq!(told, wanted, "seed {seed}, {asked:?}: through the crate");
    let of_word = |(k, word): (u16, &u64)| (0..64).filter(|bit| word >> bit & 1 == 1).map(|bit| 64 * k + bit).collect::<Vec<_>>();
    let whole: Vec<u16> = (0..).zip(words).flat_map(of_word).collect();
    let listed = Refusal::from_number(answer).map_or(Ok(whole), Err);
    assert_eq!(pages.whole_readings(mirror, asked.rows), listed, "seed {seed}, {asked:?}: through the crate");
}

/// One of the two questions that are in order, and one of the others.
fn compare_answers(seed: u64, case: &Case) {
    let (segment, mut random) = (case.segment.clone(), Random::new(seed));
    for asked in [random.pick(&case.asked[..2]), random.pick(&case.asked[2..])] {
        let (told, wanted) = (cleared(&segment, asked), PlainRule.cleared(&segment, asked));
        assert_eq!(told, wanted, "seed {seed}, {asked:?}: ours and the model's answer");
        let before: Vec<u64> = (0..random.pick(&[0, 1023, 1024, 1024, 1024, 1030])).map(|_| random.next()).collect();
        let (mut ours, mut plain) = (before.clone(), before);
        let (told, answer) = (whole_readings(&segment, asked, &mut ours), PlainRule.whole_readings(&segment, asked, &mut plain));
        assert_eq!(told, answer, "seed {seed}, {asked:?}: ours and the model's answer to a list");
        assert!(ours == plain, "seed {seed}, {asked:?}: other words");
        if ours.len() == 1024 {
            compare_crate(seed, &segment, asked, wanted, answer, if answer == 0 { &ours } else { &[] });
        }
    }
    assert!(segment == case.segment, "seed {seed}: a byte is changed");
}

fn run_one(seed: u64, counts: &mut ClearingCounts) {
    let case = case(seed);
    compare_answers(seed, &case);
    let checked = check_case(&Archive, &case, seed).unwrap_or_else(|what| panic!("{what}"));
    counts.count(&case, &checked);
}

#[test]
fn worked_examples() {
    assert_eq!(check_examples(&Archive), Ok(19));
}

/// Answer 1 comes first; the most pages are 32,527.
#[test]
fn sizes() {
    assert_eq!(check_sizes(&Archive), Ok(()));
    let widest = 32527 * PAGE_SIZE;
    let (asked, mut segment) = (Asked { mirror: 7, rows: 1, edition: 1 }, vec![0; widest + PAGE_SIZE]);
    assert_eq!(cleared(&segment, asked), (1, 0));
    assert_eq!(cleared(&segment[..widest + 1], asked), (1, 0));
    assert_eq!(cleared(&segment[..widest], asked), (0, 0));
    segment[widest - PAGE_SIZE + 1] = 1;
    assert_eq!(cleared(&segment[..widest], asked), (4, 0));
    assert_eq!(whole_readings(&segment[..widest], asked, &mut []), 4);
}

#[test]
fn generated_segments() {
    let seeds = seeds("HEKATOSUY_CLEARINGS", 12_000_000, USUAL_SEGMENTS);
    let counts = over(&seeds, run_one, ClearingCounts::add);
    println!("counted: {}; 0 differences from the model", counts.told());
    assert_eq!(counts.cases, seeds.end - seeds.start);
    assert!(counts.holes().is_empty() || counts.cases < 3000, "never met: {:?}", counts.holes());
}
