//! Repairs of generated wrecks by the archive and by the model's plain repair, which is written from the request: equal
//! answers, counts, lists and bytes. And what the request asks of each, by the archive's own calls.

use compare::{over, seeds, Ours};
use judge::random::Random;
use judge::repairs::{asked, ids, readable, reads, still_readable, RepairCounts, LEFTOVER};
use judge::soundness::is_sound;
use judge::wreck::{wreck, Wreck};
use model::repair::{plan, repair};
use store::Store;

/// How many wrecks are repaired, unless HEKATOSUY_REPAIRS says another number.
const USUAL_REPAIRS: u64 = 5000;

/// The archive and the model with a list of so many words: the same answer, count, list, segment and inventory.
fn both(seed: u64, wreck: &Wreck, words: usize) -> (Ours, (u64, u64)) {
    let mut ours = Ours::new(&wreck.segment, &wreck.inventory);
    let (mut segment, mut inventory) = (wreck.segment.clone(), wreck.inventory.clone());
    let (mut list, mut wanted) = (vec![LEFTOVER; words], vec![LEFTOVER; words]);
    let (answer, plain) = (ours.repair(&mut list), repair(&mut segment, &mut inventory, &mut wanted));
    assert_eq!(answer, plain, "seed {seed}, {words} words: ours and the model's answer and count");
    assert_eq!(list, wanted, "seed {seed}, {words} words: ours and the model's list");
    assert!(ours.segment() == segment, "seed {seed}, {words} words leaves another segment");
    assert!(ours.inventory() == inventory, "seed {seed}, {words} words leaves another inventory");
    (ours, answer)
}

fn run_one(seed: u64, counts: &mut RepairCounts) {
    let wreck = wreck(seed);
    let plan = plan(&wreck.segment, &wreck.inventory);
    counts.count(&plan);
    let (needed, mut random) = (plan.entries.len(), Random::new(seed));
    // with an empty list: a check
    let (_, checked) = both(seed, &wreck, 0);
    assert_eq!(checked, if needed == 0 { (0, 0) } else { (11, needed as u64) }, "seed {seed}: an empty list");
    // with up to three words too few
    if needed > 0 {
        let few = random.below(3) as usize + 1;
        assert_eq!(both(seed, &wreck, 3 * needed - few).1, (11, needed as u64), "seed {seed}: {few} words too few");
    }
    // with room, exactly or more
    let more = random.pick(&[0, 0, 1, 2, 3, 50]);
    let (mut ours, done) = both(seed, &wreck, 3 * needed + more);
    assert_eq!(done, (0, needed as u64), "seed {seed}: with room");
    assert!(is_sound(ours.segment(), ours.inventory()), "seed {seed}: not sound afterwards");
    assert!(ours.lend().is_sound(), "seed {seed}: not said to be sound afterwards");
    let again = (ours.segment().to_vec(), ours.inventory().to_vec());
    assert_eq!(ours.lend().repair_all().as_deref(), Ok(&[][..]), "seed {seed}: a second repair");
    assert!(again == (ours.segment().to_vec(), ours.inventory().to_vec()), "seed {seed}: a second repair changes a byte");
    // the same through the crate
    let mut through = Ours::new(&wreck.segment, &wreck.inventory);
    let told = through.lend().repair_all().map(|list| list.iter().map(|touched| touched.words()).collect::<Vec<_>>());
    assert_eq!(told.as_deref(), Ok(&plan.entries[..]), "seed {seed}: through the crate");
    assert!(through.bytes() == ours.bytes(), "seed {seed}: through the crate, other bytes");
    // what could be read
    let ids = ids(&wreck.segment);
    let before = reads(&mut Ours::new(&wreck.segment, &wreck.inventory), &ids);
    let after = reads(&mut ours, &before.iter().map(|read| read.0).collect::<Vec<_>>());
    assert_eq!(before, after, "seed {seed}: reads before and after");
    assert_eq!(before, asked(&ids, &readable(&wreck.segment)), "seed {seed}: reads, and what can be read");
    assert!(still_readable(&wreck.segment, ours.segment()), "seed {seed}: what could be read cannot be read as it was");
    counts.reads += before.len() as u64;
}

/// Answer 1 comes with count 0, and leaves the list; no pages and an inventory of zeros are sound.
#[test]
fn sizes() {
    for (segment, inventory, answer) in [(16383, 16384, 1), (16385, 16384, 1), (16384, 16383, 1), (16384, 0, 1), (0, 16385, 1), (0, 16384, 0)] {
        for words in [0, 2, 30] {
            let (mut ours, mut list) = (Ours::new(&vec![1; segment], &vec![0; inventory]), vec![LEFTOVER; words]);
            assert_eq!(ours.repair(&mut list), (answer, 0), "{segment} and {inventory} bytes");
            assert!(list.iter().all(|&word| word == LEFTOVER), "{segment} and {inventory} bytes: the list");
            assert!(ours.bytes() == (&vec![1; segment][..], &vec![0; inventory][..]), "{segment} and {inventory} bytes changed");
        }
    }
}

#[test]
fn generated_wrecks() {
    let seeds = seeds("HEKATOSUY_REPAIRS", 8_000_000, USUAL_REPAIRS);
    let counts = over(&seeds, run_one, RepairCounts::add);
    println!("counted: {}; 0 differences from the model", counts.told());
    assert_eq!(counts.repairs, seeds.end - seeds.start);
    assert!(counts.holes().is_empty() || counts.repairs < 3000, "never met: {:?}", counts.holes());
}
