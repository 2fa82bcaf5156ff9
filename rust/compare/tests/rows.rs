//! Generated lists of rows, each inserted in one call by the archive and by the model, whose call is written from the request: equal
//! answers, rows told, ids and bytes. And by the archive's own insert one at a time.

use compare::{insert_records, over, seeds, Ours};
use judge::lists::{list, List};
use judge::repairs::LEFTOVER;
use judge::row_examples::examples;
use judge::rows::RowCounts;
use model::{rows, Model};
use store::{Answer, Store, DONE, PAGE_SIZE};

/// How many lists are inserted, unless HEKATOSUY_ROWS says another number.
const USUAL_LISTS: u64 = 5000;

/// The rows one at a time: the answer and the rows told, the id places, and what is left.
fn one_at_a_time(list: &List) -> ((u64, u64), Vec<u64>, Ours) {
    let (mut ours, mut ids) = (Ours::new(&list.segment, &list.inventory), list.ids());
    for k in 0..list.lengths.len() {
        match ours.insert_record(&list.row(k)) {
            (DONE, id) => ids[k] = id,
            (Answer::Number(number), _) => return ((number, k as u64), ids, ours),
            (ended, _) => unreachable!("an insert ends by {ended}"),
        }
    }
    ((0, list.lengths.len() as u64), ids, ours)
}

fn run_one(seed: u64, counts: &mut RowCounts) {
    let list = list(seed);
    let (mut ours, mut ids) = (Ours::new(&list.segment, &list.inventory), list.ids());
    let (mut model, mut wanted) = (Model::new(&list.segment, &list.inventory), list.ids());
    let answer = ours.insert_records(&list.rows, &list.lengths, &mut ids);
    let plain = rows::insert_records(&mut model, &list.rows, &list.lengths, &mut wanted);
    assert_eq!(answer, plain, "seed {seed}: ours and the model's answer and rows told");
    assert_eq!(ids, wanted, "seed {seed}: ours and the model's id places");
    assert!(ours.segment() == model.segment(), "seed {seed} leaves another segment");
    assert!(ours.inventory() == model.inventory(), "seed {seed} leaves another inventory");
    match list.refused() {
        Some(refused) => {
            assert_eq!((answer, &ids), ((refused, 0), &list.ids()), "seed {seed}: the list or the sizes are wrong");
            assert!(ours.bytes() == (&list.segment, &list.inventory), "seed {seed}: a refused list changes a byte");
        }
        None => {
            let (single, places, left) = one_at_a_time(&list);
            assert_eq!((answer, &ids), (single, &places), "seed {seed}: in one call and one at a time");
            assert!(ours.bytes() == left.bytes(), "seed {seed}: in one call and one at a time, other bytes");
        }
    }
    counts.count(&list, answer, &ids, &model);
}

#[test]
fn worked_examples() {
    for example in examples() {
        let (mut ours, mut ids) = (Ours::new(&example.segment, &example.inventory), example.ids());
        let answer = ours.insert_records(&example.rows, &example.lengths, &mut ids);
        example.check(answer, &ids, ours.segment(), ours.inventory()).unwrap();
    }
}

/// Answer 1 comes first, with no rows told, and leaves every byte and every place; the most pages are 32,527.
#[test]
fn sizes() {
    let widest = 32527 * PAGE_SIZE;
    for (segment, inventory) in [(16383, 16384), (16385, 16384), (16384, 16383), (16384, 16385), (16384, 0), (0, 16385), (widest + PAGE_SIZE, 16384)] {
        for (rows, lengths, places) in [(0, &[][..], 0), (1, &[], 1), (3, &[3], 1), (3, &[3], 0), (3, &[1, 1], 2), (0, &[1 << 63, 1 << 63], 2)] {
            let (mut pages, mut nibbles, mut ids) = (vec![0; segment], vec![0; inventory], vec![LEFTOVER; places]);
            let answer = insert_records(&mut pages, &mut nibbles, &vec![7; rows], lengths, &mut ids);
            assert_eq!(answer, (1, 0), "{segment} and {inventory} bytes");
            assert!(ids.iter().all(|&id| id == LEFTOVER), "{segment} and {inventory} bytes: the places");
            let looked_at = pages.len().min(4 * PAGE_SIZE);
            assert!(pages[..looked_at].iter().chain(&nibbles).all(|&byte| byte == 0), "{segment} and {inventory} bytes changed");
        }
    }
    let mut ids = [LEFTOVER; 3];
    assert_eq!(insert_records(&mut vec![0; widest], &mut [0; PAGE_SIZE], &[7; 3], &[1, 2], &mut ids), (0, 2));
    assert_eq!(ids, [0, 1, LEFTOVER]);
}

#[test]
fn generated_lists() {
    let seeds = seeds("HEKATOSUY_ROWS", 9_000_000, USUAL_LISTS);
    let counts = over(&seeds, run_one, RowCounts::add);
    println!("counted: {}; 0 differences from the model, and from one at a time", counts.told());
    assert_eq!(counts.lists, seeds.end - seeds.start);
    assert!(counts.holes().is_empty() || counts.lists < 3000, "never met: {:?}", counts.holes());
}
