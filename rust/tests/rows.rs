//! Many rows in one call, of document 02's Ask 2, through the public calls: its worked examples with every byte, rows that
//! go to many pages in turn, untrue inventories, and what a stop says in words.

mod lent;

use hekatosuy::{Refusal, Rid, SlottedPageSegment, Stopped, MAX_PAGES, PAGE_SIZE};
use lent::{row, Lent};
use std::collections::HashSet;

/// What a place for an id holds before a call, and afterwards where it is not written.
const KEPT: Rid = Rid::new(0x7777, 0x7777);

impl Lent {
    /// Stores rows by one call, and the same rows one at a time in a copy: answers, ids and every byte must be equal, and
    /// places behind the rows told must be kept. Gives what was told, and the places.
    fn store(&mut self, rows: &[u8], lengths: &[u64], places: usize) -> (Result<(), Stopped>, Vec<Rid>) {
        let (mut apart, mut ids) = (self.clone(), vec![KEPT; places]);
        let told = self.calls().insert_records(rows, lengths, &mut ids);
        let inserted = told.map_or_else(|stopped| stopped.rows, |()| lengths.len());
        let mut left = rows;
        for (k, &length) in lengths[..inserted].iter().enumerate() {
            let (row, behind) = left.split_at(length as usize);
            assert_eq!(apart.calls().insert_record(row), Ok(ids[k]), "row {k}");
            left = behind;
        }
        match told {
            Ok(()) => assert!(left.is_empty()),
            Err(Stopped { refusal: Refusal::Size | Refusal::List, .. }) => assert_eq!(inserted, 0),
            Err(Stopped { refusal, .. }) => {
                assert_eq!(apart.calls().insert_record(&left[..lengths[inserted] as usize]), Err(refusal), "row {inserted}");
            }
        }
        assert!(self.pages == apart.pages, "other pages than one at a time");
        assert!(self.inventory == apart.inventory, "another inventory than one at a time");
        assert!(ids[inserted..].iter().all(|&place| place == KEPT), "a place behind the rows told is written");
        (told, ids)
    }

    /// An example that carries out the whole list: so many bytes 00, 01, 02, .. end to end, and what is left in the places.
    fn done(&mut self, lengths: &[u64], bytes: usize, ids: &[Rid]) {
        assert_eq!(self.store(&counted(bytes), lengths, ids.len()), (Ok(()), ids.to_vec()));
    }

    /// An example that stops after so many rows. Where that is none, no byte may change.
    fn stops(&mut self, lengths: &[u64], bytes: usize, refusal: Refusal, rows: usize, ids: &[Rid]) {
        let before = self.clone();
        assert_eq!(self.store(&counted(bytes), lengths, ids.len()), (Err(Stopped { rows, refusal }), ids.to_vec()));
        assert!(rows > 0 || *self == before, "no row went in, and a byte changed");
    }

    fn page(&self, page: usize) -> &[u8] {
        &self.pages[page * PAGE_SIZE..][..PAGE_SIZE]
    }
}

/// Bytes 00, 01, 02, ..
fn counted(length: usize) -> Vec<u8> {
    (0..length).map(|k| k as u8).collect()
}

fn id(page: u64, slot: u16) -> Rid {
    Rid::new(page, slot)
}

/// A page of these first and last bytes, and zeros between.
fn page_of(first: &[u8], last: &[u8]) -> Vec<u8> {
    [first, &vec![0; PAGE_SIZE - first.len() - last.len()], last].concat()
}

/// P2 of document 01: three bytes, 00 01 02, alone on a page.
fn p2() -> Vec<u8> {
    page_of(&[0, 1, 0, 1, 0, 0, 0x3F, 0xFD, 0, 0, 0x3F, 0xE9, 0, 0, 0x3F, 0xFD, 0, 0, 0, 3], &[0, 1, 2])
}

/// P9 of document 01: the inventory for it, where it is page 0: nibble 2, entries 0 and 1 are 1, the rest 0.
fn p9() -> Vec<u8> {
    let mut inventory = vec![0; PAGE_SIZE];
    (inventory[0], inventory[8], inventory[120]) = (1, 1, 2);
    inventory
}

#[test]
fn example_1_three_rows_and_a_place_to_spare() {
    let mut lent = Lent::new(2);
    lent.done(&[3, 0, 5], 8, &[id(0, 0), id(0, 1), id(0, 2), KEPT]);
    let header = [0x00, 0x03, 0x00, 0x03, 0x00, 0x00, 0x3F, 0xF8, 0x00, 0x00, 0x3F, 0xD4];
    let slots = [
        [0x00, 0x00, 0x3F, 0xFD, 0x00, 0x00, 0x00, 0x03],
        [0x00, 0x00, 0x3F, 0xFD, 0x00, 0x00, 0x00, 0x00],
        [0x00, 0x00, 0x3F, 0xF8, 0x00, 0x00, 0x00, 0x05],
    ];
    assert!(lent.page(0) == page_of(&[&header[..], &slots.concat()].concat(), &[3, 4, 5, 6, 7, 0, 1, 2]));
    assert!(lent.page(1) == vec![0; PAGE_SIZE]);
    assert!(lent.inventory == p9());
}

#[test]
fn example_2_an_empty_list_without_bytes() {
    let mut lent = Lent::new(2);
    lent.done(&[], 0, &[KEPT]);
    assert!(lent == Lent::new(2));
}

#[test]
fn example_3_bytes_without_lengths() {
    Lent::new(2).stops(&[], 1, Refusal::List, 0, &[KEPT]);
}

#[test]
fn example_4_fewer_places_than_rows() {
    Lent::new(2).stops(&[3, 5], 8, Refusal::List, 0, &[KEPT]);
}

#[test]
fn example_5_lengths_whose_sum_is_no_u64() {
    Lent::new(2).stops(&[1 << 63, 1 << 63], 0, Refusal::List, 0, &[KEPT, KEPT]);
}

#[test]
fn example_6_a_row_too_long_in_the_middle() {
    let mut lent = Lent::new(2);
    lent.stops(&[3, 16365, 3], 16371, Refusal::Long, 1, &[id(0, 0), KEPT, KEPT]);
    assert!(lent.page(0) == p2());
    assert!(lent.page(1) == vec![0; PAGE_SIZE]);
    assert!(lent.inventory == p9());
}

#[test]
fn example_7_a_row_for_which_no_page_is_named() {
    let mut lent = Lent::new(1);
    lent.stops(&[3, 12271], 12274, Refusal::Full, 1, &[id(0, 0), KEPT]);
    assert!(lent.pages == p2());
    assert!(lent.inventory == p9());
}

#[test]
fn example_8_a_row_for_which_a_page_is_just_named() {
    let mut lent = Lent::new(1);
    lent.done(&[3, 12270], 12273, &[id(0, 0), id(0, 1)]);
    assert_eq!(lent.header(0)[3], 4083);
}

#[test]
fn example_9_long_and_short_rows_in_turn() {
    Lent::new(3).done(&[12000, 20, 12000, 20], 24040, &[id(0, 0), id(0, 1), id(1, 0), id(0, 2)]);
}

#[test]
fn example_10_no_pages() {
    Lent::new(0).stops(&[0, 0], 0, Refusal::Full, 0, &[KEPT, KEPT]);
}

#[test]
fn example_11_a_damaged_page_in_the_middle() {
    let mut lent = Lent::with(2, &[3]);
    lent.pages[PAGE_SIZE + 1] = 1;
    let damaged = lent.page(1).to_vec();
    lent.stops(&[100, 16256], 16356, Refusal::Damaged, 1, &[id(0, 1), KEPT]);
    assert!(lent.page(1) == damaged);
}

#[test]
fn example_12_a_short_inventory() {
    let mut lent = Lent::new(1);
    lent.inventory.pop();
    lent.stops(&[], 0, Refusal::Size, 0, &[]);
    lent.stops(&[], 1, Refusal::Size, 0, &[]);
}

#[test]
fn example_13_a_page_compactified_between_the_rows() {
    let mut lent = Lent::with(1, &[5000, 5000, 3000]);
    assert_eq!(lent.calls().erase_record(id(0, 1)), Ok(()));
    lent.done(&[10, 3338], 3348, &[id(0, 1), id(0, 3)]);
    assert_eq!(lent.header(0)[2..], [5036, 4992]);
    assert_eq!(lent.calls().get_record(id(0, 1)), Ok(&counted(10)[..]));
    assert_eq!(lent.calls().get_record(id(0, 3)), Ok(&counted(3348)[10..]));
    assert_eq!(lent.calls().get_record(id(0, 2)), Ok(&row(3000, 1)[..]));
}

#[test]
fn answer_1_comes_before_10_and_before_an_empty_list() {
    for (pages, inventory) in [(16383, 16384), (16385, 16384), (1, 16384), (16384, 16383), (16384, 16385), (16384, 0)] {
        let mut lent = Lent { pages: vec![0; pages], inventory: vec![0; inventory] };
        lent.stops(&[], 0, Refusal::Size, 0, &[KEPT]);
        lent.stops(&[3, 5], 7, Refusal::Size, 0, &[]);
        lent.stops(&[16365], 16365, Refusal::Size, 0, &[KEPT]);
    }
}

#[test]
fn the_most_pages_and_one_more() {
    let (mut pages, mut inventory) = (vec![0; (MAX_PAGES + 1) * PAGE_SIZE], vec![0; PAGE_SIZE]);
    let mut ids = [KEPT; 2];
    let mut store = |pages: &mut [u8]| SlottedPageSegment::new(pages, &mut inventory).insert_records(&[1, 2, 3], &[1, 2], &mut ids);
    assert_eq!(store(&mut pages), Err(Stopped { rows: 0, refusal: Refusal::Size }));
    assert_eq!(store(&mut pages[..MAX_PAGES * PAGE_SIZE]), Ok(()));
    assert_eq!(ids, [id(0, 0), id(0, 1)]);
}

#[test]
fn answer_10_whatever_the_rows_and_the_pages_are() {
    let lists: [(&[u64], usize, usize); 8] = [
        (&[0], 1, 1),
        (&[3, 5], 7, 2),
        (&[3, 5], 9, 2),
        (&[0, 0], 0, 1),
        (&[u64::MAX], 0, 1),
        (&[u64::MAX, 1], 0, 2),
        (&[u64::MAX, 4], 3, 2),
        (&[16365], 16364, 1),
    ];
    let damaged = Lent { pages: vec![0xA5; PAGE_SIZE], inventory: vec![0xA5; PAGE_SIZE] };
    for (lengths, bytes, places) in lists {
        for lent in [Lent::new(0), Lent::new(1), damaged.clone()] {
            lent.clone().stops(lengths, bytes, Refusal::List, 0, &vec![KEPT; places]);
        }
    }
    damaged.clone().done(&[], 0, &[]);
    damaged.clone().done(&[], 0, &[KEPT, KEPT]);
}

#[test]
fn rows_of_no_bytes_are_rows() {
    let mut lent = Lent::new(1);
    lent.done(&[0, 0], 0, &[id(0, 0), id(0, 1)]);
    assert_eq!(lent.header(0), [2, 2, 16384, 16356]);
    assert_eq!(lent.calls().get_record(id(0, 1)), Ok(&[][..]));
}

#[test]
fn a_list_that_stopped_goes_on_with_more_pages() {
    let (rows, lengths) = (counted(40_000), [10_000; 4]);
    let mut ids = [KEPT; 4];
    let mut lent = Lent::new(1);
    let mut stored = 0;
    while let Err(Stopped { rows: more, refusal }) =
        lent.calls().insert_records(&rows[10_000 * stored..], &lengths[stored..], &mut ids[stored..])
    {
        assert_eq!((more, refusal), (1, Refusal::Full));
        stored += more;
        lent.pages.resize(lent.pages.len() + PAGE_SIZE, 0);
    }
    assert_eq!(ids, [id(0, 0), id(1, 0), id(2, 0), id(3, 0)]);
    let mut at_once = Lent::new(4);
    at_once.done(&lengths, 40_000, &ids);
    assert!(lent == at_once);
}

/// Entry 13 names page 0, which is full; and then page 0's nibble is 15 though the page is empty, so that the entries go on
/// naming it when the first row has filled it.
#[test]
fn an_untrue_inventory_in_the_middle_of_a_list() {
    let mut lent = Lent::with(2, &[16000]);
    lent.inventory[13 * 8..14 * 8].fill(0);
    lent.stops(&[20, 20, 1000, 20], 1060, Refusal::Stale, 2, &[id(1, 0), id(1, 1), KEPT, KEPT]);
    let mut lent = Lent::new(1);
    lent.inventory[120] = 15;
    lent.stops(&[16000, 20, 1000, 20], 17040, Refusal::Stale, 2, &[id(0, 0), id(0, 1), KEPT, KEPT]);
}

#[test]
fn a_damaged_page_is_met_when_the_first_row_is_to_go_there() {
    for page in 0..6 {
        let mut lent = Lent::new(6);
        lent.pages[page * PAGE_SIZE + 11] = 1;
        let ids: Vec<_> = (0..6).map(|k| if k < page { id(k as u64, 0) } else { KEPT }).collect();
        lent.stops(&[10_000; 6], 60_000, Refusal::Damaged, page, &ids);
    }
}

/// A row for each of the inventory's entries, the last first: the shortest that asks by it.
const BY_ENTRY: [u64; 15] = [0, 781, 1219, 1691, 2205, 2768, 3390, 4085, 4874, 5784, 6861, 8178, 9877, 12271, 16364];

/// Pages of the classes 14 down to 2, so many times over, and as many fresh ones behind: rows of the lengths above go to 15
/// pages in turn.
fn of_all_classes(times: usize) -> Lent {
    let mut lent = Lent::with(26 * times, &vec![16000; 13 * times]);
    for page in 0..13 * times {
        let length = 16357_usize.saturating_sub(BY_ENTRY[page % 13 + 2] as usize);
        assert_eq!(lent.calls().resize_record(id(page as u64, 0), length), Ok(()));
    }
    lent
}

#[test]
fn fifteen_lengths_in_turn_over_many_pages() {
    let lengths = BY_ENTRY.repeat(20);
    let rows = counted(lengths.iter().sum::<u64>() as usize);
    let mut lent = of_all_classes(5);
    let (told, ids) = lent.store(&rows, &lengths, lengths.len());
    assert_eq!(told, Err(Stopped { rows: 249, refusal: Refusal::Full }));
    assert!(lent.calls().is_sound());
    for (round, ids) in ids.chunks(15).enumerate().take(16) {
        let pages: HashSet<_> = ids.iter().map(|tid| tid.page_id()).collect();
        assert_eq!(pages.len(), if round < 5 { 15 } else { 14 }, "pages of round {round}");
    }
    for (pages, rows_told) in [(1, 7), (2, 10), (15, 42), (16, 43), (17, 44), (40, 116)] {
        let (told, _) = Lent::new(pages).store(&rows, &lengths, lengths.len());
        assert_eq!(told, Err(Stopped { rows: rows_told, refusal: Refusal::Full }));
    }
}

#[test]
fn a_stop_in_words() {
    let words = |rows, refusal| Stopped { rows, refusal }.to_string();
    assert_eq!(words(2, Refusal::Full), "2 rows went in, the next was refused: 7 FULL: no page has room");
    assert_eq!(words(1, Refusal::Long), "1 row went in, the next was refused: 3 LONG: the size is above 16,364");
    assert_eq!(words(0, Refusal::Damaged), "no row went in, the first was refused: 4 DAMAGED: a page is damaged");
    assert_eq!(
        words(0, Refusal::List),
        "no row went in: 10 LIST: the lengths don't sum to the bytes, or there are fewer places for ids than rows"
    );
    assert_eq!(words(0, Refusal::Size), format!("no row went in: {}", Refusal::Size));
    let stopped = Stopped { rows: 2, refusal: Refusal::Full };
    assert_eq!(format!("{stopped:?}"), "Stopped { rows: 2, refusal: Full }");
}
