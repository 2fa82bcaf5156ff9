//! Repair, of document 02's Ask 4, through the public calls: its worked examples with every byte, the sizes, the list, and
//! what the entries say in words.

mod lent;
mod repair_examples;

use hekatosuy::{At, Change, Refusal, RepairRefusal, Rid, SlottedPageSegment, Touched, MAX_PAGES, PAGE_SIZE};
use lent::{row, Lent};
use repair_examples::{Call, Example, EXAMPLES};

impl Lent {
    /// What an example begins with.
    fn damaged(example: &Example) -> Lent {
        let mut lent = Lent::new(example.pages);
        for call in example.calls {
            match *call {
                Call::Insert(length) => lent.calls().insert_record(&row(length, 1)).map(|_| ()),
                Call::Write(page, slot, length) => lent.calls().write_record(Rid::new(page, slot), &row(length, 1)),
            }
            .unwrap_or_else(|refusal| panic!("{}: {refusal}", example.title));
        }
        example.damage(&mut lent.pages, &mut lent.inventory);
        lent
    }
}

fn example(number: usize) -> Example {
    EXAMPLES[number - 1]
}

/// An entry that none of the repairs here writes, by which an untouched place of a list is known.
fn leftover() -> Touched {
    let mut lent = Lent::new(9);
    lent.pages[8 * PAGE_SIZE] = 0xFF;
    lent.calls().repair_all().unwrap()[0]
}

fn words(list: &[Touched]) -> Vec<[u64; 3]> {
    list.iter().map(|touched| touched.words()).collect()
}

#[test]
fn the_worked_examples() {
    for (number, example) in (1..).zip(&EXAMPLES) {
        assert!(example.title.starts_with(&format!("{number}. ")));
        let mut lent = Lent::damaged(example);
        let mut wanted = lent.clone();
        if let Some((words, needed)) = example.too_few {
            let mut list = vec![leftover(); words / 3];
            assert_eq!(lent.calls().repair(&mut list), Err(RepairRefusal::Room { needed }), "{}", example.title);
            assert!(list.iter().all(|&touched| touched == leftover()), "{}: the list", example.title);
        } else {
            let mut list = vec![leftover(); example.entries.len() + 2];
            let told = lent.calls().repair(&mut list).unwrap_or_else(|refusal| panic!("{}: {refusal}", example.title));
            assert_eq!(words(told), example.entries, "{}", example.title);
            assert_eq!(list[example.entries.len()..], [leftover(); 2], "{}: the rest of the list", example.title);
            example.mend(&mut wanted.pages, &mut wanted.inventory);
            assert!(lent.calls().is_sound(), "{}: not sound", example.title);
        }
        assert!(lent.pages == wanted.pages, "{} leaves other pages", example.title);
        assert!(lent.inventory == wanted.inventory, "{} leaves another inventory", example.title);
    }
}

#[test]
fn a_list_as_long_as_it_must_be_and_shorter_ones() {
    for example in EXAMPLES.iter().filter(|example| example.too_few.is_none()) {
        let damaged = Lent::damaged(example);
        let needed = example.entries.len();
        for places in 0..needed {
            let (mut lent, mut list) = (damaged.clone(), vec![leftover(); places]);
            assert_eq!(lent.calls().repair(&mut list), Err(RepairRefusal::Room { needed }), "{}", example.title);
            assert!(lent == damaged && list.iter().all(|&touched| touched == leftover()), "{}: refused, and something changed", example.title);
        }
        let mut lent = damaged.clone();
        assert_eq!(lent.calls().is_sound(), needed == 0, "{}", example.title);
        assert!(lent == damaged, "{}: a check changed something", example.title);
        assert_eq!(lent.calls().repair_all().map(|list| words(&list)).as_deref(), Ok(example.entries), "{}", example.title);
        assert_eq!(lent.calls().repair_all().as_deref(), Ok(&[][..]), "{}: a second repair", example.title);
    }
}

#[test]
fn answer_1_by_the_sizes() {
    for (pages, inventory) in [(16383, 16384), (16385, 16384), (1, 16384), (16384, 16383), (16384, 16385), (16384, 0)] {
        let mut lent = Lent::of_bytes(pages, inventory);
        let mut list = vec![leftover(); 4];
        assert_eq!(lent.calls().repair(&mut []), Err(RepairRefusal::Size));
        assert_eq!(lent.calls().repair(&mut list), Err(RepairRefusal::Size));
        assert_eq!(lent.calls().repair_all(), Err(RepairRefusal::Size));
        assert!(!lent.calls().is_sound());
        assert_eq!(list, [leftover(); 4]);
        assert!(lent == Lent::of_bytes(pages, inventory));
    }
    let mut empty = Lent::new(0);
    assert!(empty.calls().is_sound());
    assert_eq!(empty.calls().repair_all().as_deref(), Ok(&[][..]));
}

#[test]
fn the_most_pages_and_one_more() {
    let mut pages = vec![0; (MAX_PAGES + 1) * PAGE_SIZE];
    let mut inventory = vec![0; PAGE_SIZE];
    pages[(MAX_PAGES - 1) * PAGE_SIZE] = 0xFF;
    assert_eq!(SlottedPageSegment::new(&mut pages, &mut inventory).repair_all(), Err(RepairRefusal::Size));
    pages.truncate(MAX_PAGES * PAGE_SIZE);
    let told = SlottedPageSegment::new(&mut pages, &mut inventory).repair_all().map(|list| words(&list));
    assert_eq!(told.as_deref(), Ok(&[[MAX_PAGES as u64 - 1, 65535, 5]][..]));
    assert!(SlottedPageSegment::new(&mut pages, &mut inventory).is_sound());
}

/// What could be read before the damage, but for what the entries tell of, can be read afterwards.
#[test]
fn a_target_without_its_redirect_has_its_own_id() {
    let mut lent = Lent::damaged(&example(23));
    let calls = &mut lent.calls();
    calls.repair_all().unwrap();
    assert_eq!(calls.get_record(Rid::new(2, 0)), Ok(&row(5000, 1)[..]));
    assert_eq!(calls.get_record(Rid::new(1, 0)), Err(Refusal::None));
    assert_eq!(calls.get_record(Rid::new(0, 0)), Ok(&row(16000, 1)[..]));
    let ids: Vec<_> = calls.scan().map(|step| step.unwrap().0).collect();
    assert_eq!(ids, [Rid::new(0, 0), Rid::new(2, 0)]);
    assert_eq!(calls.insert_record(&row(12000, 1)), Ok(Rid::new(1, 0)));
}

#[test]
fn entries_in_words() {
    let told = |number| Lent::damaged(&example(number)).calls().repair_all().unwrap();
    let lines = |number| told(number).iter().map(Touched::to_string).collect::<Vec<_>>();
    assert_eq!(
        lines(24),
        [
            "page 1, slot 0: redirect freed, it had no target pointing back",
            "page 1: header worked out anew",
            "page 2, slot 1: record freed, it did not lie as it must",
            "page 2: header worked out anew",
            "inventory: worked out anew",
        ]
    );
    assert_eq!(
        lines(23)[..2],
        ["page 1: header zeroed, its records are lost", "page 2, slot 0: target made an ordinary record, it had no redirect"]
    );
    let parts = |touched: &Touched| (touched.page_id(), touched.at(), touched.tid(), touched.change());
    assert_eq!(
        told(22).iter().map(parts).collect::<Vec<_>>(),
        [
            (1, At::Slot(0), Some(Rid::new(1, 0)), Change::RedirectFreed),
            (1, At::Header, None, Change::HeaderWorkedOut),
            (2, At::Header, None, Change::HeaderZeroed),
            (3, At::Inventory, None, Change::InventoryWorkedOut),
        ]
    );
    assert_eq!(parts(&told(9)[0]), (0, At::Slot(0), Some(Rid::new(0, 0)), Change::RecordFreed));
    assert_eq!(parts(&told(14)[0]).3, Change::MadeOrdinary);
    assert_eq!(format!("{:?}", told(25)), "[Touched(inventory: worked out anew)]");
    assert_eq!((Touched::default().change(), Touched::default().to_string()), (Change::Nothing, "nothing".to_string()));
}

#[test]
fn refusals_in_words() {
    let room = RepairRefusal::Room { needed: 4 };
    assert_eq!((room.number(), room.name(), room.to_string()), (11, "ROOM", "11 ROOM: the list is too short, 4 entries are needed".to_string()));
    let size = RepairRefusal::Size;
    assert_eq!((size.number(), size.name(), size.to_string()), (1, "SIZE", Refusal::Size.to_string()));
}
