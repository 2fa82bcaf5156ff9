//! The segment's cases of document 01, through the public calls: its numbers to meet, its answers
//! and their order, and what the scan gives; and the examples of document 02.

mod lent;

use hekatosuy::{Refusal, Rid, SlottedPageSegment, SlottedPages, MAX_PAGES, MAX_RECORD_SIZE as MOST, PAGE_SIZE};
use lent::{row, Lent};

impl Lent {
    fn insert(&mut self, length: usize) -> Result<Rid, Refusal> {
        self.calls().insert_record(&row(length, 1))
    }

    fn write(&mut self, tid: Rid, length: usize) -> Result<(), Refusal> {
        self.calls().write_record(tid, &row(length, 2))
    }

    fn erase(&mut self, tid: Rid) {
        assert_eq!(self.calls().erase_record(tid), Ok(()));
    }

    fn slot(&self, page: usize, slot: usize) -> u64 {
        self.number(page, 12 + 8 * slot, 8) as u64
    }

    /// Offset on the page and length, of an ordinary record.
    fn place(&self, page: usize, slot: usize) -> (u64, u64) {
        (self.slot(page, slot) >> 32, self.slot(page, slot) & 0xFFFF_FFFF)
    }

    fn nibble(&self, page: usize) -> u8 {
        self.inventory[(page + 240) / 2] >> (4 * (page % 2)) & 15
    }

    fn entries(&self) -> Vec<u64> {
        let entry = |c: usize| u64::from_le_bytes(self.inventory[8 * c..8 * c + 8].try_into().unwrap());
        (0..15).map(entry).collect()
    }

    /// A call that must be refused, and must leave every byte as it is.
    fn refused<T: std::fmt::Debug>(
        &mut self,
        refusal: Refusal,
        call: impl FnOnce(&mut SlottedPageSegment) -> Result<T, Refusal>,
    ) {
        let before = (self.pages.clone(), self.inventory.clone());
        assert_eq!(call(&mut self.calls()).map(|_| ()), Err(refusal));
        assert!(before == (self.pages.clone(), self.inventory.clone()), "a refused call changed a byte");
    }
}

fn id(page: u64, slot: u16) -> Rid {
    Rid::new(page, slot)
}

fn target(offset: u64, length: u64) -> u64 {
    3 << 62 | offset << 32 | length
}

fn redirect(to: Rid) -> u64 {
    2 << 62 | u64::from(to)
}

#[test]
fn three_bytes_into_an_empty_page() {
    let lent = Lent::with(1, &[3]);
    assert_eq!(lent.header(0), [1, 1, 16381, 16361]);
    assert_eq!(lent.slot(0, 0).to_be_bytes(), [0, 0, 0x3F, 0xFD, 0, 0, 0, 3]);
    assert_eq!(lent.nibble(0), 2);
    assert_eq!(lent.entries(), [[1; 2].as_slice(), &[0; 13]].concat());
}

#[test]
fn the_inventory_tells_by_classes() {
    assert_eq!(Lent::with(1, &[3]).insert(12270), Ok(id(0, 1)));
    let mut lent = Lent::with(1, &[3]);
    lent.refused(Refusal::Full, |calls| calls.insert_record(&[0; 12271]));
}

#[test]
fn the_longest_record() {
    assert_eq!(Lent::with(1, &[MOST]).header(0)[3], 0);
    Lent::new(1).refused(Refusal::Long, |calls| calls.insert_record(&[0; MOST + 1]));
}

#[test]
fn a_record_alone_grows() {
    let mut lent = Lent::with(1, &[100]);
    assert_eq!(lent.calls().resize_record(id(0, 0), 300), Ok(()));
    assert_eq!(lent.header(0)[2..], [15984, 16064]);
    assert_eq!(lent.calls().get_record(id(0, 0)), Ok(&[row(100, 1), vec![0; 200]].concat()[..]));
}

#[test]
fn records_erased_in_order() {
    let mut lent = Lent::with(1, &[3, 4, 5]);
    (0..3).for_each(|slot| lent.erase(id(0, slot)));
    assert_eq!(lent.header(0), [1, 0, 16377, 16364]);
}

#[test]
fn a_page_is_compactified_only_where_the_gap_is_too_small() {
    let holed = || {
        let mut lent = Lent::with(1, &[5000, 5000, 3000]);
        lent.erase(id(0, 1));
        assert_eq!(lent.insert(10), Ok(id(0, 1)));
        lent
    };
    let mut packed = holed();
    assert_eq!(packed.insert(3338), Ok(id(0, 3)));
    assert_eq!((packed.place(0, 3), packed.header(0)[3]), ((5036, 3338), 4992));
    assert_eq!(packed.calls().get_record(id(0, 2)), Ok(&row(3000, 1)[..]));
    let mut unpacked = holed();
    assert_eq!(unpacked.insert(3330), Ok(id(0, 3)));
    assert_eq!(unpacked.place(0, 3), (44, 3330));
}

/// 16,000 at (0,0), 100 at (1,0), 12,000 at (1,1); then 5,000 written to (1,0) go to (2,0).
fn forwarded() -> Lent {
    let mut lent = Lent::with(3, &[16000, 100, 12000]);
    assert_eq!(lent.write(id(1, 0), 5000), Ok(()));
    lent
}

#[test]
fn a_record_is_forwarded() {
    let mut lent = forwarded();
    assert_eq!((lent.slot(1, 0), lent.slot(2, 0)), (redirect(id(2, 0)), target(11376, 5008)));
    assert_eq!((lent.header(1)[3], lent.header(2)[3]), (4356, 11356));
    assert_eq!(lent.calls().get_record(id(1, 0)), Ok(&row(5000, 2)[..]));
    assert_eq!(lent.calls().get_record(id(2, 0)), Ok(&row(5000, 2)[..]));
}

#[test]
fn a_forwarded_record_stays_as_long_as_it_fits() {
    let mut lent = forwarded();
    assert_eq!(lent.write(id(1, 0), 16356), Ok(()));
    assert_eq!((lent.slot(1, 0), lent.header(2)[3]), (redirect(id(2, 0)), 0));
    forwarded().refused(Refusal::Full, |calls| calls.write_record(id(1, 0), &[0; 16357]));
}

#[test]
fn a_forwarded_record_moves_home() {
    let mut lent = forwarded();
    assert_eq!(lent.calls().resize_record(id(1, 0), 4000), Ok(()));
    assert_eq!(lent.place(1, 0).1, 4000);
    assert_eq!(lent.calls().get_record(id(1, 0)), Ok(&row(5000, 2)[..4000]));
    lent.refused(Refusal::None, |calls| calls.get_record(id(2, 0)).map(<[u8]>::len));
}

#[test]
fn an_allocated_record_is_zeros_whatever_lay_there() {
    let mut lent = Lent::with(1, &[3]);
    lent.erase(id(0, 0));
    assert_eq!(lent.calls().allocate(3), Ok(id(0, 0)));
    assert_eq!(lent.calls().get_record(id(0, 0)), Ok(&[0; 3][..]));
}

#[test]
fn the_scan_lists_what_document_01_lists() {
    let mut lent = forwarded();
    let calls = lent.calls();
    let lengths: Vec<_> = calls.scan().map(|step| step.map(|(tid, record)| (tid, record.len())).unwrap()).collect();
    assert_eq!(lengths, [(id(0, 0), 16000), (id(1, 1), 12000), (id(1, 0), 5000)]);
    let rows: Vec<_> = calls.scan().map(|step| step.unwrap().1).collect();
    assert_eq!(rows, [row(16000, 1), row(12000, 1), row(5000, 2)]);
    let mut looped = vec![];
    for step in &calls {
        looped.push(step.unwrap().1);
    }
    assert_eq!(looped, rows);
    assert!((&calls.pages()).into_iter().eq(calls.scan()));
}

/// Grown by a page of zeros, with the inventory as it is.
#[test]
fn a_store_grows_by_pages() {
    let mut lent = Lent::with(1, &[16000]);
    lent.refused(Refusal::Full, |calls| calls.insert_record(&row(5000, 2)));
    lent.pages.resize(2 * PAGE_SIZE, 0);
    assert_eq!(lent.calls().insert_record(&row(5000, 2)), Ok(id(1, 0)));
    assert_eq!(lent.calls().get_record(id(0, 0)), Ok(&row(16000, 1)[..]));
    assert_eq!(lent.calls().get_record(id(1, 0)), Ok(&row(5000, 2)[..]));
}

/// An insert into so many pages, with an inventory of so many bytes, and whether any byte was changed.
fn widest(pages: usize, inventory: usize) -> (Result<Rid, Refusal>, bool) {
    let (mut pages, mut inventory) = (vec![0; pages * PAGE_SIZE], vec![0; inventory]);
    let answer = SlottedPageSegment::new(&mut pages, &mut inventory).insert_record(&row(3, 1));
    let zeros = [0; PAGE_SIZE];
    let changed = pages.chunks(PAGE_SIZE).any(|page| page != zeros) || inventory.iter().any(|&byte| byte != 0);
    (answer, changed)
}

#[test]
fn the_most_pages_and_one_more() {
    assert_eq!(widest(MAX_PAGES, PAGE_SIZE), (Ok(id(0, 0)), true));
    assert_eq!(widest(MAX_PAGES + 1, PAGE_SIZE), (Err(Refusal::Size), false));
    assert_eq!(widest(MAX_PAGES, PAGE_SIZE - 1), (Err(Refusal::Size), false));
    assert_eq!(widest(MAX_PAGES, PAGE_SIZE + 1), (Err(Refusal::Size), false));
    assert_eq!((MAX_PAGES, MOST, PAGE_SIZE), (32527, 16364, 16384));
    assert_eq!(SlottedPageSegment::get_max_record_size(), MOST);
}

#[test]
fn a_scan_ends_at_a_damaged_page_and_stays_ended() {
    let mut lent = forwarded();
    lent.pages[PAGE_SIZE + 8] ^= 1;
    let mut scan = SlottedPages::new(&lent.pages).scan();
    assert_eq!(scan.next().map(|step| step.map(|(tid, _)| tid)), Some(Ok(id(0, 0))));
    assert_eq!(scan.next(), Some(Err(Refusal::Damaged)));
    assert_eq!((scan.next(), scan.next()), (None, None));
}

#[test]
fn a_segment_of_no_pages() {
    let mut lent = Lent::new(0);
    lent.refused(Refusal::Long, |calls| calls.insert_record(&[0; MOST + 1]));
    lent.refused(Refusal::Full, |calls| calls.insert_record(&[]));
    lent.refused(Refusal::NoPage, |calls| calls.get_record(id(0, 0)).map(<[u8]>::len));
    assert_eq!(lent.calls().scan().next(), None);
}

/// Each call that takes an id.
fn each_refused(lent: &mut Lent, refusal: Refusal, tid: Rid, size: usize) {
    lent.refused(refusal, |calls| calls.get_record(tid).map(<[u8]>::len));
    lent.refused(refusal, |calls| calls.write_record(tid, &vec![0; size]));
    lent.refused(refusal, |calls| calls.resize_record(tid, size));
    lent.refused(refusal, |calls| calls.erase_record(tid));
}

#[test]
fn answer_1_comes_before_all_others() {
    for (pages, inventory) in [(16383, 16384), (16385, 16384), (1, 16384), (16384, 16383), (16384, 16385), (16384, 0)] {
        let mut lent = Lent { pages: vec![0; pages], inventory: vec![0; inventory] };
        lent.refused(Refusal::Size, |calls| calls.insert_record(&[0; MOST + 1]));
        lent.refused(Refusal::Size, |calls| calls.allocate(usize::MAX));
        lent.refused(Refusal::Size, |calls| calls.write_record(id(9, 0), &[0; MOST + 1]));
        lent.refused(Refusal::Size, |calls| calls.resize_record(id(9, 0), usize::MAX));
        lent.refused(Refusal::Size, |calls| calls.erase_record(id(9, 0)));
    }
    let odd = vec![0; 16385];
    assert_eq!(SlottedPages::new(&odd).get_record(id(0, 0)), Err(Refusal::Size));
    let mut scan = SlottedPages::new(&odd).scan();
    assert_eq!((scan.next(), scan.next()), (Some(Err(Refusal::Size)), None));
}

#[test]
fn answer_3_comes_before_2_and_answer_2_before_the_page() {
    let mut lent = Lent::with(1, &[3]);
    lent.refused(Refusal::Long, |calls| calls.write_record(id(1, 0), &[0; MOST + 1]));
    lent.refused(Refusal::Long, |calls| calls.resize_record(id(1, 0), usize::MAX));
    lent.refused(Refusal::Long, |calls| calls.allocate(MOST + 1));
    for page in [1, 1 << 32, 1 << 48, u64::MAX] {
        each_refused(&mut lent, Refusal::NoPage, id(page, 0), 3);
    }
}

#[test]
fn answer_4_by_the_page_and_by_the_redirect() {
    let mut unsound = Lent::with(1, &[3]);
    unsound.pages[11] ^= 1;
    each_refused(&mut unsound, Refusal::Damaged, id(0, 0), 3);
    unsound.refused(Refusal::Damaged, |calls| calls.insert_record(&[0; 3]));
    unsound.refused(Refusal::Damaged, |calls| calls.allocate(3));

    let mut astray = forwarded();
    astray.pages[PAGE_SIZE + 12..PAGE_SIZE + 20].copy_from_slice(&redirect(id(0, 0)).to_be_bytes());
    each_refused(&mut astray, Refusal::Damaged, id(1, 0), 3);
}

/// Document 02, Ask 3: the two headers of a fresh page, and five others with count 0.
const FRESH: [[u8; 12]; 2] = [[0; 12], [0, 0, 0, 0, 0, 0, 0x40, 0, 0, 0, 0x3F, 0xF4]];
const EMPTIED: [[u8; 12]; 5] = [
    [0, 0, 0, 3, 0, 0, 0x3F, 0xF4, 0, 0, 0x3F, 0xD0],
    [0, 0, 0, 0, 0, 0, 0x3E, 0x80, 0, 0, 0x3F, 0xF4],
    [0, 0, 0, 0, 0, 0, 0x40, 0, 0, 0, 0, 0],
    [0, 0, 0, 1, 0, 0, 0, 0, 0, 0, 0, 0],
    [0, 0, 0, 0, 0, 0, 0, 0, 0, 0, 0, 1],
];

/// One page with this header, and EE in all its other bytes.
fn with_header(header: [u8; 12]) -> Lent {
    let mut lent = Lent { pages: vec![0xEE; PAGE_SIZE], inventory: vec![0; PAGE_SIZE] };
    lent.pages[..12].copy_from_slice(&header);
    lent
}

#[test]
fn a_page_is_fresh_by_either_of_two_headers() {
    for header in FRESH {
        let mut lent = with_header(header);
        each_refused(&mut lent, Refusal::None, id(0, 0), 1);
        lent.refused(Refusal::Long, |calls| calls.insert_record(&row(MOST + 1, 1)));
        assert_eq!(lent.calls().scan().next(), None);
        assert_eq!(lent.insert(3), Ok(id(0, 0)));
        assert_eq!(lent.pages[..12], [0, 1, 0, 1, 0, 0, 0x3F, 0xFD, 0, 0, 0x3F, 0xE9]);
    }
}

#[test]
fn no_other_page_with_count_0_is_sound() {
    for header in EMPTIED {
        let mut lent = with_header(header);
        each_refused(&mut lent, Refusal::Damaged, id(0, 0), 1);
        lent.refused(Refusal::Damaged, |calls| calls.insert_record(&row(3, 1)));
        lent.refused(Refusal::Damaged, |calls| calls.allocate(3));
        lent.refused(Refusal::Long, |calls| calls.insert_record(&row(MOST + 1, 1)));
        assert_eq!(lent.calls().scan().next(), Some(Err(Refusal::Damaged)));
    }
}

/// The ids that a scan gives, and the refusal that it ends with.
fn scanned(lent: &Lent) -> (Vec<Rid>, Option<Refusal>) {
    let steps: Vec<_> = SlottedPages::new(&lent.pages).scan().collect();
    (steps.iter().flatten().map(|&(tid, _)| tid).collect(), steps.iter().find_map(|step| step.err()))
}

#[test]
fn a_fresh_page_but_for_a_byte_is_not_a_new_page() {
    let mut lent = Lent::with(3, &[16000, 100, 12000]);
    lent.pages[2 * PAGE_SIZE + 11] = 1;
    lent.refused(Refusal::Damaged, |calls| calls.write_record(id(1, 0), &row(5000, 2)));
    assert_eq!(lent.write(id(1, 0), 200), Ok(()));
    assert_eq!(scanned(&lent), (vec![id(0, 0), id(1, 0), id(1, 1)], Some(Refusal::Damaged)));
}

#[test]
fn a_target_on_a_page_whose_count_was_wiped() {
    let mut lent = forwarded();
    lent.pages[2 * PAGE_SIZE + 1] = 0;
    each_refused(&mut lent, Refusal::Damaged, id(1, 0), 5000);
    each_refused(&mut lent, Refusal::Damaged, id(2, 0), 5000);
    assert_eq!(lent.calls().get_record(id(1, 1)), Ok(&row(12000, 1)[..]));
    assert_eq!(scanned(&lent), (vec![id(0, 0), id(1, 1)], Some(Refusal::Damaged)));
}

#[test]
fn answer_5_past_the_count_and_on_free_slots() {
    let mut lent = Lent::with(2, &[3, 4, 5]);
    lent.erase(id(0, 1));
    for none in [id(0, 1), id(0, 3), id(0, u16::MAX), id(1, 0)] {
        each_refused(&mut lent, Refusal::None, none, 3);
    }
}

#[test]
fn answer_6_by_a_targets_own_id() {
    let mut lent = forwarded();
    lent.refused(Refusal::Forwarded, |calls| calls.write_record(id(2, 0), &[0; 3]));
    lent.refused(Refusal::Forwarded, |calls| calls.resize_record(id(2, 0), 3));
    lent.refused(Refusal::Forwarded, |calls| calls.erase_record(id(2, 0)));
}

#[test]
fn answer_8_where_the_inventory_names_a_page_without_room() {
    let mut lent = Lent::with(2, &[16000]);
    lent.inventory[13 * 8..14 * 8].fill(0);
    lent.refused(Refusal::Stale, |calls| calls.insert_record(&[0; 1000]));
    lent.refused(Refusal::Stale, |calls| calls.allocate(1000));
}

#[test]
fn ids_and_refusals_as_numbers_and_words() {
    assert_eq!((u64::from(id(2, 5)), Rid::from(2 << 16 | 5)), (131077, id(2, 5)));
    assert_eq!((id(2, 5).page_id(), id(2, 5).slot_id(), id(2, 5).to_string()), (2, 5, "(2,5)".to_string()));
    assert_eq!(id(u64::MAX, 1).page_id(), (1 << 48) - 1);
    let names = [
        "SIZE", "NOPAGE", "LONG", "DAMAGED", "NONE", "FORWARDED", "FULL", "STALE", "TALLY", "LIST", "ROOM", "MARK", "SHORT", "RULE",
    ];
    for (&refusal, (number, name)) in Refusal::ALL.iter().zip((1..).zip(names)) {
        assert_eq!((refusal.number(), refusal.name()), (number, name));
        assert_eq!(Refusal::from_number(number), Some(refusal));
        assert!(refusal.to_string().starts_with(&format!("{number} {name}: ")));
    }
    assert_eq!(Refusal::ALL.len(), names.len());
    for none in [0, 15, 16, u64::MAX] {
        assert_eq!(Refusal::from_number(none), None);
    }
    assert_eq!((format!("{:?}", id(2, 5)), format!("{:?}", Refusal::None)), ("Rid(2,5)".to_string(), "None".to_string()));
    let mut lent = Lent::with(1, &[3]);
    assert_eq!(format!("{:?}", lent.calls()), "SlottedPageSegment { segment: 16384 bytes, inventory: 16384 bytes }");
    let mut scan = SlottedPages::new(&lent.pages).scan();
    scan.next();
    assert_eq!(format!("{scan:?}"), "SlottedPageScan { segment: 16384 bytes, position: Rid(0,1) }");
}
