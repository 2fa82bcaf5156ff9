//! The fill report, of document 02's Ask 1, through the public calls: its worked examples with every number, its refusals, several
//! segments in one tally, and what a tally says in words.

mod lent;
mod report_examples;

use hekatosuy::{Refusal, Rid, SlottedPages, Tally, MAX_PAGES, PAGE_SIZE};
use lent::{row, Lent};
use report_examples::{Call, Example, Figures, EXAMPLES};

/// Where each figure stands; those of the classes follow.
const PAGES: usize = 0;
const FRESH: usize = 1;
const SLOTS: usize = 2;
const RECORDS: usize = 3;
const BYTES: usize = 4;
const FORWARDED: usize = 5;
const FREE: usize = 6;
const CLASSES: usize = 7;

impl Lent {
    /// What an example reports on.
    fn of(example: &Example) -> Lent {
        let mut lent = Lent::of_bytes(example.bytes, PAGE_SIZE);
        lent.pages = example.segment();
        for call in example.calls {
            match *call {
                Call::Insert(length) => lent.calls().insert_record(&row(length, 1)).map(|_| ()),
                Call::Write(page, slot, length) => lent.calls().write_record(Rid::new(page, slot), &row(length, 2)),
                Call::Erase(page, slot) => lent.calls().erase_record(Rid::new(page, slot)),
            }
            .unwrap_or_else(|refusal| panic!("{}: {refusal}", example.title));
        }
        example.set(&mut lent.pages);
        lent
    }
}

fn tally(figures: &Figures) -> Tally {
    Tally {
        pages: figures[PAGES],
        fresh_pages: figures[FRESH],
        slots: figures[SLOTS],
        records: figures[RECORDS],
        record_bytes: figures[BYTES],
        forwarded: figures[FORWARDED],
        free_bytes: figures[FREE],
        classes: figures[CLASSES..].try_into().unwrap(),
    }
}

fn figures(tally: &Tally) -> Figures {
    let Tally { pages, fresh_pages, slots, records, record_bytes, forwarded, free_bytes, classes } = *tally;
    let seven = [pages, fresh_pages, slots, records, record_bytes, forwarded, free_bytes];
    [&seven[..], &classes].concat().try_into().unwrap()
}

/// Answer and figures of a report that starts with these.
fn report(pages: &[u8], before: &Figures) -> (Result<(), Refusal>, Figures) {
    let mut tally = tally(before);
    let answer = SlottedPages::new(pages).fill_report(&mut tally);
    (answer, figures(&tally))
}

/// The figures of pages that are not refused.
fn figures_of(pages: &[u8]) -> Figures {
    let (answer, figures) = report(pages, &[0; 23]);
    assert_eq!(answer, Ok(()));
    figures
}

/// 23 numbers of which no two are alike, and none grows past 2^64 - 1.
fn any_figures() -> Figures {
    std::array::from_fn(|figure| 1 << (2 * figure + 7))
}

/// What an example answers.
fn wanted(example: &Example) -> Result<(), Refusal> {
    Refusal::from_number(example.answer).map_or(Ok(()), Err)
}

#[test]
fn the_worked_examples() {
    for example in &EXAMPLES {
        let mut lent = Lent::of(example);
        let before = lent.clone();
        assert_eq!(report(&lent.pages, &example.before), (wanted(example), example.after), "{}", example.title);
        let mut with_inventory = tally(&example.before);
        assert_eq!(lent.calls().fill_report(&mut with_inventory), wanted(example), "{}", example.title);
        assert_eq!(figures(&with_inventory), example.after, "{}", example.title);
        assert!(lent == before, "{}: a report changed a byte", example.title);
    }
    let numbers: Vec<&str> = EXAMPLES.iter().map(|example| example.title.split('.').next().unwrap()).collect();
    assert_eq!(numbers, ["1", "2", "3", "4", "5", "6", "7", "8", "9", "10", "11", "12", "12", "12b", "13", "14"]);
}

#[test]
fn the_figures_sum_to_the_bytes() {
    for example in EXAMPLES.iter().filter(|example| example.answer == 0 && example.before == [0; 23]) {
        let of = figures_of(&Lent::of(example).pages);
        let used = of[PAGES] - of[FRESH];
        assert_eq!(12 * used + 8 * of[SLOTS] + of[BYTES] + 8 * of[FORWARDED] + of[FREE], 16_384 * used, "{}", example.title);
        assert_eq!((of[CLASSES..].iter().sum(), of[CLASSES]), (of[PAGES], of[FRESH]), "{}", example.title);
    }
}

#[test]
fn answer_1_by_the_size() {
    for length in [1, 16383, 16385, 32767, 3 * PAGE_SIZE - 1] {
        for before in [[0; 23], any_figures(), [u64::MAX; 23]] {
            assert_eq!(report(&vec![0; length], &before), (Err(Refusal::Size), before));
            // before 4, too
            assert_eq!(report(&vec![0xA5; length], &before), (Err(Refusal::Size), before));
        }
    }
}

#[test]
fn the_most_pages_and_one_more() {
    let mut pages = vec![0; (MAX_PAGES + 1) * PAGE_SIZE];
    assert_eq!(report(&pages, &any_figures()), (Err(Refusal::Size), any_figures()));
    pages.truncate(MAX_PAGES * PAGE_SIZE);
    let mut wanted = [0; 23];
    (wanted[PAGES], wanted[FRESH], wanted[CLASSES]) = (32_527, 32_527, 32_527);
    assert_eq!(figures_of(&pages), wanted);
    pages[(MAX_PAGES - 1) * PAGE_SIZE + 11] = 1;
    assert_eq!(report(&pages, &any_figures()), (Err(Refusal::Damaged), any_figures()));
}

#[test]
fn answer_4_wherever_the_damaged_page_lies() {
    let sound = of_all_figures();
    for page in 0..sound.len() / PAGE_SIZE {
        let mut damaged = sound.clone();
        damaged[page * PAGE_SIZE..][..12].fill(0xA5);
        for before in [[0; 23], any_figures(), [u64::MAX; 23]] {
            assert_eq!(report(&damaged, &before), (Err(Refusal::Damaged), before), "page {page}");
        }
    }
}

/// Redirects without targets and targets without redirects are counted as they lie.
#[test]
fn pages_of_a_segment_that_is_not_sound() {
    let mut lent = Lent::of(&EXAMPLES[3]);
    lent.inventory.fill(0xA5);
    assert_eq!(lent.calls().fill_report(&mut Tally::default()), Ok(()));
    let of_pages = |from: usize, to: usize| figures_of(&lent.pages[from * PAGE_SIZE..to * PAGE_SIZE]);
    // page 1 has the redirect, page 2 its target
    assert_eq!(of_pages(1, 2)[..CLASSES], [1, 0, 2, 1, 12_000, 0, 4_356]);
    assert_eq!(of_pages(2, 3)[..CLASSES], [1, 0, 1, 1, 5_000, 1, 11_356]);
    assert_eq!(sum(&of_pages(0, 1), &of_pages(1, 3)), of_pages(0, 3));
}

fn sum(one: &Figures, other: &Figures) -> Figures {
    std::array::from_fn(|figure| one[figure] + other[figure])
}

/// The most bytes that slots and records take in each class from 2 on.
const CLASS_ENDS: [usize; 14] = [4093, 6487, 8186, 9503, 10580, 11490, 12279, 12974, 13596, 14159, 14673, 15145, 15583, 16372];

#[test]
fn classes_by_the_bytes_used() {
    for (class, end) in (2..).zip(CLASS_ENDS) {
        let mut wanted = [0; 16];
        wanted[class] = 1;
        assert_eq!(figures_of(&Lent::with(1, &[end - 8]).pages)[CLASSES..], wanted, "{end} bytes used");
        let words = Tally { classes: wanted, ..Tally::default() }.to_string().replace(',', "");
        let first = if class == 2 { 1 } else { CLASS_ENDS[class - 3] + 1 };
        assert!(words.ends_with(&format!("\npages of class {class:<2}  1  {first} to {end} bytes used")), "{words}");
        if class < 15 {
            wanted.swap(class, class + 1);
            assert_eq!(figures_of(&Lent::with(1, &[end - 7]).pages)[CLASSES..], wanted, "{end} bytes used and one");
        }
    }
}

/// Pages by which every figure rises, but for class 1, of which no page is.
fn of_all_figures() -> Vec<u8> {
    let mut pages = Lent::of(&EXAMPLES[3]).pages;
    CLASS_ENDS.iter().for_each(|end| pages.extend(Lent::with(1, &[end - 8]).pages));
    pages.extend([0; PAGE_SIZE]);
    pages
}

#[test]
fn answer_9_by_each_figure_alone() {
    let pages = of_all_figures();
    let of = figures_of(&pages);
    for figure in 0..23 {
        let mut before = any_figures();
        if of[figure] > 0 {
            before[figure] = u64::MAX - of[figure] + 1;
            assert_eq!(report(&pages, &before), (Err(Refusal::Tally), before), "figure {figure}");
        } else {
            assert_eq!(figure, CLASSES + 1);
        }
        before[figure] = u64::MAX - of[figure];
        let after = sum(&before, &of);
        assert_eq!(after[figure], u64::MAX);
        assert_eq!(report(&pages, &before), (Ok(()), after), "figure {figure}");
    }
}

#[test]
fn a_figure_to_which_nothing_is_added_may_be_the_most() {
    let pages = vec![0; 2 * PAGE_SIZE];
    let mut before = [u64::MAX; 23];
    (before[PAGES], before[FRESH], before[CLASSES]) = (0, 0, 0);
    let mut after = before;
    (after[PAGES], after[FRESH], after[CLASSES]) = (2, 2, 2);
    assert_eq!(report(&pages, &before), (Ok(()), after));
}

/// In two orders, with refused ones in between.
#[test]
fn several_segments_in_one_tally() {
    let segments: Vec<Vec<u8>> = EXAMPLES.iter().map(|example| Lent::of(example).pages).chain([of_all_figures()]).collect();
    let mut wanted = any_figures();
    let (mut there, mut back) = (tally(&wanted), tally(&wanted));
    for (place, pages) in segments.iter().enumerate() {
        let refused = [8, 10, 13].contains(&place);
        assert_eq!(SlottedPages::new(pages).fill_report(&mut there).is_err(), refused, "segment {place}");
        if !refused {
            wanted = sum(&wanted, &figures_of(pages));
        }
        assert_eq!(figures(&there), wanted, "segment {place}");
    }
    for pages in segments.iter().rev() {
        let _ = SlottedPages::new(pages).fill_report(&mut back);
    }
    assert_eq!(there, back);
    // as one segment
    let added: Vec<&[u8]> = segments.iter().map(|pages| &pages[..]).filter(|pages| report(pages, &[0; 23]).0.is_ok()).collect();
    assert_eq!(report(&added.concat(), &any_figures()), (Ok(()), wanted));
}

/// What a scan gives, in a store that was written to for a while.
#[test]
fn records_are_those_of_the_scan() {
    let mut lent = Lent::with(5, &[900; 70]);
    for slot in 0..10 {
        assert_eq!(lent.calls().write_record(Rid::new(0, slot), &row(1500 + 11 * slot as usize, 3)), Ok(()));
        assert_eq!(lent.calls().erase_record(Rid::new(1, 2 * slot % 17)), Ok(()));
    }
    let rows: Vec<usize> = lent.calls().scan().map(|step| step.unwrap().1.len()).collect();
    let of = figures_of(&lent.pages);
    assert_eq!((of[RECORDS], of[BYTES]), (rows.len() as u64, rows.iter().sum::<usize>() as u64));
    assert!(of[FORWARDED] > 0 && of[SLOTS] > of[RECORDS] + of[FORWARDED]);
}

#[test]
fn a_tally_in_words() {
    let words = |figures: &Figures| tally(figures).to_string();
    assert_eq!(
        words(&EXAMPLES[3].after),
        "pages                   3\n\
         fresh pages             0\n\
         slots                   4\n\
         records                 3\n\
         record bytes       33,000\n\
         forwarded records       1\n\
         free bytes         16,076  32.7 % of the bytes of pages in use\n\
         pages of class 3        1  4,094 to 6,487 bytes used\n\
         pages of class 8        1  11,491 to 12,279 bytes used\n\
         pages of class 15       1  15,584 to 16,372 bytes used"
    );
    assert_eq!(
        words(&EXAMPLES[9].after),
        "pages                   2\n\
         fresh pages             1\n\
         slots                   1\n\
         records                 1\n\
         record bytes            4\n\
         forwarded records       1\n\
         free bytes         16,352  99.8 % of the bytes of pages in use\n\
         pages of class 0        1  fresh\n\
         pages of class 2        1  1 to 4,093 bytes used"
    );
    assert_eq!(
        Tally::default().to_string(),
        "pages              0\n\
         fresh pages        0\n\
         slots              0\n\
         records            0\n\
         record bytes       0\n\
         forwarded records  0\n\
         free bytes         0"
    );
}

/// What no reports leave: the share is of pages in use, if there are any, and each class has its line.
#[test]
fn any_tally_in_words() {
    let most = tally(&[u64::MAX; 23]).to_string();
    assert_eq!(most.lines().count(), 23);
    assert!(most.lines().all(|line| line[19..].starts_with("18,446,744,073,709,551,615")));
    assert!(most.contains("\nfree bytes         18,446,744,073,709,551,615\npages of class 0   18"));
    assert!(most.contains("\npages of class 1   18,446,744,073,709,551,615  no byte used\n"));
    let line = |pages, fresh_pages, free_bytes| Tally { pages, fresh_pages, free_bytes, ..Tally::default() }.to_string();
    assert!(line(1, 2, 5).ends_with("\nfree bytes         5"));
    assert!(line(7, 7, 0).ends_with("\nfree bytes         0"));
    assert!(line(1, 0, 0).ends_with("\nfree bytes         0  0.0 % of the bytes of pages in use"));
    assert!(line(1, 0, 16_384).ends_with("\nfree bytes         16,384  100.0 % of the bytes of pages in use"));
    assert!(line(u64::MAX, 0, u64::MAX).ends_with("  0.0 % of the bytes of pages in use"));
    assert!(line(3, 2, 8_200).ends_with("  50.0 % of the bytes of pages in use"));
    assert!(line(3, 2, 8_201).ends_with("  50.1 % of the bytes of pages in use"));
    assert_eq!(format!("{:?}", Tally { slots: 5, ..Tally::default() }).matches('5').count(), 1);
}

#[test]
fn the_refusal_in_words() {
    assert_eq!(Refusal::Tally.to_string(), "9 TALLY: a figure of the tally would pass 2^64 - 1");
}
