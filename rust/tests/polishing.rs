//! The polishing rule, of document 02's Ask 9, through the public calls: its worked examples and which readings are whole in each, its
//! refusals, what spoils a reading and what does not, every set of a few readings, and stores that were written to for a while.

mod lent;
mod polishing_examples;

use hekatosuy::{Refusal, Rid, SlottedPages, MAX_PAGES, PAGE_SIZE};
use lent::Lent;
use polishing_examples::{record, Call, Example, EXAMPLES};
use std::collections::BTreeMap;

/// The 8 bytes of mirror, reading and row.
fn head(mirror: u32, reading: u16, row: u16) -> Vec<u8> {
    [&mirror.to_be_bytes()[..], &reading.to_be_bytes(), &row.to_be_bytes()].concat()
}

/// The heads of mirror 7's readings, each with these rows.
fn heads<'a>(readings: impl IntoIterator<Item = (u16, &'a [u16])>) -> Vec<Vec<u8>> {
    readings.into_iter().flat_map(|(reading, rows)| rows.iter().map(move |&row| head(7, reading, row))).collect()
}

/// By a count of each row of each reading among what a scan gives.
fn whole_by_scan(pages: &[u8], mirror: u32, rows: u64) -> Vec<u16> {
    let mut times: BTreeMap<u16, BTreeMap<u16, u64>> = BTreeMap::new();
    for step in SlottedPages::new(pages).scan() {
        if let &[a, b, c, d, e, f, g, h, ..] = step.unwrap().1 {
            if u32::from_be_bytes([a, b, c, d]) == mirror {
                *times.entry(u16::from_be_bytes([e, f])).or_default().entry(u16::from_be_bytes([g, h])).or_default() += 1;
            }
        }
    }
    let is_whole = |times: &BTreeMap<u16, u64>| times.iter().map(|(&row, &times)| (u64::from(row), times)).eq((0..rows).map(|row| (row, 1)));
    times.into_iter().filter(|(_, times)| is_whole(times)).map(|(reading, _)| reading).collect()
}

/// The rule sheet.
fn is_cleared(whole: &[u16], edition: u64) -> bool {
    let mounted = whole.iter().filter(|&&reading| reading < 32_768).count();
    match edition {
        1 => whole.len() >= 2,
        _ => whole.len() >= 3 && mounted >= 1 && mounted < whole.len(),
    }
}

impl Lent {
    /// What an example asks about.
    fn of(example: &Example) -> Lent {
        let mut lent = Lent::of_bytes(example.bytes, PAGE_SIZE);
        for call in example.calls {
            match *call {
                Call::Row(reading, row) => lent.calls().insert_record(&record(reading, row)).map(|_| ()),
                Call::Insert(bytes) => lent.calls().insert_record(bytes).map(|_| ()),
                Call::Erase(page, slot) => lent.calls().erase_record(Rid::new(page, slot)),
            }
            .unwrap_or_else(|refusal| panic!("{}: {refusal}", example.title));
        }
        example.set.iter().for_each(|&(offset, byte)| lent.pages[offset] = byte);
        lent
    }

    /// So many pages into which these records went.
    fn of_records(pages: usize, records: &[Vec<u8>]) -> Lent {
        let mut lent = Lent::new(pages);
        for record in records {
            lent.insert(record);
        }
        lent
    }

    fn insert(&mut self, record: &[u8]) -> Rid {
        self.calls().insert_record(record).unwrap()
    }

    /// The whole readings of a mirror, and the answers by both editions: those of a count by the scan, and no byte changed.
    fn whole_of(&self, mirror: u32, rows: u64) -> Vec<u16> {
        let before = self.pages.clone();
        let pages = SlottedPages::new(&self.pages);
        let whole = pages.whole_readings(mirror, rows).unwrap();
        assert_eq!(whole, whole_by_scan(&self.pages, mirror, rows));
        for edition in [1, 2] {
            assert_eq!(pages.cleared(mirror, rows, edition), Ok(is_cleared(&whole, edition)), "edition {edition}");
        }
        assert!(self.pages == before);
        whole
    }

    fn whole(&self, rows: u64) -> Vec<u16> {
        self.whole_of(7, rows)
    }

    /// What both calls answer, where they are refused alike.
    fn refused(&self, rows: u64, edition: u64) -> Refusal {
        let pages = SlottedPages::new(&self.pages);
        let refusal = pages.cleared(7, rows, edition).unwrap_err();
        if (1..=2).contains(&edition) {
            assert_eq!(pages.whole_readings(7, rows), Err(refusal));
        }
        refusal
    }
}

/// Mirror 7 is cleared by both editions, on three pages of which each has a row that it needs.
fn cleared_on_three_pages() -> Lent {
    let mut lent = Lent::new(3);
    for reading in [1_u16, 32_767, 32_768] {
        lent.insert(&[head(7, reading, 0), vec![0xDD; 16_000]].concat());
    }
    assert_eq!(lent.whole(1), [1, 32_767, 32_768]);
    assert_eq!(SlottedPages::new(&lent.pages).cleared(7, 1, 2), Ok(true));
    lent
}

#[test]
fn the_worked_examples() {
    for example in &EXAMPLES {
        let lent = Lent::of(example);
        let pages = SlottedPages::new(&lent.pages);
        // the crate takes a mirror of 32 bits: number 16 cannot be asked by it
        let Ok(mirror) = u32::try_from(example.mirror) else {
            assert!(example.title.starts_with("16."));
            continue;
        };
        let wanted = Refusal::from_number(example.answer).map_or(Ok(example.cleared == 1), Err);
        assert_eq!(pages.cleared(mirror, example.rows, example.edition), wanted, "{}", example.title);
        let listed = Refusal::from_number(example.listed).map_or(Ok(example.whole.to_vec()), Err);
        assert_eq!(pages.whole_readings(mirror, example.rows), listed, "{}", example.title);
        assert!(lent == Lent::of(example), "{}: a byte is changed", example.title);
    }
}

#[test]
fn there_are_seventeen_examples() {
    let mut numbers: Vec<u32> = EXAMPLES.iter().map(|example| example.title.split('.').next().unwrap().parse().unwrap()).collect();
    assert_eq!(numbers.iter().filter(|&&number| number == 14).count(), 3);
    numbers.dedup();
    assert_eq!(numbers, (1..=17).collect::<Vec<_>>());
}

#[test]
fn answer_1_comes_first() {
    for length in [1, 16_383, 16_385, 3 * PAGE_SIZE - 1] {
        for bytes in [0, 0xA5] {
            let lent = Lent { pages: vec![bytes; length], inventory: vec![] };
            for (rows, edition) in [(1, 1), (2_048, 2), (0, 1), (2_049, 2), (1, 3), (0, 0)] {
                assert_eq!(lent.refused(rows, edition), Refusal::Size);
            }
        }
    }
}

#[test]
fn the_most_pages_and_one_more() {
    let mut lent = Lent::new(MAX_PAGES + 1);
    assert_eq!(lent.refused(1, 1), Refusal::Size);
    lent.pages.truncate(MAX_PAGES * PAGE_SIZE);
    for record in heads([(5, &[0][..]), (65_535, &[0])]) {
        lent.insert(&record);
    }
    let pages = SlottedPages::new(&lent.pages);
    assert_eq!((pages.whole_readings(7, 1), pages.cleared(7, 1, 1)), (Ok(vec![5, 65_535]), Ok(true)));
    lent.pages[(MAX_PAGES - 1) * PAGE_SIZE + 11] = 1;
    assert_eq!(lent.refused(1, 1), Refusal::Damaged);
}

#[test]
fn no_pages() {
    for lent in [Lent::new(0), Lent::new(2)] {
        assert_eq!(lent.whole(1), []);
        assert_eq!(lent.whole(2_048), []);
        assert_eq!(lent.refused(2_049, 1), Refusal::Rule);
    }
}

/// Before the pages are looked at, and each number as it is: none is cut to fewer bits.
#[test]
fn answer_14_by_edition_and_rows() {
    let wide = [1 << 16, 1 << 32, 1 << 63];
    let editions = [0, 3, 4, u64::MAX].into_iter().chain(wide.iter().flat_map(|more| [more + 1, more + 2]));
    let rows = [0, 2_049, 2_050, 4_096, u64::MAX].into_iter().chain(wide.iter().flat_map(|more| [more + 1, more + 2, more + 2_048]));
    let sound = cleared_on_three_pages();
    let damaged = Lent { pages: vec![0xA5; PAGE_SIZE], inventory: vec![] };
    for lent in [&sound, &damaged] {
        editions.clone().for_each(|edition| assert_eq!(lent.refused(1, edition), Refusal::Rule, "edition {edition}"));
        rows.clone().for_each(|rows| assert_eq!(lent.refused(rows, 1), Refusal::Rule, "{rows} rows"));
        rows.clone().for_each(|rows| assert_eq!(lent.refused(rows, 3), Refusal::Rule, "{rows} rows, edition 3"));
    }
    for rows in [1, 2, 2_047, 2_048] {
        assert_eq!(SlottedPages::new(&sound.pages).cleared(7, rows, 2), Ok(rows == 1));
        assert_eq!(damaged.refused(rows, 2), Refusal::Damaged);
    }
}

/// Also where it could hold nothing, and the pages before it say yes.
#[test]
fn answer_4_wherever_the_damaged_page_lies() {
    let sound = cleared_on_three_pages();
    for page in 0..3 {
        let mut lent = sound.clone();
        lent.pages[page * PAGE_SIZE..][..12].fill(0xA5);
        assert_eq!((lent.refused(1, 1), lent.refused(1, 2)), (Refusal::Damaged, Refusal::Damaged), "page {page}");
    }
    for place in 0..4 {
        let mut lent = sound.clone();
        let mut page = vec![0; PAGE_SIZE];
        page[1] = 1;
        lent.pages.splice(place * PAGE_SIZE..place * PAGE_SIZE, page);
        assert_eq!((lent.refused(1, 1), lent.refused(1, 2)), (Refusal::Damaged, Refusal::Damaged), "place {place}");
        lent.pages[place * PAGE_SIZE + 1] = 0;
        assert_eq!(lent.whole(1), [1, 32_767, 32_768]);
    }
}

#[test]
fn each_row_is_needed_once() {
    const ROWS: u16 = 70;
    let all: Vec<u16> = (0..ROWS).collect();
    for row in 0..ROWS {
        let less: Vec<u16> = all.iter().copied().filter(|&other| other != row).collect();
        let twice: Vec<u16> = all.iter().copied().chain([row]).collect();
        let instead: Vec<u16> = less.iter().copied().chain([(row + 1) % ROWS]).collect();
        let lent = Lent::of_records(4, &heads([(1, &all[..]), (2, &less), (3, &twice), (4, &instead), (5, &all)]));
        assert_eq!(lent.whole(ROWS.into()), [1, 5], "row {row}");
    }
}

#[test]
fn the_most_rows() {
    let all: Vec<u16> = (0..2_048).collect();
    let others: [Vec<u16>; 5] = [
        all[1..].to_vec(),
        all[..2_047].to_vec(),
        all.iter().copied().chain([2_048]).collect(),
        all.iter().copied().chain([2_047]).collect(),
        all.iter().copied().chain([65_535]).collect(),
    ];
    let readings = [(10, &all), (20, &others[0]), (30, &others[1]), (32_768, &all), (40, &others[2]), (50, &others[3]), (63, &others[4]), (65_535, &all)];
    let mut records = heads(readings.map(|(reading, rows)| (reading, &rows[..])));
    let turned = records.len() / 2;
    records.rotate_left(turned);
    let lent = Lent::of_records(24, &records);
    assert_eq!(lent.whole(2_048), [10, 32_768, 65_535]);
    assert_eq!(lent.whole(2_047), [30]);
    assert_eq!(lent.refused(2_049, 1), Refusal::Rule);
}

#[test]
fn another_row_spoils() {
    for rows in [1_u16, 2, 63, 64, 65] {
        let all: Vec<u16> = (0..rows).collect();
        for other in [rows, rows + 1, 255, 256, 256 + rows - 1, 2_047, 2_048, 32_768, 65_280, 65_535] {
            let spoiled: Vec<u16> = all.iter().copied().chain([other]).collect();
            let lent = Lent::of_records(2, &heads([(1, &all[..]), (2, &spoiled), (32_768, &all), (32_769, &[other])]));
            assert_eq!(lent.whole(rows.into()), [1, 32_768], "{rows} rows, and {other}");
        }
    }
}

/// A word's first and last, each side's, and every twenty-ninth number of all at once.
#[test]
fn each_reading_by_its_number() {
    for reading in [0, 1, 62, 63, 64, 65, 127, 128, 255, 256, 32_703, 32_704, 32_766, 32_767, 32_768, 32_769, 32_832, 65_471, 65_472, 65_534, 65_535] {
        let lent = Lent::of_records(1, &heads([(reading, &[1, 0][..]), (reading ^ 1, &[1]), (reading ^ 0x8000, &[0])]));
        assert_eq!(lent.whole(2), [reading]);
    }
    let every: Vec<u16> = (0..65_536_u32).step_by(29).map(|number| number as u16).collect();
    let lent = Lent::of_records(4, &heads(every.iter().map(|&reading| (reading, &[0][..]))));
    assert_eq!(lent.whole(1), every);
    assert_eq!(lent.whole(2), []);
}

/// All sets of eight readings of one row: exactly then, more never turns a yes into a no, and edition 2's yes implies edition 1's.
#[test]
fn every_set_of_readings() {
    const NUMBERS: [u16; 8] = [0, 63, 64, 32_767, 32_768, 32_769, 32_832, 65_535];
    let of_set = |set: usize| NUMBERS.iter().enumerate().filter(move |(k, _)| set >> k & 1 == 1).map(|(_, &reading)| reading);
    let answers: Vec<[bool; 2]> = (0..256)
        .map(|set| {
            let lent = Lent::of_records(1, &heads(of_set(set).map(|reading| (reading, &[0][..]))));
            assert!(lent.whole(1).into_iter().eq(of_set(set)));
            [1, 2].map(|edition| SlottedPages::new(&lent.pages).cleared(7, 1, edition).unwrap())
        })
        .collect();
    for (set, [first, second]) in answers.iter().enumerate() {
        assert!(*first || !second, "{set:b}");
        for more in (0..256).filter(|more| more & set == set) {
            assert!(answers[more][0] || !first, "{set:b}, {more:b}");
            assert!(answers[more][1] || !second, "{set:b}, {more:b}");
        }
    }
    assert_eq!(answers.iter().filter(|[first, _]| *first).count(), 256 - 9);
    assert_eq!(answers.iter().filter(|[_, second]| *second).count(), 15 * 15 - 16);
}

#[test]
fn other_mirrors_are_others() {
    for mirror in [0, 7, 0x0102_0304, 0x8000_0000, u32::MAX] {
        let mut lent = Lent::new(2);
        for other in (0..32).map(|bit| mirror ^ 1 << bit).chain([mirror.swap_bytes() ^ 1]) {
            lent.insert(&head(other, 1, 0));
            lent.insert(&head(other, 2, 0));
        }
        assert_eq!(lent.whole_of(mirror, 1), []);
        lent.insert(&head(mirror, 3, 0));
        assert_eq!(lent.whole_of(mirror, 1), [3]);
        assert_eq!(lent.whole_of(mirror ^ 1 << 31, 1), [1, 2]);
    }
}

/// They neither help nor spoil.
#[test]
fn records_of_zero_to_nine_bytes() {
    let of_reading = |reading: u16| [head(7, reading, 0), vec![0xDD]].concat();
    for length in 0..=9 {
        let mut lent = Lent::of_records(1, &heads([(1, &[0][..]), (2, &[0])]));
        lent.insert(&of_reading(2)[..length]);
        lent.insert(&of_reading(3)[..length]);
        lent.insert(&[0, 0, 0, 7, 0, 1, 0, 9, 0xDD][..length]);
        assert_eq!(lent.whole(1), if length < 8 { vec![1, 2] } else { vec![3] }, "{length} bytes");
    }
}

/// A row is erased, cut off, written over by another's, and gets other data.
#[test]
fn rows_that_were_changed() {
    let mut lent = Lent::of_records(2, &heads([(1, &[0, 1][..]), (2, &[0, 1])]));
    let twice = lent.insert(&head(7, 2, 1));
    assert_eq!(lent.whole(2), [1]);
    assert_eq!(lent.calls().resize_record(twice, 7), Ok(()));
    assert_eq!(lent.whole(2), [1, 2]);
    // the ninth byte and those behind it are data; cut off and grown again, row 256 is row 0
    assert_eq!(lent.calls().write_record(twice, &[head(7, 3, 256), vec![1; 300]].concat()), Ok(()));
    assert_eq!(lent.whole(2), [1, 2]);
    assert_eq!(lent.calls().resize_record(twice, 6), Ok(()));
    assert_eq!(lent.calls().resize_record(twice, 8), Ok(()));
    assert_eq!(lent.calls().write_record(Rid::new(0, 3), &head(7, 3, 1)), Ok(()));
    assert_eq!(lent.whole(2), [1, 3]);
    assert_eq!(lent.calls().erase_record(Rid::new(0, 0)), Ok(()));
    assert_eq!(lent.whole(2), [3]);
}

/// A record that moved counts where it lies, once; and so does a target that nothing names.
#[test]
fn forwarded_rows() {
    let mut lent = Lent::new(3);
    let first = lent.insert(&head(7, 1, 0));
    lent.insert(&head(7, 1, 1));
    lent.insert(&[head(8, 1, 0), vec![0xDD; 12_000]].concat());
    assert_eq!(lent.calls().resize_record(first, 6_000), Ok(()));
    let mut tally = hekatosuy::Tally::default();
    assert_eq!(SlottedPages::new(&lent.pages).fill_report(&mut tally), Ok(()));
    assert_eq!(tally.forwarded, 1);
    assert_eq!(lent.whole(2), [1]);
    // the page of the redirect alone, and that of its target alone
    let page = |number: usize| Lent { pages: lent.pages[number * PAGE_SIZE..][..PAGE_SIZE].to_vec(), inventory: vec![] };
    assert_eq!((page(0).whole(1), page(1).whole(1)), (vec![], vec![1]));
    // a back id that reads as a head counts for nothing
    let mut alone = Lent::of_records(1, &[[head(7, 1, 0), head(7, 2, 0)].concat()]);
    assert_eq!(alone.whole(1), [1]);
    alone.pages[12] = 0xC0;
    assert_eq!(alone.whole(1), [2]);
}

/// Repeatable numbers.
struct Random(u64);

impl Random {
    fn below(&mut self, end: usize) -> usize {
        self.0 = self.0.wrapping_add(0x9E37_79B9_7F4A_7C15);
        let mixed = (self.0 ^ (self.0 >> 30)).wrapping_mul(0xBF58_476D_1CE4_E5B9);
        ((mixed ^ (mixed >> 29)) % end as u64) as usize
    }
}

const FEW: [u16; 6] = [5, 63, 64, 32_767, 32_768, 65_535];

/// A store in which readings of three rows come and go, grow and move.
fn used(random: &mut Random) -> Lent {
    let (mut lent, mut ids) = (Lent::new(4), vec![]);
    lent.insert(&[head(8, 1, 0), vec![0xDD; 14_000]].concat());
    for reading in FEW {
        (0..3).for_each(|row| ids.push(lent.insert(&head(7, reading, row))));
    }
    for _ in 0..random.below(24) {
        let (any, reading) = (random.below(ids.len()), FEW[random.below(6)]);
        let record = [head(7, reading, random.below(4) as u16), vec![1; random.below(40)]].concat();
        match random.below(5) {
            0 => ids.extend(lent.calls().insert_record(&record).ok()),
            1 => drop(lent.calls().write_record(ids[any], &record)),
            2 => drop(lent.calls().resize_record(ids[any], [8, 9, 3_000, 6_000][random.below(4)])),
            _ if ids.len() > 1 => assert_eq!(lent.calls().erase_record(ids.swap_remove(any)), Ok(())),
            _ => {}
        }
    }
    lent
}

/// By the readings alone: a round trip by file keeps every answer, and so does another order of the inserts without data.
#[test]
fn round_trips() {
    let mut random = Random(9);
    let (mut yes, mut no, mut forwarded) = ([0; 2], [0; 2], 0);
    for _ in 0..60 {
        let lent = used(&mut random);
        let mut file = vec![0; lent.pages.len()];
        let length = SlottedPages::new(&lent.pages).export(&mut file).unwrap().length;
        let mut back = Lent::new(6);
        assert!(back.calls().import(&file[..length]).is_ok());
        let mut records: Vec<Vec<u8>> = SlottedPages::new(&lent.pages).scan().map(|step| step.unwrap().1[..8].to_vec()).collect();
        (1..records.len()).for_each(|k| records.swap(k, random.below(k + 1)));
        let again = Lent::of_records(1, &records);
        for rows in [3, 4] {
            assert_eq!(back.whole(rows), lent.whole(rows));
            assert_eq!(again.whole(rows), lent.whole(rows));
        }
        let told = [1, 2].map(|edition| SlottedPages::new(&lent.pages).cleared(7, 3, edition).unwrap() as usize);
        told.iter().enumerate().for_each(|(edition, &told)| [&mut no, &mut yes][told][edition] += 1);
        let mut tally = hekatosuy::Tally::default();
        assert_eq!(SlottedPages::new(&lent.pages).fill_report(&mut tally), Ok(()));
        forwarded += tally.forwarded;
    }
    assert!(yes.iter().chain(&no).all(|&times| times > 5) && forwarded > 30, "{yes:?}, {no:?}, {forwarded}");
}

#[test]
fn in_words() {
    assert_eq!(Refusal::Rule.to_string(), "14 RULE: another edition than 1 and 2, or rows outside 1 to 2,048");
}
