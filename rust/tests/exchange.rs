//! The bench exchange file, of document 02's Ask 7, through the public calls: its worked examples with every number and byte, refusals
//! that change nothing, files cut off, changed and of any bytes, and round trips.

mod exchange_examples;
mod lent;

use exchange_examples::{b_of, exports, imports, Call, Export, A, A_STORED, B, B_STORED, KEPT};
use hekatosuy::{Exported, Refusal, Rid, SlottedPageSegment, SlottedPages, Stopped, MAX_PAGES, PAGE_SIZE};
use lent::{row, Lent};

/// The records of a file as the store has them, or what is wrong with it: the request's tests in their order.
fn parse(file: &[u8]) -> Result<Vec<Vec<u8>>, Refusal> {
    let (mut records, mut left) = (vec![], file);
    while !left.is_empty() {
        if left.len() < 12 {
            return Err(Refusal::Short);
        }
        if left[..2] != [0x52, 0x54] {
            return Err(Refusal::Mark);
        }
        let length = usize::from(u16::from_be_bytes([left[10], left[11]]));
        if length > 16356 {
            return Err(Refusal::Long);
        }
        let data = left.get(12..12 + length).ok_or(Refusal::Short)?;
        records.push([&left[2..10], data].concat());
        left = &left[12 + length..];
    }
    Ok(records)
}

/// The file of these records.
fn file_of<'a>(records: impl IntoIterator<Item = &'a [u8]>) -> Vec<u8> {
    let piece = |record: &[u8]| [&[0x52, 0x54][..], &record[..8], &(record.len() as u16 - 8).to_be_bytes(), &record[8..]].concat();
    records.into_iter().flat_map(piece).collect()
}

impl Lent {
    /// Imports a file, and in a copy inserts its records one at a time: answers and every byte must be equal. A file that is none must
    /// be refused, and no byte may change.
    fn import(&mut self, file: &[u8]) -> Result<u64, Stopped> {
        let mut apart = self.clone();
        let told = self.calls().import(file);
        let wanted = match parse(file) {
            Err(refusal) => Err(Stopped { rows: 0, refusal }),
            Ok(records) => {
                let goes_in = |rows: usize| match apart.calls().insert_record(&records[rows]) {
                    Err(refusal) => Some(Stopped { rows, refusal }),
                    Ok(_) => None,
                };
                (0..records.len()).find_map(goes_in).map_or(Ok(records.len() as u64), Err)
            }
        };
        assert_eq!(told, wanted);
        assert!(self.pages == apart.pages, "other pages than one at a time, or a refused file changes one");
        assert!(self.inventory == apart.inventory, "another inventory than one at a time, or a refused file changes it");
        told
    }

    /// The records that a scan gives.
    fn records(&self) -> Vec<Vec<u8>> {
        SlottedPages::new(&self.pages).scan().map(|step| step.unwrap().1.to_vec()).collect()
    }

    /// The readings and how many records are none, by a scan.
    fn readings(&self) -> (Vec<Vec<u8>>, u64) {
        let (readings, others): (Vec<_>, Vec<_>) = self.records().into_iter().partition(|record| record.len() >= 8);
        (readings, others.len() as u64)
    }

    /// Exports into so much room, each byte `KEPT`, and asks for the length: what was told, and the place.
    fn export(&self, room: usize) -> (Result<Exported, Refusal>, Vec<u8>) {
        let (before, mut place) = (self.pages.clone(), vec![KEPT; room]);
        let pages = SlottedPages::new(&self.pages);
        let (told, asked) = (pages.export(&mut place), pages.exported());
        assert!(self.pages == before);
        match told {
            Ok(told) => {
                assert_eq!(asked, Ok(told));
                assert!(place[told.length..].iter().all(|&byte| byte == KEPT), "a byte behind the file is written");
            }
            Err(refusal) => {
                assert!(place.iter().all(|&byte| byte == KEPT), "a refused export writes");
                match refusal {
                    Refusal::Room => assert!(asked.unwrap().length > room),
                    _ => assert_eq!(asked, Err(refusal)),
                }
            }
        }
        (told, place)
    }

    /// Exports with as much room as there has to be: the file, and how many records were passed over.
    fn file(&self) -> (Vec<u8>, u64) {
        let (told, mut place) = self.export(self.pages.len());
        let told = told.unwrap();
        place.truncate(told.length);
        (place, told.passed)
    }

    /// What an example exports.
    fn of(example: &Export) -> Lent {
        let mut lent = Lent::new(example.pages);
        for call in &example.calls {
            match call {
                Call::Insert(record) => lent.calls().insert_record(record).map(|_| ()),
                Call::Write(page, slot, record) => lent.calls().write_record(Rid::new(*page, *slot), record),
            }
            .unwrap_or_else(|refusal| panic!("{}: {refusal}", example.title));
        }
        example.set.iter().for_each(|(from, bytes)| lent.pages[*from..][..bytes.len()].copy_from_slice(bytes));
        lent
    }
}

#[test]
fn the_worked_examples_of_import() {
    for example in imports() {
        let mut lent = Lent::new(example.pages);
        let told = lent.import(&example.file);
        let wanted = match Refusal::from_number(example.answer) {
            None => Ok(example.inserted),
            Some(refusal) => Err(Stopped { rows: example.inserted as usize, refusal }),
        };
        assert_eq!(told, wanted, "{}", example.title);
        assert!(example.inserted > 0 || lent == Lent::new(example.pages), "{}: a byte changed", example.title);
        for (from, bytes) in &example.left {
            assert!(lent.pages[*from..][..bytes.len()] == bytes[..], "{}: other bytes from {from} on", example.title);
        }
    }
}

#[test]
fn the_worked_examples_of_export() {
    for example in exports() {
        let (told, place) = Lent::of(&example).export(example.place.len());
        let wanted = match Refusal::from_number(example.answer) {
            None => Ok(Exported { length: example.length as usize, passed: example.passed }),
            Some(refusal) => Err(refusal),
        };
        assert_eq!(told, wanted, "{}", example.title);
        assert!(place == example.place, "{}: another place", example.title);
        let numbers = Exported { length: example.length as usize, passed: example.passed };
        let asked = SlottedPages::new(&Lent::of(&example).pages).exported();
        assert_eq!(asked, if example.answer == 4 { Err(Refusal::Damaged) } else { Ok(numbers) }, "{}", example.title);
    }
}

#[test]
fn there_are_fifteen_examples() {
    let titles = imports().into_iter().map(|import| import.title).chain(exports().into_iter().map(|export| export.title));
    let mut numbers: Vec<u32> = titles.map(|title| title.split('.').next().unwrap().parse().unwrap()).collect();
    numbers.sort_unstable();
    assert_eq!(numbers, (1..=15).collect::<Vec<_>>());
}

/// Example 15 says it: what 14 exports is refused by as many pages, and one more takes it.
#[test]
fn the_export_of_14_needs_a_second_page() {
    let lent = Lent::of(&exports()[4]);
    let (file, _) = lent.file();
    assert_eq!(Lent::new(1).import(&file), Err(Stopped { rows: 1, refusal: Refusal::Full }));
    let mut two = Lent::new(2);
    assert_eq!(two.import(&file), Ok(2));
    assert_eq!(two.records(), lent.records());
}

#[test]
fn answer_1_comes_before_the_file() {
    let files: [&[u8]; 4] = [&[], &A[..11], &[0; 12], &b_of(0xFFFF, &[])];
    for (pages, inventory) in [(16383, 16384), (16385, 16384), (1, 16384), (16384, 16383), (16384, 16385), (16384, 0)] {
        for file in files {
            let mut lent = Lent::of_bytes(pages, inventory);
            assert_eq!(lent.calls().import(file), Err(Stopped { rows: 0, refusal: Refusal::Size }));
            assert!(lent == Lent::of_bytes(pages, inventory));
        }
        if pages != 16384 {
            for bytes in [0, 0xA5] {
                let lent = Lent { pages: vec![bytes; pages], inventory: vec![] };
                assert_eq!(lent.export(0).0, Err(Refusal::Size));
                assert_eq!(lent.export(100).0, Err(Refusal::Size));
            }
        }
    }
}

#[test]
fn the_most_pages_and_one_more() {
    let (mut pages, mut inventory) = (vec![0; (MAX_PAGES + 1) * PAGE_SIZE], vec![0; PAGE_SIZE]);
    let mut place = [KEPT; 15];
    let size = Err(Stopped { rows: 0, refusal: Refusal::Size });
    assert_eq!(SlottedPageSegment::new(&mut pages, &mut inventory).import(&A), size);
    assert_eq!(SlottedPages::new(&pages).export(&mut place), Err(Refusal::Size));
    pages.truncate(MAX_PAGES * PAGE_SIZE);
    assert_eq!(SlottedPageSegment::new(&mut pages, &mut inventory).import(&A), Ok(1));
    assert_eq!(SlottedPages::new(&pages).export(&mut place), Ok(Exported { length: 15, passed: 0 }));
    assert_eq!(place, A);
    pages[(MAX_PAGES - 1) * PAGE_SIZE + 11] = 1;
    assert_eq!(SlottedPages::new(&pages).export(&mut place[..3]), Err(Refusal::Damaged));
}

#[test]
fn no_pages() {
    assert_eq!(Lent::new(0).import(&[]), Ok(0));
    assert_eq!(Lent::new(0).import(&A), Err(Stopped { rows: 0, refusal: Refusal::Full }));
    assert_eq!(Lent::new(0).import(&A[..14]), Err(Stopped { rows: 0, refusal: Refusal::Short }));
    assert_eq!(Lent::new(0).export(0), (Ok(Exported { length: 0, passed: 0 }), vec![]));
    assert_eq!(Lent::new(3).export(2), (Ok(Exported { length: 0, passed: 0 }), vec![KEPT; 2]));
}

/// The four tests of one record are made before the next is looked at, and all before anything is stored.
#[test]
fn the_order_of_the_files_refusals() {
    let marked_wrong = [&[0x52, 0x53][..], &B[2..]].concat();
    let long = b_of(16357, &[]);
    let cut = b_of(16356, &[1; 16355]);
    for (refusal, file) in [
        (Refusal::Mark, [&A[..], &marked_wrong, &long].concat()),
        (Refusal::Long, [&A[..], &long, &marked_wrong].concat()),
        (Refusal::Short, [&A[..], &cut].concat()),
        (Refusal::Long, [&A[..], &long, &cut].concat()),
        (Refusal::Mark, [&A[..], &[0x53], &B[1..11], &[0]].concat()),
        (Refusal::Short, [&A[..], &marked_wrong[..11]].concat()),
        (Refusal::Short, [&A[..], &[0]].concat()),
    ] {
        // also where an insert would be refused: no page has room, or the page is damaged
        for mut lent in [Lent::new(2), Lent::new(0), Lent { pages: vec![0xA5; PAGE_SIZE], inventory: vec![0; PAGE_SIZE] }] {
            assert_eq!(lent.import(&file), Err(Stopped { rows: 0, refusal }));
        }
    }
}

/// Bytes that a mark and lengths are among.
fn mixed_file() -> Vec<u8> {
    let tricky = [&[0x52, 0x54, 0x52, 0x54, 0x52, 0x54, 0x52, 0x54][..], &A, &B].concat();
    file_of([&A_STORED[..], &B_STORED, &row(300, 9), &tricky, &row(8, 3), &A_STORED])
}

#[test]
fn a_file_cut_off_anywhere() {
    let file = mixed_file();
    let whole: Vec<usize> = (0..=file.len()).filter(|&end| parse(&file[..end]).is_ok()).collect();
    assert_eq!(whole, [0, 15, 27, 331, 370, 382, 397]);
    let lent = Lent::with(2, &[20, 7]);
    for end in 0..=file.len() {
        let told = lent.clone().import(&file[..end]);
        match whole.iter().position(|&border| border == end) {
            Some(records) => assert_eq!(told, Ok(records as u64)),
            None => assert_eq!(told, Err(Stopped { rows: 0, refusal: Refusal::Short }), "cut off at {end}"),
        }
    }
}

#[test]
fn a_byte_changed_anywhere() {
    let file = mixed_file();
    let (lent, mut stored, mut refused) = (Lent::with(2, &[20, 7]), 0, [0; 14]);
    for place in 0..file.len() {
        for bits in [1, 6, 0x40, 0xFF] {
            let mut changed = file.clone();
            changed[place] ^= bits;
            match lent.clone().import(&changed) {
                Ok(_) => stored += 1,
                Err(stopped) => refused[stopped.refusal.number() as usize] += 1,
            }
        }
    }
    assert!(stored > 800 && refused[3] > 0 && refused[12] > 0 && refused[13] > 0, "{stored}, {refused:?}");
}

/// Repeatable numbers.
struct Random(u64);

impl Random {
    fn next(&mut self) -> u64 {
        self.0 = self.0.wrapping_add(0x9E37_79B9_7F4A_7C15);
        let mixed = (self.0 ^ (self.0 >> 30)).wrapping_mul(0xBF58_476D_1CE4_E5B9);
        mixed ^ (mixed >> 29)
    }

    fn below(&mut self, end: usize) -> usize {
        (self.next() % end as u64) as usize
    }
}

#[test]
fn files_of_any_bytes() {
    let mut random = Random(1);
    let (lent, mut told) = (Lent::with(2, &[20, 7]), [0; 14]);
    for _ in 0..3000 {
        let mut file: Vec<u8> = (0..random.below(60)).map(|_| random.next() as u8).collect();
        if random.below(4) > 0 {
            file.splice(..file.len().min(2), [0x52, 0x54]);
        }
        if random.below(2) > 0 && file.len() > 11 {
            let fits = file.len() as u8 - 12;
            (file[10], file[11]) = [(0, fits), (0, fits), (0, fits + 1), (0x3F, 0xE4), (0x3F, 0xE5)][random.below(5)];
        }
        told[lent.clone().import(&file).map_or_else(|stopped| stopped.refusal.number(), |_| 0) as usize] += 1;
    }
    assert!([0, 3, 12, 13].iter().all(|&number| told[number] > 100), "{told:?}");
}

#[test]
fn a_file_that_stopped_goes_on_with_more_pages() {
    let rows: Vec<Vec<u8>> = (0..4).map(|k| row(10_000, k)).collect();
    let file = file_of(rows.iter().map(Vec::as_slice));
    let mut lent = Lent::new(1);
    let mut stored = 0;
    while let Err(Stopped { rows, refusal }) = lent.import(&file[10_004 * stored..]) {
        assert_eq!((rows, refusal), (1, Refusal::Full));
        stored += rows;
        lent.pages.resize(lent.pages.len() + PAGE_SIZE, 0);
    }
    assert_eq!(lent.records(), rows);
    assert_eq!(lent.file(), (file, 0));
}

#[test]
fn into_a_segment_in_use() {
    let mut lent = Lent::with(2, &[100, 12_000, 5]);
    let before = lent.records();
    assert_eq!(lent.import(&mixed_file()), Ok(6));
    assert_eq!(lent.records()[..3], before);
    assert_eq!(lent.records()[3..], parse(&mixed_file()).unwrap());
    assert!(lent.calls().is_sound());
}

#[test]
fn a_damaged_page_and_an_untrue_inventory_stop_an_import() {
    let rows: Vec<Vec<u8>> = (0..6).map(|k| row(10_000, k)).collect();
    for page in 0..6 {
        let mut lent = Lent::new(6);
        lent.pages[page * PAGE_SIZE + 11] = 1;
        let told = lent.import(&file_of(rows.iter().map(Vec::as_slice)));
        assert_eq!(told, Err(Stopped { rows: page, refusal: Refusal::Damaged }));
    }
    let mut lent = Lent::with(2, &[16000]);
    lent.inventory[13 * 8..14 * 8].fill(0);
    let told = lent.import(&file_of([20, 20, 1000, 20].map(|length| row(length, 1)).iter().map(Vec::as_slice)));
    assert_eq!(told, Err(Stopped { rows: 2, refusal: Refusal::Stale }));
}

#[test]
fn every_room() {
    let mut lent = Lent::new(2);
    assert_eq!(lent.import(&mixed_file()), Ok(6));
    assert!(lent.calls().insert_record(&[1; 7]).is_ok());
    let file = mixed_file();
    for room in 0..file.len() + 20 {
        let (told, place) = lent.export(room);
        if room < file.len() {
            assert_eq!(told, Err(Refusal::Room));
        } else {
            assert_eq!(told, Ok(Exported { length: file.len(), passed: 1 }));
            assert!(place[..file.len()] == file);
        }
    }
}

#[test]
fn answer_4_wherever_the_damaged_page_lies() {
    let sound = Lent::with(4, &[16_000, 16_000, 16_000, 16_000]);
    for page in 0..4 {
        let mut lent = sound.clone();
        lent.pages[page * PAGE_SIZE..][..12].fill(0xA5);
        for room in [0, 5, 16_004, 70_000] {
            assert_eq!(lent.export(room).0, Err(Refusal::Damaged), "page {page}, room {room}");
        }
    }
}

#[test]
fn records_of_zero_to_nine_bytes() {
    let lent = Lent::with(1, &[0, 1, 2, 3, 4, 5, 6, 7, 8, 9]);
    assert_eq!(lent.file(), (file_of([&row(8, 1)[..], &row(9, 1)]), 8));
}

/// What an export has of a page does not hang on other pages: a redirect without its target is none of its records, and a target that
/// nothing names is one.
#[test]
fn pages_of_a_segment_that_is_not_sound() {
    let example = &exports()[3];
    let lent = Lent::of(example);
    let of_pages = |from: usize, to: usize| Lent { pages: lent.pages[from * PAGE_SIZE..to * PAGE_SIZE].to_vec(), inventory: vec![] };
    assert_eq!(of_pages(1, 2).file().0, example.place[16_004..28_008]);
    assert_eq!(of_pages(2, 3).file().0, example.place[28_008..]);
}

/// A forwarded record's back id does not count: of 8 bytes it is a reading without data, and of 7 it is passed over.
#[test]
fn forwarded_records_by_their_own_bytes() {
    for length in [0, 1, 7, 8, 9] {
        let mut lent = Lent::with(1, &[8 + length]);
        lent.pages[12] = 0xC0; // a target that nothing names
        let record = &row(8 + length, 1)[8..];
        assert_eq!(lent.records(), [record]);
        assert_eq!(lent.file(), if length < 8 { (vec![], 1) } else { (file_of([record]), 0) });
    }
}

/// A page that is full of records of one length, which no inserts need have made.
fn full_of(length: usize) -> Lent {
    let count = 16_372 / (8 + length);
    let (start, free) = (PAGE_SIZE - count * length, 16_372 - count * (8 + length));
    let mut header = [count as u16, count as u16].map(u16::to_be_bytes).concat();
    header.extend([start as u32, free as u32].map(u32::to_be_bytes).concat());
    (0..count).for_each(|k| header.extend([(start + k * length) as u32, length as u32].map(u32::to_be_bytes).concat()));
    let mut lent = Lent::new(1);
    lent.pages.fill(7);
    lent.pages[..header.len()].copy_from_slice(&header);
    lent
}

/// The file is never longer than the segment.
#[test]
fn as_much_room_as_the_segment_has() {
    for (length, readings) in [(8, 1_023), (9, 963), (56, 255), (1_000, 16), (8_178, 2), (16_364, 1)] {
        let (told, place) = full_of(length).export(PAGE_SIZE);
        assert_eq!(told, Ok(Exported { length: readings * (length + 4), passed: 0 }));
        assert_eq!(parse(&place[..readings * (length + 4)]), Ok(vec![vec![7; length]; readings]));
    }
    assert_eq!(full_of(7).export(0).0, Ok(Exported { length: 0, passed: 1_091 }));
    assert_eq!(full_of(0).export(9).0, Ok(Exported { length: 0, passed: 2_046 }));
}

/// A store that was written to for a while: inserts, writes and resizes that forward, erases.
fn used(random: &mut Random, pages: usize) -> Lent {
    let mut lent = Lent::new(pages);
    let mut ids: Vec<Rid> = vec![];
    let longest = [9, 40, 1_000, 5_000][random.below(4)];
    for turn in 0..60 * pages {
        let record = row(random.below(longest + 1), random.below(3));
        match (random.below(6), ids.is_empty()) {
            (0..=2, _) | (_, true) => ids.extend(lent.calls().insert_record(&record).ok()),
            (3, _) => drop(lent.calls().write_record(ids[turn % ids.len()], &record)),
            (4, _) => drop(lent.calls().resize_record(ids[turn % ids.len()], 2 * record.len())),
            _ => assert_eq!(lent.calls().erase_record(ids.swap_remove(turn % ids.len())), Ok(())),
        }
    }
    lent
}

#[test]
fn round_trips() {
    let mut random = Random(2);
    let (mut passed_over, mut twice, mut forwarded) = (0, 0, 0);
    for _ in 0..60 {
        let pages = 1 + random.below(5);
        let lent = used(&mut random, pages);
        let (readings, others) = lent.readings();
        let (file, passed) = lent.file();
        assert_eq!((&file, passed), (&file_of(readings.iter().map(Vec::as_slice)), others));
        assert_eq!(parse(&file).unwrap(), readings);
        let mut back = Lent::new(2 * pages + 1);
        assert_eq!(back.import(&file), Ok(readings.len() as u64));
        let (mut one, mut other) = (readings, back.records());
        one.sort_unstable();
        other.sort_unstable();
        assert!(one == other, "other readings after a round trip");
        passed_over += passed;
        twice += one.windows(2).filter(|two| two[0] == two[1]).count();
        let mut tally = hekatosuy::Tally::default();
        assert_eq!(SlottedPages::new(&lent.pages).fill_report(&mut tally), Ok(()));
        forwarded += tally.forwarded;
    }
    assert!(passed_over > 100 && twice > 20 && forwarded > 20, "{passed_over}, {twice}, {forwarded}");
}

#[test]
fn in_words() {
    assert_eq!(Refusal::Room.to_string(), "11 ROOM: what is to be written does not fit in the place lent for it");
    assert_eq!(Refusal::Mark.to_string(), "12 MARK: a record of the file does not begin with 52 54");
    assert_eq!(Refusal::Short.to_string(), "13 SHORT: the file ends within a record");
    let words = |rows, refusal| Stopped { rows, refusal }.to_string();
    assert_eq!(words(0, Refusal::Mark), format!("no row went in: {}", Refusal::Mark));
    assert_eq!(words(0, Refusal::Short), format!("no row went in: {}", Refusal::Short));
    assert_eq!(words(0, Refusal::Long), "no row went in: 3 LONG: the size is above 16,364");
    let told = Exported { length: 27, passed: 1 };
    assert_eq!(format!("{told:?}"), "Exported { length: 27, passed: 1 }");
}
