//! The model's import and export: the worked examples of document 02's Ask 7, and over generated files and stores what the request asks
//! of every exchange.

use crate::exchange_examples::{exports, imports, Call, Export, Import, KEPT};
use crate::files::{case, of_records, written, Case, Fault, Made};
use crate::fills::unseen;
use crate::random::Random;
use crate::slips::{check_noticed, Broken, SLIPS};
use crate::soundness::{has_sound_forwarding, has_true_inventory, is_sound};
use model::page::{self, slot, Kind};
use model::rows::insert_records;
use model::{exchange, Model};
use store::{Answer, Store, DONE, PAGE_SIZE};

/// The two calls, of the model or of another store, over any bytes.
pub trait Exchange {
    /// The answer, and how many records went in.
    fn import(&self, segment: &mut [u8], inventory: &mut [u8], file: &[u8]) -> (u64, u64);

    /// The answer, the file's length, and how many records were passed over.
    fn export(&self, segment: &[u8], place: &mut [u8]) -> (u64, u64, u64);
}

/// The model's calls.
pub struct Plain;

pub fn is_segment(segment: &[u8]) -> bool {
    segment.len() % PAGE_SIZE == 0 && segment.len() / PAGE_SIZE <= 32527
}

/// The corrected Rust, which can be lent whole pages only; else the model.
fn lend(segment: &[u8], inventory: &[u8]) -> Box<dyn Store> {
    if is_segment(segment) && inventory.len() == PAGE_SIZE {
        Box::new(corrected::LentStore::new(segment, inventory))
    } else {
        Box::new(Model::new(segment, inventory))
    }
}

impl Exchange for Plain {
    fn import(&self, segment: &mut [u8], inventory: &mut [u8], file: &[u8]) -> (u64, u64) {
        let mut store = lend(segment, inventory);
        let told = exchange::import(&mut *store, file);
        segment.copy_from_slice(store.segment());
        inventory.copy_from_slice(store.inventory());
        told
    }

    fn export(&self, segment: &[u8], place: &mut [u8]) -> (u64, u64, u64) {
        exchange::export(&mut *lend(segment, &[0; PAGE_SIZE]), place)
    }
}

store::meetings! {
    /// What an import or an export can meet.
    Met MEETINGS:
    Size "import, 1: wrong sizes"
    SizeFile "import, 1: before what is wrong with the file"
    ShortOne "import, 13: one byte left"
    ShortEleven "import, 13: eleven bytes left"
    ShortMark "import, 13: fewer than 12 bytes left, and another mark"
    ShortLater "import, 13: fewer than 12 bytes left behind whole records"
    MarkFirst "import, 12: by its first byte alone"
    MarkSecond "import, 12: by its second byte alone"
    MarkTurned "import, 12: 54 52"
    MarkLong "import, 12: before 3"
    MarkCut "import, 12: before the second 13"
    MarkLater "import, 12: behind whole records"
    LongLeast "import, 3: a length of 16,357"
    LongMost "import, 3: a length of 65,535"
    LongCut "import, 3: before the second 13"
    LongWhole "import, 3: with all of its data"
    LongLater "import, 3: behind whole records"
    CutAll "import, 13: no byte of the data"
    CutOne "import, 13: the data without its last byte"
    CutLongest "import, 13: data of 16,356 bytes cut off"
    CutLater "import, 13: the data cut off behind whole records"
    Empty "import, 0: no record"
    EmptyDamaged "import, 0: no record, on a damaged store"
    IntoZeros "import, 0: records into pages of zeros"
    IntoUse "import, 0: records into a sound store in use"
    IntoDamaged "import, 0: records into a store with a damaged page"
    IntoUntrue "import, 0: records over an inventory that is not true"
    NoData "import, 0: a record without data"
    Longest "import, 0: data of 16,356 bytes"
    Twice "import, 0: a record twice"
    CutBetween "import, 0: a file cut off between two records"
    ChangedWithin "import, 0: a byte changed in a record"
    FullFirst "import, 7: at the first record"
    FullLater "import, 7: at a later one"
    DamagedFirst "import, 4: at the first record"
    DamagedLater "import, 4: at a later one"
    StaleFirst "import, 8: at the first record"
    StaleLater "import, 8: at a later one"
    Many "import: more than two hundred records went in"
    WouldGoIn "import: a record behind the refused one that would go in"
    OutSize "export, 1: not whole pages"
    OutDamagedFirst "export, 4: on the first page"
    OutDamagedLater "export, 4: behind readings"
    OutDamagedRoom "export, 4: before 11 by the pages before the damaged one"
    RoomNone "export, 11: no room"
    RoomOne "export, 11: a byte too few"
    RoomPassed "export, 11: with records that are passed over"
    OutExact "export, 0: exact room"
    OutMore "export, 0: more room"
    OutNoPages "export, 0: no pages"
    OutNothing "export, 0: no record"
    OutPassedAll "export, 0: records, and no reading"
    OutSeven "export, 0: a record of 7 bytes passed over"
    OutEight "export, 0: a reading without data"
    OutLongest "export, 0: a reading of 16,364 bytes"
    OutTarget "export, 0: a forwarded reading"
    OutTargetEight "export, 0: a forwarded reading without data"
    OutTargetPassed "export, 0: a forwarded record passed over"
    OutAlone "export, 0: redirects and targets that are not sound"
    Back "round trip: as many pages"
    BackMore "round trip: more pages"
    BackTwice "round trip: a reading twice"
    BackFull "round trip: 7 with as many pages"
}

/// What was imported and exported, and met.
#[derive(Default)]
pub struct ExchangeCounts {
    pub cases: u64,
    /// Records that went in.
    pub inserted: u64,
    pub imports: [u64; 14],
    pub exports: [u64; 14],
    /// Bytes and records of exports that answered 0.
    pub bytes: u64,
    pub readings: u64,
    pub passed: u64,
    /// Exports that were imported whole.
    pub back: u64,
    pub met: Vec<u64>,
}

fn is_damaged(segment: &[u8]) -> bool {
    !segment.chunks(PAGE_SIZE).all(page::sound)
}

fn has_twice(records: &[Vec<u8>]) -> bool {
    let mut sorted: Vec<&Vec<u8>> = records.iter().collect();
    sorted.sort_unstable();
    sorted.windows(2).any(|two| two[0] == two[1])
}

/// A record of a file as it stands there: where it begins, and its length as the file tells it.
struct At<'a> {
    file: &'a [u8],
    begin: usize,
}

impl At<'_> {
    fn byte(&self, k: usize) -> Option<u8> {
        self.file.get(self.begin + k).copied()
    }

    /// Of the data, where it is there to be read.
    fn length(&self) -> usize {
        self.byte(10).zip(self.byte(11)).map_or(0, |(high, low)| usize::from(high) << 8 | usize::from(low))
    }

    /// The request's four tests, in its order: the first that holds.
    fn wrong(&self) -> Option<Fault> {
        let tests = [
            (Fault::Short, self.byte(11).is_none()),
            (Fault::Mark, (self.byte(0), self.byte(1)) != (Some(0x52), Some(0x54))),
            (Fault::Long, self.length() > 16356),
            (Fault::Cut, self.byte(11 + self.length()).is_none()),
        ];
        tests.into_iter().find_map(|(fault, holds)| holds.then_some(fault))
    }

    fn end(&self) -> usize {
        self.begin + 12 + self.length()
    }

    fn stored(&self) -> Vec<u8> {
        [&self.file[self.begin + 2..self.begin + 10], &self.file[self.begin + 12..self.end()]].concat()
    }
}

/// The whole records of a file up to the first that is not one, and what is wrong with that.
fn read(file: &[u8]) -> (Vec<Vec<u8>>, Option<(At<'_>, Fault)>) {
    let (mut records, mut begin) = (vec![], 0);
    while begin < file.len() {
        let at = At { file, begin };
        if let Some(fault) = at.wrong() {
            return (records, Some((at, fault)));
        }
        records.push(at.stored());
        begin = at.end();
    }
    (records, None)
}

/// What an import and the exports of a case were told.
pub struct Told {
    import: (u64, u64),
    after: Model,
    exports: Vec<Exported>,
    /// The answers to imports of what was exported, with as many pages and with more.
    back: Vec<u64>,
}

struct Exported {
    room: usize,
    told: (u64, u64, u64),
}

impl ExchangeCounts {
    fn meet(&mut self, met: Met) {
        self.meet_if(true, met);
    }

    fn meet_if(&mut self, is: bool, met: Met) {
        self.met.resize(MEETINGS.len(), 0);
        self.met[met as usize] += is as u64;
    }

    pub fn count(&mut self, case: &Case, told: &Told) {
        self.cases += 1;
        self.inserted += told.import.1;
        self.imports[told.import.0 as usize] += 1;
        self.meet_if(told.import.1 > 200, Met::Many);
        match (told.import.0, read(&case.file)) {
            (1, (_, wrong)) => {
                self.meet(Met::Size);
                self.meet_if(wrong.is_some(), Met::SizeFile);
            }
            (_, (records, Some((at, fault)))) => self.count_fault(&at, fault, !records.is_empty()),
            (0, (records, None)) => self.count_imported(case, &records),
            (_, (records, None)) => self.count_stop(&records, told),
        }
        told.exports.iter().for_each(|one| self.count_export(case, one));
        self.count_back(case, told);
    }

    fn count_fault(&mut self, at: &At, fault: Fault, later: bool) {
        let left = at.file.len() - at.begin;
        let mark = [at.byte(0), at.byte(1)];
        let is_cut = at.byte(11 + at.length()).is_none();
        match fault {
            Fault::Short => {
                self.meet_if(left == 1, Met::ShortOne);
                self.meet_if(left == 11, Met::ShortEleven);
                self.meet_if(left > 1 && mark != [Some(0x52), Some(0x54)], Met::ShortMark);
                self.meet_if(later, Met::ShortLater);
            }
            Fault::Mark => {
                self.meet_if(mark[1] == Some(0x54), Met::MarkFirst);
                self.meet_if(mark[0] == Some(0x52), Met::MarkSecond);
                self.meet_if(mark == [Some(0x54), Some(0x52)], Met::MarkTurned);
                self.meet_if(at.length() > 16356, Met::MarkLong);
                self.meet_if(at.length() <= 16356 && is_cut, Met::MarkCut);
                self.meet_if(later, Met::MarkLater);
            }
            Fault::Long => {
                self.meet_if(at.length() == 16357, Met::LongLeast);
                self.meet_if(at.length() == 65535, Met::LongMost);
                self.meet(if is_cut { Met::LongCut } else { Met::LongWhole });
                self.meet_if(later, Met::LongLater);
            }
            Fault::Cut => {
                self.meet_if(left == 12, Met::CutAll);
                self.meet_if(left == 11 + at.length(), Met::CutOne);
                self.meet_if(at.length() == 16356, Met::CutLongest);
                self.meet_if(later, Met::CutLater);
            }
        }
    }

    fn count_imported(&mut self, case: &Case, records: &[Vec<u8>]) {
        let damaged = is_damaged(&case.segment);
        let zeros = case.segment.iter().all(|&byte| byte == 0);
        self.meet(match records {
            [] if damaged => Met::EmptyDamaged,
            [] => Met::Empty,
            _ if damaged => Met::IntoDamaged,
            _ if !has_true_inventory(&case.segment, &case.inventory) => Met::IntoUntrue,
            _ if zeros => Met::IntoZeros,
            _ => Met::IntoUse,
        });
        self.meet_if(records.iter().any(|record| record.len() == 8), Met::NoData);
        self.meet_if(records.iter().any(|record| record.len() == 16364), Met::Longest);
        self.meet_if(has_twice(records), Met::Twice);
        self.meet_if(case.made == Made::CutOff && !records.is_empty() && records.len() < case.records.len(), Met::CutBetween);
        self.meet_if(case.made == Made::Changed && !records.is_empty(), Met::ChangedWithin);
    }

    fn count_stop(&mut self, records: &[Vec<u8>], told: &Told) {
        let (answer, inserted) = told.import;
        let [first, later] = match answer {
            7 => [Met::FullFirst, Met::FullLater],
            4 => [Met::DamagedFirst, Met::DamagedLater],
            _ => [Met::StaleFirst, Met::StaleLater],
        };
        self.meet(if inserted == 0 { first } else { later });
        let goes_in = |record: &Vec<u8>| Model::new(told.after.segment(), told.after.inventory()).insert_record(record).0 == DONE;
        self.meet_if(records.get(inserted as usize + 1).is_some_and(goes_in), Met::WouldGoIn);
    }

    fn count_export(&mut self, case: &Case, one: &Exported) {
        let (answer, length, passed) = one.told;
        let segment = &case.segment;
        self.exports[answer as usize] += 1;
        match answer {
            1 => self.meet(Met::OutSize),
            4 => {
                let first = segment.chunks(PAGE_SIZE).position(|page| !page::sound(page)).expect("a page is not sound");
                let before = exchange::export(&mut Model::new(&segment[..first * PAGE_SIZE], &[0; PAGE_SIZE]), &mut []);
                self.meet_if(first == 0, Met::OutDamagedFirst);
                self.meet_if(before.1 > 0, Met::OutDamagedLater);
                self.meet_if(before.1 > one.room as u64, Met::OutDamagedRoom);
            }
            11 => {
                self.meet_if(one.room == 0, Met::RoomNone);
                self.meet_if(one.room as u64 == length - 1, Met::RoomOne);
                self.meet_if(passed > 0, Met::RoomPassed);
            }
            _ => {
                self.meet_if(one.room as u64 == length && length > 0, Met::OutExact);
                self.meet_if(one.room as u64 > length && length > 0, Met::OutMore);
                self.meet_if(segment.is_empty(), Met::OutNoPages);
                self.meet_if(!segment.is_empty() && length == 0 && passed == 0, Met::OutNothing);
                self.meet_if(length == 0 && passed > 0, Met::OutPassedAll);
                self.bytes += length;
                self.passed += passed;
                segment.chunks(PAGE_SIZE).for_each(|page| self.count_page(page));
                self.meet_if(!has_sound_forwarding(segment), Met::OutAlone);
            }
        }
    }

    fn count_page(&mut self, page: &[u8]) {
        let records = || (0..page::count(page)).map(|k| slot(page, k)).filter(|slot| slot.is_record());
        let any = |kind: Kind, wanted: &dyn Fn(usize) -> bool| records().any(|slot| slot.kind == kind && wanted(slot.data().1));
        self.readings += records().filter(|slot| slot.data().1 >= 8).count() as u64;
        self.meet_if(any(Kind::Plain, &|length| length == 7), Met::OutSeven);
        self.meet_if(any(Kind::Plain, &|length| length == 8), Met::OutEight);
        self.meet_if(any(Kind::Plain, &|length| length == 16364), Met::OutLongest);
        self.meet_if(any(Kind::Target, &|length| length > 8), Met::OutTarget);
        self.meet_if(any(Kind::Target, &|length| length == 8), Met::OutTargetEight);
        self.meet_if(any(Kind::Target, &|length| length < 8), Met::OutTargetPassed);
    }

    fn count_back(&mut self, case: &Case, told: &Told) {
        let &[same, more] = &told.back[..] else { return };
        self.back += told.back.iter().filter(|&&answer| answer == 0).count() as u64;
        self.meet_if(same == 0, Met::Back);
        self.meet_if(more == 0, Met::BackMore);
        self.meet_if(same == 7, Met::BackFull);
        let twice = || scanned(&case.segment).is_ok_and(|records| records.is_some_and(|records| has_twice(&readings(&records))));
        self.meet_if(more == 0 && twice(), Met::BackTwice);
    }

    pub fn add(&mut self, other: &ExchangeCounts) {
        let add = |sums: &mut [u64], more: &[u64]| sums.iter_mut().zip(more).for_each(|(sum, more)| *sum += more);
        self.cases += other.cases;
        self.inserted += other.inserted;
        add(&mut self.imports, &other.imports);
        add(&mut self.exports, &other.exports);
        self.bytes += other.bytes;
        self.readings += other.readings;
        self.passed += other.passed;
        self.back += other.back;
        self.met.resize(MEETINGS.len(), 0);
        add(&mut self.met, &other.met);
    }

    /// What no case met.
    pub fn holes(&self) -> Vec<&str> {
        MEETINGS.iter().zip(&self.met).filter(|(_, &times)| times == 0).map(|(name, _)| *name).collect()
    }

    /// How much there was, in a line.
    pub fn told(&self) -> String {
        let times = |of: &[u64], answers: &[usize]| -> String {
            answers.iter().map(|&answer| format!("{answer}: {}", of[answer])).collect::<Vec<_>>().join(", ")
        };
        format!(
            "{} imports, {} records went in; answers {}; {} exports; answers {}; {} readings, {} bytes of files, {} records passed over; {} round trips",
            self.cases,
            self.inserted,
            times(&self.imports, &[0, 1, 13, 12, 3, 4, 7, 8]),
            self.exports.iter().sum::<u64>(),
            times(&self.exports, &[0, 1, 4, 11]),
            self.readings,
            self.bytes,
            self.passed,
            self.back
        )
    }

    fn print(&self) {
        println!("met:");
        for (name, times) in MEETINGS.iter().zip(&self.met) {
            println!("{times:9}  {name}");
        }
        let holes = self.holes();
        println!("never met: {}", if holes.is_empty() { "none".to_string() } else { holes.join("; ") });
    }
}

fn check_import_example(exchange: &dyn Exchange, example: &Import) -> Result<(), String> {
    let (mut segment, mut inventory) = (vec![0; example.pages * PAGE_SIZE], vec![0; PAGE_SIZE]);
    let told = exchange.import(&mut segment, &mut inventory, &example.file);
    if told != (example.answer, example.inserted) {
        return Err(format!("{}: answers {told:?}", example.title));
    }
    let is_zero = segment.iter().chain(&inventory).all(|&byte| byte == 0);
    if example.inserted == 0 && !is_zero || !example.left.iter().all(|(offset, bytes)| segment[*offset..][..bytes.len()] == bytes[..]) {
        return Err(format!("{}: leaves other bytes", example.title));
    }
    Ok(())
}

/// What an example exports: its calls are made by the model.
fn begin(example: &Export) -> Result<Vec<u8>, String> {
    let mut model = Model::new(&vec![0; example.pages * PAGE_SIZE], &[0; PAGE_SIZE]);
    for call in &example.calls {
        let answer = match call {
            Call::Insert(record) => model.insert_record(record).0,
            Call::Write(page, slot, record) => model.write_record(page * 65536 + u64::from(*slot), record),
        };
        if answer != DONE {
            return Err(format!("{}: a call before the export answers {answer}", example.title));
        }
    }
    let mut segment = model.segment().to_vec();
    example.set.iter().for_each(|(offset, bytes)| segment[*offset..][..bytes.len()].copy_from_slice(bytes));
    Ok(segment)
}

fn check_export_example(exchange: &dyn Exchange, example: &Export) -> Result<(), String> {
    let mut place = vec![KEPT; example.place.len()];
    let told = exchange.export(&begin(example)?, &mut place);
    if told != (example.answer, example.length, example.passed) || place != example.place {
        return Err(format!("{}: answers {told:?}, or leaves another place", example.title));
    }
    Ok(())
}

/// The examples, each with every number and byte; how many there are.
pub fn check_examples(exchange: &dyn Exchange) -> Result<usize, String> {
    let (imports, exports) = (imports(), exports());
    imports.iter().try_for_each(|example| check_import_example(exchange, example))?;
    exports.iter().try_for_each(|example| check_export_example(exchange, example))?;
    Ok(imports.len() + exports.len())
}

/// A whole scan by the corrected Rust: the bytes of its records, or nothing where it meets a page that is not sound.
pub(crate) fn scanned(segment: &[u8]) -> Result<Option<Vec<Vec<u8>>>, String> {
    match corrected::LentStore::new(segment, &[0; PAGE_SIZE]).scan() {
        (DONE, found) => Ok(Some(found.iter().map(|found| segment[found.offset as usize..][..found.length as usize].to_vec()).collect())),
        (Answer::Number(4), _) => Ok(None),
        (ended, _) => Err(format!("the scan ends by {ended}")),
    }
}

fn readings(records: &[Vec<u8>]) -> Vec<Vec<u8>> {
    records.iter().filter(|record| record.len() >= 8).cloned().collect()
}

fn check_import(exchange: &dyn Exchange, case: &Case) -> Result<((u64, u64), Model), String> {
    let (mut segment, mut inventory) = (case.segment.clone(), case.inventory.clone());
    let told = exchange.import(&mut segment, &mut inventory, &case.file);
    let (records, wrong) = read(&case.file);
    match (case.made, &wrong) {
        (Made::Whole, None) if records == case.records => {}
        (Made::Wrong(made), Some((_, fault))) if made == *fault && records == case.records => {}
        (Made::Whole | Made::Wrong(_), _) => return Err("the file is read otherwise than it was made".to_string()),
        (Made::CutOff, Some((_, Fault::Mark | Fault::Long))) => return Err("12 or 3 by a file cut off".to_string()),
        _ => {}
    }
    if wrong.is_none() && of_records(&records) != case.file {
        return Err("the file of the records is another".to_string());
    }
    let refused = if case.wrong_size { Some(1) } else { wrong.map(|(_, fault)| fault.number()) };
    if let Some(number) = refused {
        if told != (number, 0) || segment != case.segment || inventory != case.inventory {
            return Err(format!("{number} and no change are wanted: {told:?}"));
        }
        return Ok((told, Model::new(&segment, &inventory)));
    }
    let lengths: Vec<u64> = records.iter().map(|record| record.len() as u64).collect();
    let mut many = Model::new(&case.segment, &case.inventory);
    let wanted = insert_records(&mut many, &records.concat(), &lengths, &mut vec![0; lengths.len()]);
    if told != wanted || many.bytes() != (&segment, &inventory) {
        return Err(format!("{told:?}, as many rows in one call {wanted:?}; or other bytes"));
    }
    if is_sound(&case.segment, &case.inventory) && (!is_sound(&segment, &inventory) || told.0 == 4 || told.0 == 8) {
        return Err("a sound segment was not kept sound".to_string());
    }
    Ok((told, many))
}

/// Bytes that no export has written.
fn untouched(room: usize) -> Vec<u8> {
    (0..room).map(|k| (31 * k + 7) as u8).collect()
}

/// An export into so much room, and what is wanted of it: the answer, the numbers, and the file.
fn check_export(exchange: &dyn Exchange, segment: &[u8], room: usize, wanted: (u64, u64), file: &[u8]) -> Result<Exported, String> {
    let (before, mut place) = (untouched(room), untouched(room));
    let told = exchange.export(segment, &mut place);
    let (first, passed) = wanted;
    let answer = if first == 0 && room < file.len() { 11 } else { first };
    if told != (answer, file.len() as u64, passed) {
        return Err(format!("an export with room {room} tells {told:?}, should be {answer}, {}, {passed}", file.len()));
    }
    let written = if answer == 0 { file } else { &[] };
    if place[..written.len()] != *written || place[written.len()..] != before[written.len()..] {
        return Err(format!("an export with room {room} leaves another place"));
    }
    Ok(Exported { room, told })
}

/// The export imported into pages of zeros: the answer.
fn check_back(exchange: &dyn Exchange, file: &[u8], readings: &[Vec<u8>], pages: usize) -> Result<u64, String> {
    let (mut segment, mut inventory) = (vec![0; pages * PAGE_SIZE], vec![0; PAGE_SIZE]);
    let (answer, inserted) = exchange.import(&mut segment, &mut inventory, file);
    if !matches!(answer, 0 | 7) || answer == 0 && inserted != readings.len() as u64 {
        return Err(format!("the import of an export into {pages} pages answers {answer}, {inserted}"));
    }
    let mut before = readings.get(..inserted as usize).ok_or("more records than there were readings")?.to_vec();
    let mut after = scanned(&segment)?.ok_or("a damaged page after an import into zeros")?;
    before.sort_unstable();
    after.sort_unstable();
    if before != after {
        return Err(format!("other readings after an import into {pages} pages"));
    }
    Ok(answer)
}

/// Exports with no room, one byte too few, just enough, and more, as much as the segment has, or any; what was told of each, and by
/// the imports of the file.
fn check_exports(exchange: &dyn Exchange, segment: &[u8], random: &mut Random) -> Result<(Vec<Exported>, Vec<u64>), String> {
    let records = if is_segment(segment) { scanned(segment)? } else { None };
    let Some(records) = records else {
        let answer = if is_segment(segment) { 4 } else { 1 };
        let (few, any) = (1 + random.below(20) as usize, random.below(segment.len() as u64) as usize);
        let rooms = [0, random.pick(&[few, any, segment.len() + 1])];
        let told = rooms.iter().map(|&room| check_export(exchange, segment, room, (answer, 0), &[])).collect::<Result<_, _>>()?;
        return Ok((told, vec![]));
    };
    let readings = readings(&records);
    let (file, passed) = (written(readings.iter().map(Vec::as_slice)), (records.len() - readings.len()) as u64);
    if file.len() > segment.len() {
        return Err("the file is longer than the segment".to_string());
    }
    let (more, fewer) = (1 + random.below(50) as usize, random.below(file.len() as u64 + 1) as usize);
    let other = random.pick(&[file.len() + more, segment.len(), fewer]);
    let rooms = [0, file.len().saturating_sub(1), file.len(), other];
    let told = rooms.iter().map(|&room| check_export(exchange, segment, room, (0, passed), &file)).collect::<Result<_, _>>()?;
    check_export(exchange, &unseen(random, segment), file.len(), (0, passed), &file).map_err(|what| format!("a segment alike: {what}"))?;
    let n = segment.len() / PAGE_SIZE;
    let back = [n, 2 * n + 1].into_iter().map(|pages| check_back(exchange, &file, &readings, pages)).collect::<Result<_, _>>()?;
    Ok((told, back))
}

/// An import, exports and round trips by these calls, and all that is asked of them; what was told.
pub fn check_case(exchange: &dyn Exchange, case: &Case, seed: u64) -> Result<Told, String> {
    let mut random = Random::new(seed);
    let fails = |what: String| format!("seed {seed}: {what}");
    let (import, after) = check_import(exchange, case).map_err(fails)?;
    let (exports, back) = check_exports(exchange, &case.segment, &mut random).map_err(fails)?;
    if import.1 > 0 && random.one_in(4) {
        check_exports(exchange, after.segment(), &mut random).map_err(|what| format!("seed {seed}, after the import: {what}"))?;
    }
    Ok(Told { import, after, exports, back })
}

/// Lengths that are refused by 1, before the file is looked at; and no pages.
pub fn check_sizes(exchange: &dyn Exchange) -> Result<(), String> {
    for (segment, inventory) in [(1, 16384), (16383, 16384), (16385, 16384), (16384, 16383), (16384, 16385), (16384, 0), (0, 16385)] {
        for file in [&[][..], &[0x52], &[0; 12], &[0x52, 0x54, 0, 0, 0, 7, 0, 1, 0, 3, 0xFF, 0xFF]] {
            let (mut pages, mut nibbles) = (vec![0; segment], vec![0; inventory]);
            let told = exchange.import(&mut pages, &mut nibbles, file);
            if told != (1, 0) || pages.iter().chain(&nibbles).any(|&byte| byte != 0) {
                return Err(format!("{segment} and {inventory} bytes: {told:?}"));
            }
        }
    }
    for (segment, answer) in [(1, 1), (16383, 1), (16385, 1), (32528 * PAGE_SIZE, 1), (0, 0), (PAGE_SIZE, 0)] {
        let mut place = untouched(20);
        let told = exchange.export(&vec![0; segment], &mut place);
        if told != (answer, 0, 0) || place != untouched(20) {
            return Err(format!("export of {segment} bytes: {told:?}"));
        }
    }
    Ok(())
}

/// Each broken exchange must be noticed by the generated cases alone; how many the worked examples notice.
fn check_slips() -> Result<usize, String> {
    let examples = |slip| check_examples(&Broken(slip)).map(drop);
    let generated = |slip, seed| check_case(&Broken(slip), &case(seed), seed).map(drop);
    check_noticed(SLIPS, 600, examples, generated)
}

/// The examples, and so many cases; an error also where something was never met, or a broken exchange is not noticed.
pub fn check(cases: u64) -> Result<(), String> {
    println!("worked examples of Ask 7 met by the model: {}", check_examples(&Plain)?);
    check_sizes(&Plain)?;
    let mut counts = ExchangeCounts::default();
    for seed in 1..=cases {
        let case = case(seed);
        let told = check_case(&Plain, &case, seed)?;
        counts.count(&case, &told);
    }
    println!("{}", counts.told());
    println!("broken exchanges, each noticed by generated cases: {}, of which the examples notice {}", SLIPS.len(), check_slips()?);
    counts.print();
    if counts.holes().is_empty() { Ok(()) } else { Err("not everything was met".to_string()) }
}
