//! Many rows in one call: the worked examples of document 02's Ask 2 on the model, and over generated lists the model's call against
//! the same rows inserted one at a time.

use crate::lists::{list, List, Wrong};
use crate::row_examples::examples;
use crate::soundness::{has_true_inventory, is_sound};
use crate::trial::{Counts, Trial};
use model::inventory::request;
use model::page;
use model::rows::insert_records;
use model::{Model, Step};
use store::{Answer, Call, Store, DONE, PAGE_SIZE};

store::meetings! {
    /// What a list can meet.
    Met MEETINGS:
    Size "1: wrong sizes"
    SizeEmpty "1: an empty list without bytes"
    SizeList "1: before 10"
    OneByteLess "10: one byte less than the lengths"
    OneByteMore "10: one byte more"
    Wraps "10: lengths that sum to 2^64 more"
    Huge "10: a length above all that can be lent"
    NoLengths "10: bytes without lengths"
    FewPlaces "10: fewer places than rows"
    Empty "0: an empty list"
    EmptyDamaged "0: an empty list, on a damaged store"
    WholeSound "0: rows, on a sound store"
    WholeDamaged "0: rows, on a store with a damaged page"
    WholeUntrue "0: rows, over an inventory that is not true"
    OneRow "a list of one row"
    NoBytes "rows of no bytes alone"
    MorePlaces "more places than rows"
    LongFirst "3 at the first of some rows"
    LongMiddle "3 in the middle"
    LongLast "3 at the last of some rows"
    DamagedFirst "4 at the first of some rows"
    DamagedMiddle "4 in the middle"
    DamagedLast "4 at the last of some rows"
    DamagedAlike "4 on a page whose number differs by a multiple of 16 from that of a row before"
    FullFirst "7 at the first of some rows"
    FullMiddle "7 in the middle"
    FullLast "7 at the last of some rows"
    StaleFirst "8 at the first of some rows"
    StaleMiddle "8 in the middle"
    StaleLast "8 at the last of some rows"
    WouldGoIn "a row after the refused one that would go in"
    Several "rows on more than four pages"
    Wide "rows on more than sixteen pages"
    InTurn "rows on two pages in turn"
    InTurnSound "rows on two pages in turn, in a sound store"
    InTurnAlike "rows in turn on two pages whose numbers differ by a multiple of 16"
    Compactified "a page compactified between rows"
    LastByte "a row that uses up a page"
    FreeSlot "a row in a free slot"
    Many "more than a thousand rows"
}

/// What went in and was met.
#[derive(Default)]
pub struct RowCounts {
    pub lists: u64,
    /// Rows that went in.
    pub rows: u64,
    pub answers: [u64; 11],
    /// Inserts one at a time that met no fault and were compared with the published Rust.
    pub published: u64,
    pub met: Vec<u64>,
}

fn is_damaged(segment: &[u8]) -> bool {
    !segment.chunks(PAGE_SIZE).all(page::sound)
}

impl RowCounts {
    fn meet(&mut self, met: Met) {
        self.meet_if(true, met);
    }

    fn meet_if(&mut self, is: bool, met: Met) {
        self.met.resize(MEETINGS.len(), 0);
        self.met[met as usize] += is as u64;
    }

    /// A list, the answer and the rows told, the id places, and the model after the call.
    pub fn count(&mut self, list: &List, (answer, told): (u64, u64), ids: &[u64], model: &Model) {
        self.lists += 1;
        self.rows += told;
        self.answers[answer as usize] += 1;
        match (answer, list.wrong) {
            (1, wrong) => {
                self.meet(Met::Size);
                self.meet_if(list.lengths.is_empty() && list.rows.is_empty(), Met::SizeEmpty);
                self.meet_if(wrong.is_some(), Met::SizeList);
            }
            (10, Some(wrong)) => self.meet(match wrong {
                Wrong::OneByteLess => Met::OneByteLess,
                Wrong::OneByteMore => Met::OneByteMore,
                Wrong::Wraps => Met::Wraps,
                Wrong::Huge => Met::Huge,
                Wrong::NoLengths => Met::NoLengths,
                Wrong::FewPlaces => Met::FewPlaces,
            }),
            _ => {
                self.meet_if(list.places > list.lengths.len(), Met::MorePlaces);
                self.count_stop(list, answer, told as usize, model);
                self.count_rows(list, &ids[..told as usize], model);
            }
        }
    }

    /// Where the call stopped, and by which answer.
    fn count_stop(&mut self, list: &List, answer: u64, told: usize, model: &Model) {
        let rows = list.lengths.len();
        if answer == 0 {
            let damaged = is_damaged(&list.segment);
            let untrue = !damaged && !has_true_inventory(&list.segment, &list.inventory);
            self.meet(match rows {
                0 if damaged => Met::EmptyDamaged,
                0 => Met::Empty,
                _ if damaged => Met::WholeDamaged,
                _ if untrue => Met::WholeUntrue,
                _ => Met::WholeSound,
            });
            return;
        }
        let after = list.lengths.get(told + 1).map(|_| list.row(told + 1));
        let goes_in = |row: Vec<u8>| Model::new(model.segment(), model.inventory()).insert_record(&row).0 == DONE;
        self.meet_if(after.is_some_and(goes_in), Met::WouldGoIn);
        if rows == 1 {
            return;
        }
        let [first, middle, last] = match answer {
            3 => [Met::LongFirst, Met::LongMiddle, Met::LongLast],
            4 => [Met::DamagedFirst, Met::DamagedMiddle, Met::DamagedLast],
            7 => [Met::FullFirst, Met::FullMiddle, Met::FullLast],
            _ => [Met::StaleFirst, Met::StaleMiddle, Met::StaleLast],
        };
        self.meet(if told == 0 { first } else if told == rows - 1 { last } else { middle });
    }

    /// Where the rows went that went in, and what was done there.
    fn count_rows(&mut self, list: &List, ids: &[u64], model: &Model) {
        let pages: Vec<u64> = ids.iter().map(|id| id / 65536).collect();
        let alike = |one: u64, other: u64| one != other && one % 16 == other % 16;
        let in_turn = |trio: &&[u64]| trio[0] == trio[2] && trio[0] != trio[1];
        let turns: Vec<&[u64]> = pages.windows(3).filter(in_turn).collect();
        let mut different = pages.clone();
        different.sort_unstable();
        different.dedup();
        self.meet_if(list.lengths.len() == 1, Met::OneRow);
        self.meet_if(ids.len() > 1 && list.rows.is_empty(), Met::NoBytes);
        self.meet_if(different.len() > 4, Met::Several);
        self.meet_if(different.len() > 16, Met::Wide);
        self.meet_if(!turns.is_empty(), Met::InTurn);
        self.meet_if(!turns.is_empty() && is_sound(&list.segment, &list.inventory), Met::InTurnSound);
        self.meet_if(turns.iter().any(|trio| alike(trio[0], trio[1])), Met::InTurnAlike);
        self.meet_if(ids.len() > 1000, Met::Many);

        let reached = |model: &Model, step: Step| model.notes.steps[step as usize];
        let mut first = Model::new(&list.segment, &list.inventory);
        if !list.lengths.is_empty() {
            first.insert_record(&list.row(0));
        }
        self.meet_if(reached(model, Step::AllocateCompactify) > reached(&first, Step::AllocateCompactify), Met::Compactified);
        self.meet_if(reached(model, Step::AllocateLastByte) > 0, Met::LastByte);
        self.meet_if(reached(model, Step::FreeSlot) + reached(model, Step::FreeSlotNext) > 0, Met::FreeSlot);

        let refused = list.lengths.get(ids.len()).filter(|&&length| length <= 16364);
        let named = refused.and_then(|&length| request(model.inventory(), length as usize)).filter(|&page| page < (list.segment.len() / PAGE_SIZE) as u64);
        let unsound = |&page: &u64| !page::sound(&model.segment()[page as usize * PAGE_SIZE..][..PAGE_SIZE]);
        let damaged = named.filter(unsound);
        self.meet_if(damaged.is_some_and(|damaged| different.iter().any(|&page| alike(page, damaged))), Met::DamagedAlike);
    }

    pub fn add(&mut self, other: &RowCounts) {
        self.lists += other.lists;
        self.rows += other.rows;
        self.published += other.published;
        self.answers.iter_mut().zip(other.answers).for_each(|(sum, more)| *sum += more);
        self.met.resize(MEETINGS.len(), 0);
        self.met.iter_mut().zip(&other.met).for_each(|(sum, more)| *sum += more);
    }

    /// What no list met.
    pub fn holes(&self) -> Vec<&str> {
        MEETINGS.iter().zip(&self.met).filter(|(_, &times)| times == 0).map(|(name, _)| *name).collect()
    }

    /// How many lists and rows there were, in a line.
    pub fn told(&self) -> String {
        let times: Vec<String> = [0, 1, 10, 3, 4, 7, 8].iter().map(|&answer| format!("{answer}: {}", self.answers[answer])).collect();
        let met = |met: Met| self.met[met as usize];
        format!(
            "{} lists, {} rows went in; answers {}; {} lists went in on stores with a damaged page, {} over untrue inventories",
            self.lists,
            self.rows,
            times.join(", "),
            met(Met::WholeDamaged),
            met(Met::WholeUntrue)
        )
    }

    fn print(&self) {
        println!("{}", self.told());
        println!("inserts one at a time that met no fault, published and corrected Rust equal: {}", self.published);
        println!("met:");
        for (name, times) in MEETINGS.iter().zip(&self.met) {
            println!("{times:9}  {name}");
        }
        let holes = self.holes();
        println!("never met: {}", if holes.is_empty() { "none".to_string() } else { holes.join("; ") });
    }
}

/// The examples; how many there are.
pub fn check_examples() -> Result<usize, String> {
    let examples = examples();
    for example in &examples {
        let (mut model, mut ids) = (Model::new(&example.segment, &example.inventory), example.ids());
        let answer = insert_records(&mut model, &example.rows, &example.lengths, &mut ids);
        example.check(answer, &ids, model.segment(), model.inventory())?;
    }
    Ok(examples.len())
}

/// The rows one at a time, on model, corrected and published Rust: the answer and the rows told, and the id places.
fn one_at_a_time(list: &List, trial: &mut Trial, counts: &mut Counts) -> Result<((u64, u64), Vec<u64>), String> {
    let mut ids = list.ids();
    for (k, (&length, &seed)) in list.lengths.iter().zip(&list.seeds).enumerate() {
        let reply = trial.call(Call::Insert { length, seed }, counts).map_err(|what| format!("row {k}: {what}"))?;
        match reply.answer {
            DONE => ids[k] = reply.first,
            Answer::Number(number) => return Ok(((number, k as u64), ids)),
            ended => return Err(format!("row {k}: {ended}")),
        }
    }
    Ok(((0, list.lengths.len() as u64), ids))
}

/// Whether each row that went in is read by its id.
fn reads_back(list: &List, told: u64, ids: &[u64], model: &mut Model) -> bool {
    (0..told as usize).all(|k| {
        let (answer, offset, length) = model.get_record(ids[k]);
        answer == DONE && model.segment()[offset as usize..][..length as usize] == list.row(k)
    })
}

fn check_list(list: &List, counts: &mut RowCounts) -> Result<(), String> {
    let (mut model, mut ids) = (Model::new(&list.segment, &list.inventory), list.ids());
    let answer = insert_records(&mut model, &list.rows, &list.lengths, &mut ids);
    if let Some(refused) = list.refused() {
        if answer != (refused, 0) || ids != list.ids() || model.bytes() != (&list.segment, &list.inventory) {
            return Err(format!("{refused} and no change are wanted: {answer:?}"));
        }
        counts.count(list, answer, &ids, &model);
        return Ok(());
    }
    let (mut trial, mut calls) = (Trial::over(&list.segment, &list.inventory), Counts::default());
    let (wanted, places) = one_at_a_time(list, &mut trial, &mut calls)?;
    if (answer, &ids) != (wanted, &places) {
        return Err(format!("{answer:?} and {ids:?}, one at a time {wanted:?} and {places:?}"));
    }
    if model.bytes() != trial.corrected.bytes() {
        return Err("other bytes than one at a time".to_string());
    }
    counts.count(list, answer, &ids, &model);
    counts.published += calls.compared;
    if is_sound(&list.segment, &list.inventory) {
        let sound = is_sound(model.segment(), model.inventory()) && answer.0 != 4 && answer.0 != 8;
        if !sound || !reads_back(list, answer.1, &ids, &mut model) {
            return Err("a sound segment was not kept sound, or a row is not read back".to_string());
        }
    }
    Ok(())
}

/// The examples, and so many lists; an error also where something was never met.
pub fn check(lists: u64) -> Result<(), String> {
    println!("worked examples of Ask 2 met by the model, one of them in both its forms: {}", check_examples()?);
    let mut counts = RowCounts::default();
    (1..=lists).try_for_each(|seed| check_list(&list(seed), &mut counts).map_err(|what| format!("seed {seed}: {what}")))?;
    counts.print();
    if counts.holes().is_empty() { Ok(()) } else { Err("not everything was met".to_string()) }
}
