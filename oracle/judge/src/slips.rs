//! Exchanges that are wrong in one thing each, to see that the judge notices them.

use crate::exchanges::{is_segment, Exchange};
use model::page::{self, slot, Kind};
use model::Model;
use std::fmt::Debug;
use store::{Answer, Store, DONE, PAGE_SIZE};
use Slip::*;

/// One list of them, so that none is left untried.
macro_rules! slips {
    ($($slip:ident,)*) => {
        #[derive(Clone, Copy, PartialEq, Eq, Debug)]
        pub enum Slip {
            $($slip,)*
        }

        pub const SLIPS: &[Slip] = &[$($slip,)*];
    };
}
pub(crate) use slips;

/// Each slip must be noticed by the generated cases alone, up to this seed; how many the worked examples notice. Without a slip nothing is
/// wrong.
pub(crate) fn check_noticed<S: Copy + Debug>(
    slips: &[S],
    seeds: u64,
    examples: impl Fn(Option<S>) -> Result<(), String>,
    case: impl Fn(Option<S>, u64) -> Result<(), String>,
) -> Result<usize, String> {
    (1..=100).try_for_each(|seed| case(None, seed))?;
    let mut by_examples = 0;
    for &slip in slips {
        by_examples += examples(Some(slip)).is_err() as usize;
        if !(1..=seeds).any(|seed| case(Some(slip), seed).is_err()) {
            return Err(format!("a slip is not noticed: {slip:?}"));
        }
    }
    Ok(by_examples)
}

slips! {
    MarkTurnedRoundInImport,
    MarkTurnedRoundInExport,
    MarksSecondByteNotRead,
    LengthOf16357LetIn,
    SecondShortBeforeLong,
    MarkBeforeShort,
    LastBytesIgnored,
    LengthLittleEndian,
    SizeAfterFile,
    InsertsWhileReading,
    RecordsToldWithFault,
    GoesOnAfterRefusal,
    TakesBackOnRefusal,
    RefusedRecordTold,
    EightBytesPassedOver,
    BackIdExported,
    LengthWithTheEightCounted,
    RoomBeforeDamaged,
    LastPageNotChecked,
    NumbersToldWithDamaged,
    ExactRoomRefused,
    PartWrittenWithoutRoom,
    NothingToldWithoutRoom,
    RestCleared,
    ForwardedNotCountedAsPassed,
}

/// Import and export with one slip, over the model; with none they are right.
pub struct Broken(pub Option<Slip>);

impl Broken {
    fn has(&self, slip: Slip) -> bool {
        self.0 == Some(slip)
    }

    /// The records up to the first that is not one, and what is wrong with that, 0 if nothing is.
    fn read(&self, file: &[u8]) -> (Vec<Vec<u8>>, u64) {
        let mark = if self.has(MarkTurnedRoundInImport) { [0x54, 0x52] } else { [0x52, 0x54] };
        let (mut records, mut left) = (vec![], file);
        while !left.is_empty() {
            let second = left.get(1).is_some_and(|&byte| byte != mark[1]) && !self.has(MarksSecondByteNotRead);
            let marked = left[0] == mark[0] && !second;
            if self.has(MarkBeforeShort) && !marked {
                return (records, 12);
            }
            if left.len() < 12 {
                return (records, if self.has(LastBytesIgnored) { 0 } else { 13 });
            }
            if !marked {
                return (records, 12);
            }
            let two = [left[10], left[11]];
            let length = usize::from(if self.has(LengthLittleEndian) { u16::from_le_bytes(two) } else { u16::from_be_bytes(two) });
            let cut = left.len() - 12 < length;
            if self.has(SecondShortBeforeLong) && cut {
                return (records, 13);
            }
            if length > if self.has(LengthOf16357LetIn) { 16357 } else { 16356 } {
                return (records, 3);
            }
            if cut {
                return (records, 13);
            }
            records.push([&left[2..10], &left[12..12 + length]].concat());
            left = &left[12 + length..];
        }
        (records, 0)
    }

    /// The file of the sound pages, and how many of their records are passed over.
    fn file(&self, pages: &[&[u8]]) -> (Vec<u8>, u64) {
        let mark = if self.has(MarkTurnedRoundInExport) { [0x54, 0x52] } else { [0x52, 0x54] };
        let least = if self.has(EightBytesPassedOver) { 9 } else { 8 };
        let (mut file, mut passed) = (vec![], 0);
        for page in pages {
            for record in (0..page::count(page)).map(|k| slot(page, k)).filter(|slot| slot.is_record()) {
                let (offset, length) = record.data();
                if length < least {
                    passed += !(self.has(ForwardedNotCountedAsPassed) && record.kind == Kind::Target) as u64;
                    continue;
                }
                let (offset, length) = if self.has(BackIdExported) { (record.offset, record.length) } else { (offset, length) };
                let told = if self.has(LengthWithTheEightCounted) { length } else { length - 8 };
                file.extend(mark);
                file.extend(&page[offset..offset + 8]);
                file.extend((told as u16).to_be_bytes());
                file.extend(&page[offset + 8..offset + length]);
            }
        }
        (file, passed)
    }
}

impl Exchange for Broken {
    fn import(&self, segment: &mut [u8], inventory: &mut [u8], file: &[u8]) -> (u64, u64) {
        let (records, fault) = self.read(file);
        if !is_segment(segment) || inventory.len() != PAGE_SIZE {
            return (if self.has(SizeAfterFile) && fault != 0 { fault } else { 1 }, 0);
        }
        if fault != 0 && !self.has(InsertsWhileReading) {
            return (fault, if self.has(RecordsToldWithFault) { records.len() as u64 } else { 0 });
        }
        let mut model = Model::new(segment, inventory);
        let (mut answer, mut inserted) = (0, 0);
        for record in &records {
            match model.insert_record(record).0 {
                DONE => inserted += 1,
                Answer::Number(number) => {
                    answer = number;
                    if !self.has(GoesOnAfterRefusal) {
                        break;
                    }
                }
                ended => panic!("an insert ends by {ended}"),
            }
        }
        if answer != 0 && self.has(TakesBackOnRefusal) {
            return (answer, 0);
        }
        segment.copy_from_slice(model.segment());
        inventory.copy_from_slice(model.inventory());
        let told = inserted + (answer != 0 && self.has(RefusedRecordTold)) as u64;
        (if answer == 0 { fault } else { answer }, told)
    }

    fn export(&self, segment: &[u8], place: &mut [u8]) -> (u64, u64, u64) {
        if !is_segment(segment) {
            return (1, 0, 0);
        }
        let pages: Vec<&[u8]> = segment.chunks(PAGE_SIZE).collect();
        let checked = pages.len() - (self.has(LastPageNotChecked) && pages.len() > 1) as usize;
        let sound: Vec<&[u8]> = pages.iter().copied().filter(|page| page::sound(page)).collect();
        let damaged = !pages[..checked].iter().all(|page| page::sound(page));
        let (file, passed) = self.file(&sound);
        let length = file.len() as u64;
        let short = place.len() < file.len() + self.has(ExactRoomRefused) as usize;
        if damaged && !(short && self.has(RoomBeforeDamaged)) {
            return if self.has(NumbersToldWithDamaged) { (4, length, passed) } else { (4, 0, 0) };
        }
        if short {
            if self.has(PartWrittenWithoutRoom) {
                let room = place.len();
                place.copy_from_slice(&file[..room]);
            }
            return if self.has(NothingToldWithoutRoom) { (11, 0, 0) } else { (11, length, passed) };
        }
        place[..file.len()].copy_from_slice(&file);
        if self.has(RestCleared) {
            place[file.len()..].fill(0);
        }
        (0, length, passed)
    }
}
