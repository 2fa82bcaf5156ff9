//! Polishing rules that are wrong in one thing each, to see that the judge notices them.

use crate::clearings::Polishing;
use crate::exchanges::is_segment;
use crate::mirrors::Asked;
use crate::slips::slips;
use model::page::{self, slot, Kind};
use std::collections::{BTreeMap, BTreeSet};
use store::PAGE_SIZE;
use Slip::*;

slips! {
    LastRowNotLookedAt,
    FirstRowNotLookedAt,
    RowNumberedRowsLetIn,
    RowsFrom2048NotSeen,
    OtherRowsNotSeen,
    OtherRowsSpoilByManyOnly,
    RowTwiceNotSeen,
    EqualDataCountedOnce,
    RecordsCounted,
    DifferentRowsCounted,
    RowsBeginWithOne,
    SidesAt32767,
    SidesAt32769,
    ThreeByEdition1,
    OneByEdition1,
    TwoByEdition2,
    FourByEdition2,
    NoneAsMountedAsked,
    NoneTurnedAsked,
    OneAsMountedExactly,
    OneTurnedExactly,
    TwoOfEachAsked,
    ShortRecordsCounted,
    ShortRecordsSpoil,
    EightBytesNotCounted,
    MirrorCutTo32Bits,
    RowsCutTo32Bits,
    EditionCutTo32Bits,
    MirrorsLastByteOnly,
    MirrorTurnedRound,
    ReadingTurnedRound,
    RowTurnedRound,
    RowsLowByteOnly,
    ReadingZeroLeftOut,
    LastReadingLeftOut,
    FirstOfAWordLeftOut,
    WordOneOff,
    TargetsLeftOut,
    BackIdRead,
    RedirectsFollowed,
    LastSlotLeftOut,
    YesBeforeDamaged,
    DamagedPagesPassedOver,
    OnlyPagesOfTheMirrorChecked,
    LastPageNotChecked,
    DamagedBeforeRule,
    RuleBeforeSize,
    YesToldWithDamaged,
    OneToldWithRule,
    NoRowsLetIn,
    Rows2049LetIn,
    Rows2048Refused,
    Edition0As1,
    Edition3As2,
    EditionAskedOfAList,
    RoomBeforeDamaged,
    RoomBeforeRule,
    ExactRoomRefused,
    Room1023LetIn,
    WordsWrittenWithoutRoom,
    OldBitsKept,
    RestCleared,
}

/// The rule with one slip, over pages; with none it is right.
pub struct Broken(pub Option<Slip>);

/// A record of the mirror: its row, and its bytes.
type Row<'a> = (u64, &'a [u8]);

fn number(bytes: &[u8]) -> u64 {
    bytes.iter().fold(0, |sum, &byte| sum << 8 | u64::from(byte))
}

impl Broken {
    fn has(&self, slip: Slip) -> bool {
        self.0 == Some(slip)
    }

    /// A number that stands at a place of a record, turned round by this slip.
    fn part(&self, bytes: &[u8], turned: Slip) -> u64 {
        if self.has(turned) { number(&bytes.iter().rev().copied().collect::<Vec<_>>()) } else { number(bytes) }
    }

    /// What a page's slots hold, without what is no record.
    fn records<'a>(&self, segment: &'a [u8], page: &'a [u8]) -> Vec<&'a [u8]> {
        let mut records = vec![];
        let count = page::count(page) - (self.has(LastSlotLeftOut) && page::count(page) > 0) as usize;
        for slot in (0..count).map(|k| slot(page, k)) {
            let (page, slot) = match slot.kind {
                Kind::Free => continue,
                Kind::Target if self.has(TargetsLeftOut) => continue,
                Kind::Redirect if !self.has(RedirectsFollowed) => continue,
                Kind::Redirect => match target(segment, slot.id) {
                    Some(target) => target,
                    None => continue,
                },
                _ => (page, slot),
            };
            let (offset, length) = if self.has(BackIdRead) { (slot.offset, slot.length) } else { slot.data() };
            records.push(&page[offset..offset + length]);
        }
        records
    }

    /// The rows of the mirror's readings.
    fn readings<'a>(&self, segment: &'a [u8], pages: &[&'a [u8]], mirror: u64) -> BTreeMap<u64, Vec<Row<'a>>> {
        let mirror = if self.has(MirrorCutTo32Bits) { mirror % (1 << 32) } else { mirror };
        let least = if self.has(EightBytesNotCounted) { 9 } else { 8 };
        let mut readings: BTreeMap<u64, Vec<Row>> = BTreeMap::new();
        for record in pages.iter().flat_map(|page| self.records(segment, page)) {
            let counts = record.len() >= least || record.len() < 8 && record.len() > 5 && (self.has(ShortRecordsCounted) || self.has(ShortRecordsSpoil));
            if !counts {
                continue;
            }
            let head: Vec<u8> = record.iter().copied().chain([0; 8]).take(8).collect();
            let its_mirror = self.part(&head[..4], MirrorTurnedRound);
            let mut row = self.part(&head[6..8], RowTurnedRound);
            if self.has(RowsLowByteOnly) {
                row %= 256;
            }
            if record.len() < 8 && self.has(ShortRecordsSpoil) {
                row = u64::MAX;
            }
            if its_mirror == mirror || self.has(MirrorsLastByteOnly) && its_mirror % 256 == mirror % 256 {
                readings.entry(self.part(&head[4..6], ReadingTurnedRound)).or_default().push((row, record));
            }
        }
        readings
    }

    fn is_whole(&self, there: &[Row], rows: u64) -> bool {
        let (below, others): (Vec<Row>, Vec<Row>) = there.iter().partition(|(row, _)| *row < rows);
        let times = |row: u64| {
            let same: Vec<&[u8]> = below.iter().filter(|(other, _)| *other == row).map(|(_, bytes)| *bytes).collect();
            if self.has(EqualDataCountedOnce) { same.iter().collect::<BTreeSet<_>>().len() } else { same.len() }
        };
        if self.has(RecordsCounted) {
            return others.is_empty() && below.len() as u64 == rows;
        }
        if self.has(DifferentRowsCounted) {
            return there.len() as u64 == rows && there.iter().map(|(row, _)| row).collect::<BTreeSet<_>>().len() as u64 == rows;
        }
        let spoils = |&(row, _): &Row| match self.0 {
            Some(RowNumberedRowsLetIn) => row > rows,
            Some(RowsFrom2048NotSeen) => row < 2048,
            Some(OtherRowsNotSeen) => false,
            Some(OtherRowsSpoilByManyOnly) => others.len() > 1,
            Some(RowsBeginWithOne) => row > rows,
            _ => true,
        };
        let is_there = |row: u64| times(row) == 1 || times(row) > 1 && self.has(RowTwiceNotSeen);
        let first = (self.has(FirstRowNotLookedAt) || self.has(RowsBeginWithOne)) as u64;
        (first..rows - self.has(LastRowNotLookedAt) as u64).all(is_there) && !others.iter().any(spoils)
    }

    /// The whole readings of the mirror on these pages.
    fn whole(&self, segment: &[u8], pages: &[&[u8]], asked: Asked) -> Vec<u64> {
        let rows = if self.has(RowsCutTo32Bits) { asked.rows % (1 << 32) } else { asked.rows };
        let readings = self.readings(segment, pages, asked.mirror);
        let left_out = |reading: u64| match self.0 {
            Some(ReadingZeroLeftOut) => reading == 0,
            Some(LastReadingLeftOut) => reading == 65535,
            Some(FirstOfAWordLeftOut) => reading % 64 == 0,
            _ => false,
        };
        readings.iter().filter(|(&reading, there)| !left_out(reading) && self.is_whole(there, rows)).map(|(&reading, _)| reading).collect()
    }

    fn is_cleared(&self, whole: &[u64], edition: u64) -> bool {
        let first = match self.0 {
            Some(SidesAt32767) => 32767,
            Some(SidesAt32769) => 32769,
            _ => 32768,
        };
        let all = whole.len();
        let mounted = whole.iter().filter(|&&reading| reading < first).count();
        let turned = all - mounted;
        if edition == 1 {
            return all >= if self.has(ThreeByEdition1) { 3 } else if self.has(OneByEdition1) { 1 } else { 2 };
        }
        let least = if self.has(TwoByEdition2) { 2 } else if self.has(FourByEdition2) { 4 } else { 3 };
        let sides = match self.0 {
            Some(NoneAsMountedAsked) => turned >= 1,
            Some(NoneTurnedAsked) => mounted >= 1,
            Some(OneAsMountedExactly) => mounted == 1 && turned >= 1,
            Some(OneTurnedExactly) => mounted >= 1 && turned == 1,
            Some(TwoOfEachAsked) => mounted >= 2 && turned >= 2,
            _ => mounted >= 1 && turned >= 1,
        };
        all >= least && sides
    }

    fn rows_named(&self, rows: u64) -> bool {
        let rows = if self.has(RowsCutTo32Bits) { rows % (1 << 32) } else { rows };
        let most = if self.has(Rows2049LetIn) { 2049 } else if self.has(Rows2048Refused) { 2047 } else { 2048 };
        (rows > 0 || self.has(NoRowsLetIn)) && rows <= most
    }

    /// The edition as it is taken, if it is one.
    fn edition(&self, edition: u64) -> Option<u64> {
        match edition {
            1 | 2 => Some(edition),
            0 if self.has(Edition0As1) => Some(1),
            3 if self.has(Edition3As2) => Some(2),
            _ if self.has(EditionCutTo32Bits) && (1..=2).contains(&(edition % (1 << 32))) => Some(edition % (1 << 32)),
            _ => None,
        }
    }

    /// The pages that are read, or nothing where the answer is 4.
    fn pages<'a>(&self, segment: &'a [u8], asked: Asked) -> Option<Vec<&'a [u8]>> {
        let pages: Vec<&[u8]> = segment.chunks(PAGE_SIZE).collect();
        let sound: Vec<&[u8]> = pages.iter().copied().filter(|page| page::sound(page)).collect();
        let before: Vec<&[u8]> = pages.iter().copied().take_while(|page| page::sound(page)).collect();
        let is_last = !pages.is_empty() && before.len() == pages.len() - 1;
        let passed = match self.0 {
            _ if before.len() == pages.len() => true,
            Some(YesBeforeDamaged) => {
                let edition = self.edition(asked.edition).unwrap_or(1);
                return self.is_cleared(&self.whole(segment, &before, asked), edition).then_some(before);
            }
            Some(DamagedPagesPassedOver) => true,
            Some(OnlyPagesOfTheMirrorChecked) => pages.iter().all(|page| page::sound(page) || page[12..].iter().all(|&byte| byte == 0)),
            Some(LastPageNotChecked) => is_last,
            _ => false,
        };
        passed.then_some(sound)
    }

    /// 1, 14 and 4 in the order of the slip, and the pages where the answer is none of them.
    fn first<'a>(&self, segment: &'a [u8], asked: Asked, rule: bool) -> Result<Vec<&'a [u8]>, u64> {
        if !is_segment(segment) {
            return Err(if rule && self.has(RuleBeforeSize) { 14 } else { 1 });
        }
        let pages = self.pages(segment, asked);
        if rule && !(pages.is_none() && self.has(DamagedBeforeRule)) {
            return Err(14);
        }
        pages.ok_or(4)
    }
}

/// A redirect's target, where there is one.
fn target(segment: &[u8], id: u64) -> Option<(&[u8], page::Slot)> {
    let page = segment.chunks(PAGE_SIZE).nth((id / 65536) as usize).filter(|page| page::sound(page))?;
    let k = (id % 65536) as usize;
    (k < page::count(page)).then(|| (page, slot(page, k))).filter(|(_, slot)| slot.kind == Kind::Target)
}

impl Polishing for Broken {
    fn cleared(&self, segment: &[u8], asked: Asked) -> (u64, u64) {
        let edition = self.edition(asked.edition);
        let rule = edition.is_none() || !self.rows_named(asked.rows);
        match self.first(segment, asked, rule) {
            Ok(pages) => (0, self.is_cleared(&self.whole(segment, &pages, asked), edition.unwrap_or(1)) as u64),
            Err(4) if self.has(YesToldWithDamaged) => (4, 1),
            Err(14) if self.has(OneToldWithRule) => (14, 1),
            Err(answer) => (answer, 0),
        }
    }

    fn whole_readings(&self, segment: &[u8], asked: Asked, words: &mut [u64]) -> u64 {
        let rule = !self.rows_named(asked.rows) || self.has(EditionAskedOfAList) && self.edition(asked.edition).is_none();
        let length = words.len();
        let short = length < 1024 + self.has(ExactRoomRefused) as usize - self.has(Room1023LetIn) as usize;
        if short && is_segment(segment) && (self.has(RoomBeforeRule) || self.has(RoomBeforeDamaged) && !rule) {
            return 11;
        }
        let pages = match self.first(segment, asked, rule) {
            Ok(pages) => pages,
            Err(answer) => return answer,
        };
        if short && !self.has(WordsWrittenWithoutRoom) {
            return 11;
        }
        let written = length.min(1024);
        if !self.has(OldBitsKept) {
            words[..written].fill(0);
        }
        if self.has(RestCleared) {
            words[written..].fill(0);
        }
        for reading in self.whole(segment, &pages, asked) {
            let word = ((reading / 64 + self.has(WordOneOff) as u64) % 1024) as usize;
            if word < written {
                words[word] |= 1 << (reading % 64);
            }
        }
        if short { 11 } else { 0 }
    }
}
