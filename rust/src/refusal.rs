//! Why a call was refused.

use std::error::Error;
use std::fmt;

/// Why a call was refused, by the number and name of the store's table of answers. (Answer 0,
/// DONE, is no refusal.) A refused call has changed nothing, but for the rows that
/// [`SlottedPageSegment::insert_records`](crate::SlottedPageSegment::insert_records) and
/// [`SlottedPageSegment::import`](crate::SlottedPageSegment::import) tell to have gone in before the
/// refused one.
///
/// Where several hold, the one given is the first in this order: 1, 10, 3, 2, 4 (the id's page), 5,
/// 6, 4 (the page it is forwarded to), 7, 4 (the new page), 8; of a fill report 1, 4 (any page), 9; of
/// an export 1, 4 (any page), 11; of the polishing rule 1, 14, 4 (any page); and of an import 1, then
/// for each record of the file in its turn 13, 12, 3, 13, and then each insert's own. Further numbers
/// may be added.
#[derive(Debug, Clone, Copy, PartialEq, Eq, Hash)]
#[non_exhaustive]
pub enum Refusal {
    /// The segment is not 0 to 32,527 whole pages, or the inventory is not one page.
    Size = 1,
    /// The id's page is not in the segment.
    NoPage = 2,
    /// The new size is above 16,364; of a file's record, its data above 16,356, which is the same.
    Long = 3,
    /// A page to be touched is not sound, or a forwarded record is not where it is said to be.
    Damaged = 4,
    /// There is no record of this id.
    None = 5,
    /// The id is that of the place a record was forwarded to; only reads take it.
    Forwarded = 6,
    /// No page has room, by what the inventory says.
    Full = 7,
    /// The inventory names a page that has no room: it does not tell the truth about the pages.
    Stale = 8,
    /// A figure of the tally would pass 2^64 - 1.
    Tally = 9,
    /// The lengths of many rows don't sum to their bytes, or there are fewer places for ids than rows.
    List = 10,
    /// What is to be written does not fit in the place lent for it: of an export, the file. (A repair says it by
    /// [`RepairRefusal::Room`](crate::RepairRefusal::Room).)
    Room = 11,
    /// A record of the file does not begin with 52 54.
    Mark = 12,
    /// The file ends within a record.
    Short = 13,
    /// The polishing rule has editions 1 and 2 and no other, and readings of 1 to 2,048 rows.
    Rule = 14,
}

impl Refusal {
    /// All refusals, by their number.
    pub const ALL: &'static [Refusal] = &[
        Refusal::Size,
        Refusal::NoPage,
        Refusal::Long,
        Refusal::Damaged,
        Refusal::None,
        Refusal::Forwarded,
        Refusal::Full,
        Refusal::Stale,
        Refusal::Tally,
        Refusal::List,
        Refusal::Room,
        Refusal::Mark,
        Refusal::Short,
        Refusal::Rule,
    ];

    /// The number in the table of answers.
    pub const fn number(self) -> u64 {
        self as u64
    }

    /// The refusal of a number, if there is one.
    pub const fn from_number(number: u64) -> Option<Refusal> {
        Some(match number {
            1 => Refusal::Size,
            2 => Refusal::NoPage,
            3 => Refusal::Long,
            4 => Refusal::Damaged,
            5 => Refusal::None,
            6 => Refusal::Forwarded,
            7 => Refusal::Full,
            8 => Refusal::Stale,
            9 => Refusal::Tally,
            10 => Refusal::List,
            11 => Refusal::Room,
            12 => Refusal::Mark,
            13 => Refusal::Short,
            14 => Refusal::Rule,
            _ => return None,
        })
    }

    /// The name in the table of answers.
    pub const fn name(self) -> &'static str {
        match self {
            Refusal::Size => "SIZE",
            Refusal::NoPage => "NOPAGE",
            Refusal::Long => "LONG",
            Refusal::Damaged => "DAMAGED",
            Refusal::None => "NONE",
            Refusal::Forwarded => "FORWARDED",
            Refusal::Full => "FULL",
            Refusal::Stale => "STALE",
            Refusal::Tally => "TALLY",
            Refusal::List => "LIST",
            Refusal::Room => "ROOM",
            Refusal::Mark => "MARK",
            Refusal::Short => "SHORT",
            Refusal::Rule => "RULE",
        }
    }

    const fn meaning(self) -> &'static str {
        match self {
            Refusal::Size => "the segment is not 0 to 32,527 whole pages, or the inventory is not one page",
            Refusal::NoPage => "the id's page is not in the segment",
            Refusal::Long => "the size is above 16,364",
            Refusal::Damaged => "a page is damaged",
            Refusal::None => "there is no record of this id",
            Refusal::Forwarded => "the id is that of a forwarded record's place",
            Refusal::Full => "no page has room",
            Refusal::Stale => "the inventory names a page that has no room",
            Refusal::Tally => "a figure of the tally would pass 2^64 - 1",
            Refusal::List => "the lengths don't sum to the bytes, or there are fewer places for ids than rows",
            Refusal::Room => "what is to be written does not fit in the place lent for it",
            Refusal::Mark => "a record of the file does not begin with 52 54",
            Refusal::Short => "the file ends within a record",
            Refusal::Rule => "another edition than 1 and 2, or rows outside 1 to 2,048",
        }
    }

    /// What a call's number means. The archive answers 0 to 8, 9 to a fill report, 10 to a list of rows, 11 to an export, a
    /// repair or a list of whole readings, 12 and 13 to an import, and 14 to the polishing rule; that is proved.
    pub(crate) fn of_answer(number: u64) -> Result<(), Refusal> {
        if number == 0 {
            return Ok(());
        }
        match Refusal::from_number(number) {
            Some(refusal) => Err(refusal),
            None => panic!("no answer has the number {number}: this is not the archive that the crate is for"),
        }
    }
}

/// Number, name and meaning: `5 NONE: there is no record of this id`.
impl fmt::Display for Refusal {
    fn fmt(&self, out: &mut fmt::Formatter<'_>) -> fmt::Result {
        write!(out, "{} {}: {}", self.number(), self.name(), self.meaning())
    }
}

impl Error for Refusal {}
