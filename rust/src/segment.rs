//! The calls.

use crate::archive::{self, Place};
use crate::{
    Exported, Refusal, RepairRefusal, Rid, SlottedPageScan, Stopped, Tally, Touched, MAX_RECORD_SIZE, PAGE_SIZE,
};
use std::fmt;

/// The part of the segment that is a record.
pub(crate) fn part(segment: &[u8], place: Place) -> &[u8] {
    &segment[place.offset as usize..][..place.length as usize]
}

/// Lent bytes, for `Debug`: how many there are.
pub(crate) struct Bytes<'a>(pub &'a [u8]);

impl fmt::Debug for Bytes<'_> {
    fn fmt(&self, out: &mut fmt::Formatter<'_>) -> fmt::Result {
        write!(out, "{} bytes", self.0.len())
    }
}

/// A run of pages lent to be read: no inventory is needed, and nothing can be changed.
#[derive(Clone, Copy)]
pub struct SlottedPages<'a> {
    segment: &'a [u8],
}

impl<'a> SlottedPages<'a> {
    /// The records of `segment`, 0 to 32,527 whole pages; of any other length each call is refused
    /// by [`Refusal::Size`].
    pub fn new(segment: &'a [u8]) -> SlottedPages<'a> {
        SlottedPages { segment }
    }

    /// The number of pages.
    pub fn get_size(&self) -> u64 {
        (self.segment.len() / PAGE_SIZE) as u64
    }

    /// The record of an id, as it lies in the segment. Its page is checked first, and so is the
    /// page that it was forwarded to.
    pub fn get_record(&self, tid: Rid) -> Result<&'a [u8], Refusal> {
        let (answer, place) = archive::get_record(self.segment, tid.into());
        Refusal::of_answer(answer)?;
        Ok(part(self.segment, place))
    }

    /// All records with their ids, by page and slot. A page is checked when the scan reaches it.
    pub fn scan(&self) -> SlottedPageScan<'a> {
        SlottedPageScan::new(self.segment)
    }

    /// Adds the figures of these pages to a tally: pages, slots, records, free bytes and what else a [`Tally`] has. Lent to
    /// one call after the other it has the sum over all their segments, whatever their order. Nothing is allocated.
    ///
    /// The figures are exact, and from the pages alone, so an inventory that is not true does not touch them. Every page is
    /// checked. A segment of a wrong size is refused by [`Refusal::Size`], then one with a damaged page by
    /// [`Refusal::Damaged`], and then one with which a figure would pass 2^64 - 1 by [`Refusal::Tally`]. A segment that is
    /// refused adds nothing to any figure. A forwarded record is counted where it lies, and no redirect is followed: whether
    /// each leads to its record is told by [`is_sound`](SlottedPageSegment::is_sound).
    ///
    /// ```
    /// use hekatosuy::{Refusal, SlottedPageSegment, SlottedPages, Tally, PAGE_SIZE};
    ///
    /// // The segments of two benches, of two pages and of one, each with a row of 5,000 bytes.
    /// let mut benches = [vec![0; 2 * PAGE_SIZE], vec![0; PAGE_SIZE]];
    /// for pages in &mut benches {
    ///     SlottedPageSegment::new(pages, &mut [0; PAGE_SIZE]).insert_record(&[7; 5_000])?;
    /// }
    ///
    /// let mut tally = Tally::default();
    /// for pages in &benches {
    ///     SlottedPages::new(pages).fill_report(&mut tally)?;
    /// }
    /// assert_eq!((tally.pages, tally.fresh_pages), (3, 1));
    /// assert_eq!((tally.records, tally.record_bytes), (2, 10_000));
    /// assert_eq!(tally.free_bytes, 2 * (16_384 - 12 - 8 - 5_000));
    /// assert!(tally.to_string().contains("free bytes         22,728  69.4 % of the bytes of pages in use"));
    ///
    /// // A damaged segment adds nothing.
    /// let before = tally;
    /// benches[0][1] = 0; // the count of the first page's slots
    /// assert_eq!(SlottedPages::new(&benches[0]).fill_report(&mut tally), Err(Refusal::Damaged));
    /// assert_eq!(tally, before);
    /// # Ok::<(), Refusal>(())
    /// ```
    pub fn fill_report(&self, tally: &mut Tally) -> Result<(), Refusal> {
        Refusal::of_answer(archive::fill_report(self.segment, tally))
    }

    /// Writes all readings as an exchange file to the first bytes of `file`, and tells its length and how many records it
    /// passed over. Bytes behind the file stay as they were. Nothing is allocated.
    ///
    /// A reading is a record of 8 bytes or more: mirror (4 bytes), reading (2) and row (2), and then its data. In the file
    /// each is 52 54, these 8 bytes, the length of the data (2), all numbers big-endian, and the data. They come as in a
    /// [`scan`](SlottedPages::scan), a forwarded one where it lies. A record of fewer than 8 bytes is no reading.
    /// [`SlottedPageSegment::import`] takes such a file; into empty pages, where all of it goes in, it puts the same readings,
    /// each as often as before, though their ids and order may differ.
    ///
    /// A segment of a wrong size is refused by [`Refusal::Size`], then one with a damaged page by [`Refusal::Damaged`], and
    /// then a file longer than the place by [`Refusal::Room`]; nothing is written then. A place as long as the segment
    /// always suffices, and [`exported`](SlottedPages::exported) tells how long it has to be.
    ///
    /// ```
    /// use hekatosuy::{Exported, Refusal, SlottedPageSegment, PAGE_SIZE};
    ///
    /// let (mut pages, mut inventory) = (vec![0; PAGE_SIZE], vec![0; PAGE_SIZE]);
    /// let mut segment = SlottedPageSegment::new(&mut pages, &mut inventory);
    /// segment.insert_record(&[0, 0, 0, 7, 0, 1, 0, 2, 0xAA, 0xBB, 0xCC])?; // mirror 7, reading 1, row 2
    /// segment.insert_record(b"a note")?; // no reading
    ///
    /// let mut place = [0xEE; 17];
    /// let told = segment.pages().export(&mut place)?;
    /// assert_eq!(told, Exported { length: 15, passed: 1 });
    /// assert_eq!(place[..told.length], [0x52, 0x54, 0, 0, 0, 7, 0, 1, 0, 2, 0, 3, 0xAA, 0xBB, 0xCC]);
    /// assert_eq!(place[told.length..], [0xEE, 0xEE]);
    /// assert_eq!(segment.pages().export(&mut place[..14]), Err(Refusal::Room));
    /// # Ok::<(), Refusal>(())
    /// ```
    pub fn export(&self, file: &mut [u8]) -> Result<Exported, Refusal> {
        Exported::of_answer(archive::export(self.segment, file))
    }

    /// What an [`export`](SlottedPages::export) will tell, without writing it: how long a place it needs, and how many records
    /// it passes over.
    ///
    /// ```
    /// # use hekatosuy::{SlottedPageSegment, PAGE_SIZE};
    /// # let (mut pages, mut inventory) = (vec![0; PAGE_SIZE], vec![0; PAGE_SIZE]);
    /// # let mut segment = SlottedPageSegment::new(&mut pages, &mut inventory);
    /// # segment.insert_record(&[7; 1_000])?;
    /// let mut file = vec![0; segment.pages().exported()?.length];
    /// segment.pages().export(&mut file)?;
    /// # assert_eq!(file.len(), 1_004);
    /// # Ok::<(), hekatosuy::Refusal>(())
    /// ```
    pub fn exported(&self) -> Result<Exported, Refusal> {
        // no room: the answer is 0 where the file has no bytes, else 11, and both tell its length
        let (answer, length, passed) = archive::export(self.segment, &mut []);
        Exported::of_answer((if answer == Refusal::Room.number() { 0 } else { answer }, length, passed))
    }

    /// Whether a mirror is cleared for polishing, by its readings of so many rows and an edition of the rule sheet.
    ///
    /// A reading is whole when each row from 0 to `rows - 1` is there once and no other. Edition 1: at least two whole readings.
    /// Edition 2: at least three, of which at least one is numbered below 32,768 (as mounted) and one from there on (turned).
    /// The answer is `true` exactly then; [`whole_readings`](SlottedPages::whole_readings) tells why. Nothing is allocated.
    ///
    /// Judged are the readings, the records of 8 bytes or more, as [`SlottedPageSegment::import`] stores them: mirror (4 bytes),
    /// reading (2), row (2). Their data plays no part, and a shorter record neither helps nor spoils. A row that is there
    /// twice spoils its reading, with equal data too. A forwarded record counts where it lies, and no redirect is followed.
    ///
    /// A segment of a wrong size is refused by [`Refusal::Size`], then another edition, or rows outside 1 to 2,048, by
    /// [`Refusal::Rule`], and then a damaged page by [`Refusal::Damaged`], also where the other pages would clear the
    /// mirror.
    ///
    /// ```
    /// use hekatosuy::{Refusal, SlottedPageSegment, PAGE_SIZE};
    ///
    /// let (mut pages, mut inventory) = (vec![0; PAGE_SIZE], vec![0; PAGE_SIZE]);
    /// let mut segment = SlottedPageSegment::new(&mut pages, &mut inventory);
    ///
    /// // Mirror 7, of two rows: reading 1 as mounted, and 32,768 (80 00), turned.
    /// for [reading, row] in [[0x00_01_u16, 0], [0x00_01, 1], [0x80_00, 1], [0x80_00, 0]] {
    ///     let head = [&7_u32.to_be_bytes()[..], &reading.to_be_bytes(), &row.to_be_bytes()].concat();
    ///     segment.insert_record(&head)?;
    /// }
    /// assert_eq!(segment.pages().cleared(7, 2, 1), Ok(true));
    /// assert_eq!(segment.pages().cleared(7, 2, 2), Ok(false)); // two are too few
    /// assert_eq!(segment.pages().cleared(7, 3, 1), Ok(false)); // the third row is missing
    /// assert_eq!(segment.pages().cleared(7, 2, 3), Err(Refusal::Rule));
    ///
    /// // Row 1 of reading 1 once more: it is spoiled.
    /// segment.insert_record(&[0, 0, 0, 7, 0, 1, 0, 1])?;
    /// assert_eq!(segment.pages().cleared(7, 2, 1), Ok(false));
    /// # Ok::<(), Refusal>(())
    /// ```
    pub fn cleared(&self, mirror: u32, rows: u64, edition: u64) -> Result<bool, Refusal> {
        let (answer, cleared) = archive::cleared(self.segment, mirror.into(), rows, edition);
        Refusal::of_answer(answer).map(|()| cleared == 1)
    }

    /// The numbers of the readings of a mirror that are whole, upward: why it is [`cleared`](SlottedPages::cleared) or not.
    ///
    /// The refusals are those of [`cleared`](SlottedPages::cleared); there is no edition here.
    ///
    /// ```
    /// # use hekatosuy::{SlottedPageSegment, PAGE_SIZE};
    /// # let (mut pages, mut inventory) = (vec![0; PAGE_SIZE], vec![0; PAGE_SIZE]);
    /// # let mut segment = SlottedPageSegment::new(&mut pages, &mut inventory);
    /// # segment.insert_record(&[0, 0, 0, 7, 0, 1, 0, 0])?;
    /// # segment.insert_record(&[0, 0, 0, 7, 0x80, 1, 0, 0])?;
    /// # segment.insert_record(&[0, 0, 0, 7, 0x80, 2, 0, 1])?;
    /// let whole = segment.pages().whole_readings(7, 1)?;
    /// assert_eq!(whole, [1, 32_769]);
    /// assert_eq!(segment.pages().cleared(7, 1, 1)?, whole.len() >= 2);
    /// # Ok::<(), hekatosuy::Refusal>(())
    /// ```
    pub fn whole_readings(&self, mirror: u32, rows: u64) -> Result<Vec<u16>, Refusal> {
        let mut words = [0; 1024];
        Refusal::of_answer(archive::whole_readings(self.segment, mirror.into(), rows, &mut words))?;
        let some = words.iter().copied().enumerate().filter(|&(_, word)| word != 0);
        Ok(some.flat_map(readings_of).collect())
    }
}

/// The scan.
impl<'a> IntoIterator for &SlottedPages<'a> {
    type Item = Result<(Rid, &'a [u8]), Refusal>;
    type IntoIter = SlottedPageScan<'a>;

    fn into_iter(self) -> SlottedPageScan<'a> {
        self.scan()
    }
}

/// How many bytes are lent, and not the bytes.
impl fmt::Debug for SlottedPages<'_> {
    fn fmt(&self, out: &mut fmt::Formatter<'_>) -> fmt::Result {
        out.debug_struct("SlottedPages").field("segment", &Bytes(self.segment)).finish()
    }
}

/// A segment and its inventory, lent for as long as this is held.
///
/// The bytes are the caller's: pages all zero and an inventory all zero are an empty store, and
/// what the calls leave there can be kept in a file and lent again.
pub struct SlottedPageSegment<'a> {
    segment: &'a mut [u8],
    inventory: &'a mut [u8],
}

impl<'a> SlottedPageSegment<'a> {
    /// A store over `segment`, 0 to 32,527 whole pages, and `inventory`, one page. Nothing is read
    /// here; of any other length each call is refused by [`Refusal::Size`].
    pub fn new(segment: &'a mut [u8], inventory: &'a mut [u8]) -> SlottedPageSegment<'a> {
        SlottedPageSegment { segment, inventory }
    }

    /// The longest record, 16,364 bytes.
    pub const fn get_max_record_size() -> usize {
        MAX_RECORD_SIZE
    }

    /// The number of pages.
    pub fn get_size(&self) -> u64 {
        self.pages().get_size()
    }

    /// The same pages, to be read only.
    pub fn pages(&self) -> SlottedPages<'_> {
        SlottedPages::new(self.segment)
    }

    /// The lent pages.
    pub fn segment(&self) -> &[u8] {
        self.segment
    }

    /// The lent inventory.
    pub fn inventory(&self) -> &[u8] {
        self.inventory
    }

    /// Stores a record where the inventory says that there is room, and gives its id.
    pub fn insert_record(&mut self, data: &[u8]) -> Result<Rid, Refusal> {
        new_record(archive::insert_record(self.segment, self.inventory, data))
    }

    /// Stores many records, whose bytes stand end to end in `rows`. `lengths` has the length of each, and the id of each is
    /// written to its place in `ids`, which may have more places than there are rows. Nothing is allocated.
    ///
    /// This equals [`insert_record`](SlottedPageSegment::insert_record) of one row after the other, by its ids, its refusal and
    /// every byte, in damaged segments and with untrue inventories too. A page that many rows go to is not checked anew for
    /// each of them.
    ///
    /// It stops at the first row that is refused. [`Stopped`] has that row's refusal and tells how many rows went in: these
    /// stay, and later places of `ids` keep what they were. Before any row, wrong sizes are refused by [`Refusal::Size`], and
    /// then a list whose lengths don't sum to the bytes, or that has fewer places than rows, by [`Refusal::List`]. An empty
    /// list without bytes does nothing, and is not refused.
    ///
    /// ```
    /// use hekatosuy::{Refusal, Rid, SlottedPageSegment, Stopped, PAGE_SIZE};
    ///
    /// // A map: its rows end to end, the length of each, and places for their ids.
    /// let map = [7; 24_015];
    /// let lengths = [15, 12_000, 12_000];
    /// let nowhere = Rid::from(u64::MAX);
    /// let mut ids = [nowhere; 3];
    ///
    /// // One page has room for two of them.
    /// let (mut pages, mut inventory) = (vec![0; PAGE_SIZE], vec![0; PAGE_SIZE]);
    /// let mut segment = SlottedPageSegment::new(&mut pages, &mut inventory);
    /// let stopped = segment.insert_records(&map, &lengths, &mut ids).unwrap_err();
    /// assert_eq!(stopped, Stopped { rows: 2, refusal: Refusal::Full });
    /// assert_eq!(stopped.to_string(), "2 rows went in, the next was refused: 7 FULL: no page has room");
    /// assert_eq!(ids, [Rid::new(0, 0), Rid::new(0, 1), nowhere]);
    ///
    /// // With one page more it goes on, from the row that was refused.
    /// pages.resize(2 * PAGE_SIZE, 0);
    /// let mut segment = SlottedPageSegment::new(&mut pages, &mut inventory);
    /// let stored = lengths[..stopped.rows].iter().sum::<u64>() as usize;
    /// segment.insert_records(&map[stored..], &lengths[stopped.rows..], &mut ids[stopped.rows..])?;
    /// assert_eq!(ids, [Rid::new(0, 0), Rid::new(0, 1), Rid::new(1, 0)]);
    /// assert_eq!(segment.get_record(ids[0])?, &map[..15]);
    /// # Ok::<(), Box<dyn std::error::Error>>(())
    /// ```
    pub fn insert_records(&mut self, rows: &[u8], lengths: &[u64], ids: &mut [Rid]) -> Result<(), Stopped> {
        Stopped::of_answer(archive::insert_records(self.segment, self.inventory, rows, lengths, ids)).map(|_| ())
    }

    /// Stores the records of an exchange file, in the file's order, and gives how many there are. The records that the
    /// segment has already stay as they are. Nothing is allocated.
    ///
    /// A file is any number of records end to end: 52 54, mirror (4 bytes), reading (2), row (2), the length of the data (2),
    /// all numbers big-endian, and then the data, of at most 16,356 bytes. The store's record is the 8 bytes of mirror, reading
    /// and row, and then the data. [`SlottedPages::export`] writes such a file.
    ///
    /// The file is read through before anything is stored. Wrong sizes are refused by [`Refusal::Size`]; then, record by
    /// record, fewer than 12 bytes by [`Refusal::Short`], another mark by [`Refusal::Mark`], a length above 16,356 by
    /// [`Refusal::Long`], and data that is cut off by [`Refusal::Short`]; nothing has changed then. After that this equals
    /// [`insert_records`](SlottedPageSegment::insert_records) with the same records: it stops at the first that is refused, and
    /// [`Stopped`] tells how many went in, which stay. A file of no bytes does nothing, and is not refused.
    ///
    /// ```
    /// use hekatosuy::{Refusal, Rid, SlottedPageSegment, Stopped, PAGE_SIZE};
    ///
    /// let (mut pages, mut inventory) = (vec![0; PAGE_SIZE], vec![0; PAGE_SIZE]);
    /// let mut segment = SlottedPageSegment::new(&mut pages, &mut inventory);
    ///
    /// // Mirror 7, reading 1: row 2 with three bytes, row 3 without data.
    /// let file = [
    ///     0x52, 0x54, 0, 0, 0, 7, 0, 1, 0, 2, 0, 3, 0xAA, 0xBB, 0xCC, //
    ///     0x52, 0x54, 0, 0, 0, 7, 0, 1, 0, 3, 0, 0,
    /// ];
    /// assert_eq!(segment.import(&file)?, 2);
    /// assert_eq!(segment.get_record(Rid::new(0, 0))?, [0, 0, 0, 7, 0, 1, 0, 2, 0xAA, 0xBB, 0xCC]);
    ///
    /// // A file that is cut off is not stored in part.
    /// let stopped = segment.import(&file[..26]).unwrap_err();
    /// assert_eq!(stopped, Stopped { rows: 0, refusal: Refusal::Short });
    /// assert_eq!(stopped.to_string(), "no row went in: 13 SHORT: the file ends within a record");
    /// assert_eq!(segment.scan().count(), 2);
    /// # Ok::<(), Box<dyn std::error::Error>>(())
    /// ```
    pub fn import(&mut self, file: &[u8]) -> Result<u64, Stopped> {
        Stopped::of_answer(archive::import(self.segment, self.inventory, file))
    }

    /// Stores a record of `size` zeros.
    pub fn allocate(&mut self, size: usize) -> Result<Rid, Refusal> {
        new_record(archive::allocate(self.segment, self.inventory, size as u64))
    }

    /// The record of an id; see [`SlottedPages::get_record`].
    pub fn get_record(&self, tid: Rid) -> Result<&[u8], Refusal> {
        self.pages().get_record(tid)
    }

    /// Puts `data` in the place of a record, of any length. The record keeps its id.
    pub fn write_record(&mut self, tid: Rid, data: &[u8]) -> Result<(), Refusal> {
        Refusal::of_answer(archive::write_record(self.segment, self.inventory, tid.into(), data))
    }

    /// Cuts a record off at `size` bytes, or adds zeros up to there. The record keeps its id.
    pub fn resize_record(&mut self, tid: Rid, size: usize) -> Result<(), Refusal> {
        Refusal::of_answer(archive::resize_record(self.segment, self.inventory, tid.into(), size as u64))
    }

    /// Removes a record.
    pub fn erase_record(&mut self, tid: Rid) -> Result<(), Refusal> {
        Refusal::of_answer(archive::erase_record(self.segment, self.inventory, tid.into()))
    }

    /// All records with their ids; see [`SlottedPages::scan`].
    pub fn scan(&self) -> SlottedPageScan<'_> {
        self.pages().scan()
    }

    /// Adds the figures of the pages to a tally; see [`SlottedPages::fill_report`]. The inventory is not looked at.
    pub fn fill_report(&self, tally: &mut Tally) -> Result<(), Refusal> {
        self.pages().fill_report(tally)
    }

    /// Makes the segment and its inventory sound, whatever their bytes, and keeps what can be kept. Gives the part of
    /// `list` that it has filled, an entry for each slot, header and inventory that it changed; the rest of the list is as
    /// it was. A sound segment gets no entry and keeps each byte.
    ///
    /// What could be read can still be read, under the same id and in the same place. No record's bytes are changed: a
    /// record that is freed still lies there, and so does one on a page whose header became zeros. Who wants the old
    /// slots keeps the old bytes; the entries tell where to look.
    ///
    /// Not seen by a repair: a slot that is wrong but lies well, a record changed in its bytes, and a page whose header
    /// became that of a fresh one.
    ///
    /// Where the list is too short nothing is changed, and [`RepairRefusal::Room`] tells how many entries are needed, also
    /// for an empty list; 2,047 a page and one more always suffice.
    ///
    /// ```
    /// use hekatosuy::{At, Change, RepairRefusal, SlottedPageSegment, Touched, PAGE_SIZE};
    ///
    /// let (mut pages, mut inventory) = (vec![0; PAGE_SIZE], vec![0; PAGE_SIZE]);
    /// let mut segment = SlottedPageSegment::new(&mut pages, &mut inventory);
    /// let first = segment.insert_record(b"mirror 7, row 1")?;
    /// let second = segment.insert_record(b"mirror 7, row 2")?;
    ///
    /// pages[12] = 0x3F; // the first slot's record is said to lie past the page
    /// let mut segment = SlottedPageSegment::new(&mut pages, &mut inventory);
    /// assert_eq!(segment.repair(&mut []), Err(RepairRefusal::Room { needed: 2 }));
    /// let mut list = [Touched::default(); 20];
    /// let told = segment.repair(&mut list)?;
    /// assert_eq!(told.len(), 2);
    /// assert_eq!((told[0].tid(), told[0].change()), (Some(first), Change::RecordFreed));
    /// assert_eq!(told[0].to_string(), "page 0, slot 0: record freed, it did not lie as it must");
    /// assert_eq!((told[1].at(), told[1].change()), (At::Header, Change::HeaderWorkedOut));
    /// assert_eq!(segment.get_record(second)?, b"mirror 7, row 2");
    /// assert!(segment.is_sound());
    /// # Ok::<(), Box<dyn std::error::Error>>(())
    /// ```
    pub fn repair<'l>(&mut self, list: &'l mut [Touched]) -> Result<&'l [Touched], RepairRefusal> {
        let count = RepairRefusal::of_answer(archive::repair(self.segment, self.inventory, list))?;
        Ok(&list[..count])
    }

    /// As [`repair`](SlottedPageSegment::repair), with a list that is as long as it has to be.
    ///
    /// ```
    /// # use hekatosuy::{SlottedPageSegment, PAGE_SIZE};
    /// let (mut pages, mut inventory) = (vec![0xA5; PAGE_SIZE], vec![0; PAGE_SIZE]);
    /// for touched in SlottedPageSegment::new(&mut pages, &mut inventory).repair_all()? {
    ///     println!("{touched}"); // page 0: header zeroed, its records are lost
    /// }
    /// # Ok::<(), hekatosuy::RepairRefusal>(())
    /// ```
    pub fn repair_all(&mut self) -> Result<Vec<Touched>, RepairRefusal> {
        let needed = match self.repair(&mut []) {
            Err(RepairRefusal::Room { needed }) => needed,
            other => return other.map(<[Touched]>::to_vec),
        };
        let mut list = vec![Touched::default(); needed];
        self.repair(&mut list)?;
        Ok(list)
    }

    /// Whether the segment is sound and the inventory tells the truth about it: then a repair would change nothing, and
    /// no call is refused by [`Refusal::Damaged`] or [`Refusal::Stale`]. One of a wrong size is not. Nothing is changed;
    /// it takes `&mut self` because the archive's call is a repair, with an empty list.
    pub fn is_sound(&mut self) -> bool {
        self.repair(&mut []).is_ok()
    }
}

/// The scan.
impl<'a> IntoIterator for &'a SlottedPageSegment<'_> {
    type Item = Result<(Rid, &'a [u8]), Refusal>;
    type IntoIter = SlottedPageScan<'a>;

    fn into_iter(self) -> SlottedPageScan<'a> {
        self.scan()
    }
}

/// How many bytes are lent, and not the bytes.
impl fmt::Debug for SlottedPageSegment<'_> {
    fn fmt(&self, out: &mut fmt::Formatter<'_>) -> fmt::Result {
        out.debug_struct("SlottedPageSegment")
            .field("segment", &Bytes(self.segment))
            .field("inventory", &Bytes(self.inventory))
            .finish()
    }
}

/// The readings whose bits are 1 in a word: bit r % 64 of word r / 64 tells of reading r.
fn readings_of((number, word): (usize, u64)) -> impl Iterator<Item = u16> {
    (0..64).filter(move |bit| word >> bit & 1 == 1).map(move |bit| (64 * number + bit) as u16)
}

fn new_record((answer, id): (u64, u64)) -> Result<Rid, Refusal> {
    Refusal::of_answer(answer)?;
    Ok(Rid::from(id))
}
