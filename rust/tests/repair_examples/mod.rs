//! The thirty worked examples of document 02's Ask 4, with every byte that they tell of.

use Call::*;
use Left::*;
use Where::*;

/// A call before the damage. `Write` has the id's page and slot before the length.
#[derive(Clone, Copy)]
pub enum Call {
    Insert(usize),
    Write(u64, u16, usize),
}

/// Where bytes are set by hand.
#[derive(Clone, Copy)]
pub enum Where {
    Page(usize),
    Inventory,
}

/// What is left: a slot by page and number, a page's header, the inventory's entries and first nibbles with zeros behind them.
#[derive(Clone, Copy)]
pub enum Left {
    Slot(usize, usize, [u8; 8]),
    Header(usize, [u8; 12]),
    True([u64; 15], &'static [u8]),
}

/// Pages and an inventory of zeros, calls, and bytes set by hand: what repair answers, tells and leaves. What is not told of stays.
#[derive(Clone, Copy)]
pub struct Example {
    pub title: &'static str,
    pub pages: usize,
    pub calls: &'static [Call],
    pub set: &'static [(Where, usize, &'static [u8])],
    pub entries: &'static [[u64; 3]],
    pub after: &'static [Left],
    /// Where the list is too short, its words, and how many entries are told to be needed; else the answer is 0.
    pub too_few: Option<(usize, usize)>,
}

impl Example {
    /// Damages the pages and the inventory that the calls have left.
    pub fn damage(&self, pages: &mut [u8], inventory: &mut [u8]) {
        for &(place, from, bytes) in self.set {
            match place {
                Page(page) => pages[page * 16384 + from..][..bytes.len()].copy_from_slice(bytes),
                Inventory => inventory[from..][..bytes.len()].copy_from_slice(bytes),
            }
        }
    }

    /// Does to the damaged bytes what the example tells.
    pub fn mend(&self, pages: &mut [u8], inventory: &mut [u8]) {
        for left in self.after {
            match *left {
                Slot(page, slot, bytes) => pages[page * 16384 + 12 + 8 * slot..][..8].copy_from_slice(&bytes),
                Header(page, bytes) => pages[page * 16384..][..12].copy_from_slice(&bytes),
                True(entries, nibbles) => {
                    inventory.fill(0);
                    entries.iter().enumerate().for_each(|(c, entry)| inventory[8 * c..8 * c + 8].copy_from_slice(&entry.to_le_bytes()));
                    nibbles.iter().enumerate().for_each(|(page, nibble)| inventory[120 + page / 2] |= nibble << (4 * (page % 2)));
                }
            }
        }
    }
}

/// Three records on one page.
const THREE: &[Call] = &[Insert(3), Insert(4), Insert(5)];

/// (1,0) forwarded to (2,0).
const FORWARDED: &[Call] = &[Insert(16000), Insert(100), Insert(12000), Write(1, 0, 5000)];

const SOUND: Example = Example { title: "", pages: 1, calls: THREE, set: &[], entries: &[], after: &[], too_few: None };

pub const EXAMPLES: [Example; 30] = [
    Example {
        title: "1. A sound segment",
        ..SOUND
    },
    Example {
        title: "2. Sound, though it looks odd: data start as low as the directory's end, a free slot with low bits set, an empty record inside the directory",
        set: &[
            (Page(0), 4, &[0, 0, 0, 0x24]),
            (Page(0), 20, &[0x40, 0, 0, 0, 0, 0, 0, 0x07]),
            (Page(0), 2, &[0, 0x01]),
            (Page(0), 28, &[0, 0, 0, 0x0C, 0, 0, 0, 0]),
            (Page(0), 8, &[0, 0, 0x3F, 0xD9]),
        ],
        ..SOUND
    },
    Example {
        title: "3. The count's two bytes wiped",
        set: &[(Page(0), 0, &[0, 0])],
        entries: &[[0, 65535, 5], [1, 65536, 6]],
        after: &[
            Header(0, [0, 0, 0, 0, 0, 0, 0, 0, 0, 0, 0, 0]),
            True([0, 0, 0, 0, 0, 0, 0, 0, 0, 0, 0, 0, 0, 0, 0], &[0]),
        ],
        ..SOUND
    },
    Example {
        title: "4. Count 2,047",
        set: &[(Page(0), 0, &[0x07, 0xFF])],
        entries: &[[0, 65535, 5], [1, 65536, 6]],
        after: &[
            Header(0, [0, 0, 0, 0, 0, 0, 0, 0, 0, 0, 0, 0]),
            True([0, 0, 0, 0, 0, 0, 0, 0, 0, 0, 0, 0, 0, 0, 0], &[0]),
        ],
        ..SOUND
    },
    Example {
        title: "5. A header wiped whole is a fresh page; only the inventory can tell",
        set: &[(Page(0), 0, &[0, 0, 0, 0, 0, 0, 0, 0, 0, 0, 0, 0])],
        entries: &[[1, 65536, 6]],
        after: &[True([0, 0, 0, 0, 0, 0, 0, 0, 0, 0, 0, 0, 0, 0, 0], &[0])],
        ..SOUND
    },
    Example {
        title: "6. Data start one below the directory's end, and first free wrong: each number for itself",
        set: &[(Page(0), 2, &[0, 0]), (Page(0), 4, &[0, 0, 0, 0x23])],
        entries: &[[0, 65535, 4]],
        after: &[Header(0, [0, 0x03, 0, 0x03, 0, 0, 0x3F, 0xF4, 0, 0, 0x3F, 0xD0])],
        ..SOUND
    },
    Example {
        title: "7. First free wrong, data start lower than it need be: the latter stays",
        set: &[(Page(0), 2, &[0, 0]), (Page(0), 4, &[0, 0, 0x3F, 0])],
        entries: &[[0, 65535, 4]],
        after: &[Header(0, [0, 0x03, 0, 0x03, 0, 0, 0x3F, 0, 0, 0, 0x3F, 0xD0])],
        ..SOUND
    },
    Example {
        title: "8. Data start above a record",
        set: &[(Page(0), 4, &[0, 0, 0x3F, 0xF5])],
        entries: &[[0, 65535, 4]],
        after: &[Header(0, [0, 0x03, 0, 0x03, 0, 0, 0x3F, 0xF4, 0, 0, 0x3F, 0xD0])],
        ..SOUND
    },
    Example {
        title: "9. A record leaves the page by one byte",
        set: &[(Page(0), 12, &[0, 0, 0x3F, 0xFD, 0, 0, 0, 0x04])],
        entries: &[[0, 0, 1], [0, 65535, 4]],
        after: &[
            Slot(0, 0, [0x40, 0, 0, 0, 0, 0, 0, 0]),
            Header(0, [0, 0x03, 0, 0, 0, 0, 0x3F, 0xF4, 0, 0, 0x3F, 0xD3]),
        ],
        ..SOUND
    },
    Example {
        title: "10. The lower slot is kept; what overlaps only a freed record is kept too",
        set: &[(Page(0), 20, &[0, 0, 0x3F, 0xFB, 0, 0, 0, 0x04]), (Page(0), 28, &[0, 0, 0x3F, 0xF8, 0, 0, 0, 0x05])],
        entries: &[[0, 1, 1], [0, 65535, 4]],
        after: &[
            Slot(0, 1, [0x40, 0, 0, 0, 0, 0, 0, 0]),
            Header(0, [0, 0x03, 0, 0x01, 0, 0, 0x3F, 0xF4, 0, 0, 0x3F, 0xD4]),
        ],
        ..SOUND
    },
    Example {
        title: "11. Reaching into the directory by one byte; just not reaching into it",
        set: &[(Page(0), 20, &[0, 0, 0, 0x24, 0, 0, 0, 0x04]), (Page(0), 28, &[0, 0, 0, 0x23, 0, 0, 0, 0x01])],
        entries: &[[0, 2, 1], [0, 65535, 4]],
        after: &[
            Slot(0, 2, [0x40, 0, 0, 0, 0, 0, 0, 0]),
            Header(0, [0, 0x03, 0, 0x02, 0, 0, 0, 0x24, 0, 0, 0x3F, 0xD5]),
        ],
        ..SOUND
    },
    Example {
        title: "12. Empty records: at 16,384 one stays, past it one goes",
        set: &[(Page(0), 20, &[0, 0, 0x40, 0, 0, 0, 0, 0]), (Page(0), 28, &[0, 0, 0x40, 0x01, 0, 0, 0, 0])],
        entries: &[[0, 2, 1], [0, 65535, 4]],
        after: &[
            Slot(0, 2, [0x40, 0, 0, 0, 0, 0, 0, 0]),
            Header(0, [0, 0x03, 0, 0x02, 0, 0, 0x3F, 0xF4, 0, 0, 0x3F, 0xD9]),
        ],
        ..SOUND
    },
    Example {
        title: "13. A count one too high: the leftover bytes behind the directory are read as a slot",
        set: &[(Page(0), 1, &[0x04]), (Page(0), 36, &[0, 0, 0x3F, 0xF2, 0, 0, 0, 0x09])],
        entries: &[[0, 3, 1], [0, 65535, 4]],
        after: &[
            Slot(0, 3, [0x40, 0, 0, 0, 0, 0, 0, 0]),
            Header(0, [0, 0x04, 0, 0x03, 0, 0, 0x3F, 0xF4, 0, 0, 0x3F, 0xC8]),
        ],
        ..SOUND
    },
    Example {
        title: "14. A target under 8 bytes, and one of exactly 8 that nothing names",
        calls: &[Insert(8), Insert(7)],
        set: &[
            (Page(0), 12, &[0xC0, 0, 0x3F, 0xF8, 0, 0, 0, 0x08]),
            (Page(0), 20, &[0xC0, 0, 0x3F, 0xF1, 0, 0, 0, 0x07]),
        ],
        entries: &[[0, 0, 3], [0, 1, 1], [0, 65535, 4]],
        after: &[
            Slot(0, 0, [0, 0, 0x40, 0, 0, 0, 0, 0]),
            Slot(0, 1, [0x40, 0, 0, 0, 0, 0, 0, 0]),
            Header(0, [0, 0x02, 0, 0x01, 0, 0, 0x3F, 0xF1, 0, 0, 0x3F, 0xE4]),
        ],
        ..SOUND
    },
    Example {
        title: "15. The back id names another slot",
        pages: 3,
        calls: FORWARDED,
        set: &[(Page(2), 11383, &[0x01])],
        entries: &[[1, 0, 2], [1, 65535, 4], [2, 0, 3], [2, 65535, 4]],
        after: &[
            Slot(1, 0, [0x40, 0, 0, 0, 0, 0, 0, 0]),
            Header(1, [0, 0x02, 0, 0, 0, 0, 0x10, 0xBC, 0, 0, 0x11, 0x04]),
            Slot(2, 0, [0, 0, 0x2C, 0x78, 0, 0, 0x13, 0x88]),
            Header(2, [0, 0x01, 0, 0x01, 0, 0, 0x2C, 0x70, 0, 0, 0x2C, 0x64]),
        ],
        ..SOUND
    },
    Example {
        title: "16. The same with two words too few",
        pages: 3,
        calls: FORWARDED,
        set: &[(Page(2), 11383, &[0x01])],
        too_few: Some((10, 4)),
        ..SOUND
    },
    Example {
        title: "17. The redirect names page n",
        pages: 3,
        calls: FORWARDED,
        set: &[(Page(1), 12, &[0x80, 0, 0, 0, 0, 0x03, 0, 0])],
        entries: &[[1, 0, 2], [1, 65535, 4], [2, 0, 3], [2, 65535, 4]],
        after: &[
            Slot(1, 0, [0x40, 0, 0, 0, 0, 0, 0, 0]),
            Header(1, [0, 0x02, 0, 0, 0, 0, 0x10, 0xBC, 0, 0, 0x11, 0x04]),
            Slot(2, 0, [0, 0, 0x2C, 0x78, 0, 0, 0x13, 0x88]),
            Header(2, [0, 0x01, 0, 0x01, 0, 0, 0x2C, 0x70, 0, 0, 0x2C, 0x64]),
        ],
        ..SOUND
    },
    Example {
        title: "18. A bit high in the redirect's id",
        pages: 3,
        calls: FORWARDED,
        set: &[(Page(1), 12, &[0x80, 0x01, 0, 0, 0, 0x02, 0, 0])],
        entries: &[[1, 0, 2], [1, 65535, 4], [2, 0, 3], [2, 65535, 4]],
        after: &[
            Slot(1, 0, [0x40, 0, 0, 0, 0, 0, 0, 0]),
            Header(1, [0, 0x02, 0, 0, 0, 0, 0x10, 0xBC, 0, 0, 0x11, 0x04]),
            Slot(2, 0, [0, 0, 0x2C, 0x78, 0, 0, 0x13, 0x88]),
            Header(2, [0, 0x01, 0, 0x01, 0, 0, 0x2C, 0x70, 0, 0, 0x2C, 0x64]),
        ],
        ..SOUND
    },
    Example {
        title: "19. A second redirect names the target",
        pages: 3,
        calls: FORWARDED,
        set: &[(Page(1), 20, &[0x80, 0, 0, 0, 0, 0x02, 0, 0])],
        entries: &[[1, 1, 2], [1, 65535, 4], [3, 65536, 6]],
        after: &[
            Slot(1, 1, [0x40, 0, 0, 0, 0, 0, 0, 0]),
            Header(1, [0, 0x02, 0, 0x01, 0, 0, 0x10, 0xBC, 0, 0, 0x3F, 0xE4]),
            True([3, 3, 1, 1, 1, 1, 1, 1, 1, 1, 1, 1, 1, 1, 1], &[15, 2, 3]),
        ],
        ..SOUND
    },
    Example {
        title: "20. A second target points back to the redirect",
        pages: 3,
        calls: FORWARDED,
        set: &[(Page(0), 12, &[0xC0, 0, 0x01, 0x80, 0, 0, 0x3E, 0x80]), (Page(0), 384, &[0, 0, 0, 0, 0, 0x01, 0, 0])],
        entries: &[[0, 0, 3], [0, 65535, 4]],
        after: &[
            Slot(0, 0, [0, 0, 0x01, 0x88, 0, 0, 0x3E, 0x78]),
            Header(0, [0, 0x01, 0, 0x01, 0, 0, 0x01, 0x80, 0, 0, 0x01, 0x74]),
        ],
        ..SOUND
    },
    Example {
        title: "21. Redirect and target on one page",
        calls: &[Insert(0), Insert(10)],
        set: &[
            (Page(0), 12, &[0x80, 0, 0, 0, 0, 0, 0, 0x01]),
            (Page(0), 20, &[0xC0, 0, 0x3F, 0xF6, 0, 0, 0, 0x0A]),
            (Page(0), 16374, &[0, 0, 0, 0, 0, 0, 0, 0]),
        ],
        entries: &[[0, 0, 2], [0, 1, 3], [0, 65535, 4]],
        after: &[
            Slot(0, 0, [0x40, 0, 0, 0, 0, 0, 0, 0]),
            Slot(0, 1, [0, 0, 0x3F, 0xFE, 0, 0, 0, 0x02]),
            Header(0, [0, 0x02, 0, 0, 0, 0, 0x3F, 0xF6, 0, 0, 0x3F, 0xE2]),
        ],
        ..SOUND
    },
    Example {
        title: "22. The target's page is lost",
        pages: 3,
        calls: FORWARDED,
        set: &[(Page(2), 0, &[0xFF, 0xFF])],
        entries: &[[1, 0, 2], [1, 65535, 4], [2, 65535, 5], [3, 65536, 6]],
        after: &[
            Slot(1, 0, [0x40, 0, 0, 0, 0, 0, 0, 0]),
            Header(1, [0, 0x02, 0, 0, 0, 0, 0x10, 0xBC, 0, 0, 0x11, 0x04]),
            Header(2, [0, 0, 0, 0, 0, 0, 0, 0, 0, 0, 0, 0]),
            True([2, 2, 2, 2, 2, 2, 2, 2, 1, 1, 1, 1, 1, 1, 1], &[15, 8, 0]),
        ],
        ..SOUND
    },
    Example {
        title: "23. The root's page is lost",
        pages: 3,
        calls: FORWARDED,
        set: &[(Page(1), 0, &[0, 0])],
        entries: &[[1, 65535, 5], [2, 0, 3], [2, 65535, 4], [3, 65536, 6]],
        after: &[
            Header(1, [0, 0, 0, 0, 0, 0, 0, 0, 0, 0, 0, 0]),
            Slot(2, 0, [0, 0, 0x2C, 0x78, 0, 0, 0x13, 0x88]),
            Header(2, [0, 0x01, 0, 0x01, 0, 0, 0x2C, 0x70, 0, 0, 0x2C, 0x64]),
            True([1, 1, 1, 1, 1, 1, 1, 1, 1, 1, 1, 1, 1, 1, 1], &[15, 0, 3]),
        ],
        ..SOUND
    },
    Example {
        title: "24. The target is freed, since it overlaps a lower slot: its redirect goes with it",
        pages: 3,
        calls: &[Insert(16000), Insert(100), Insert(12000), Write(1, 0, 5000), Insert(6000)],
        set: &[
            (Page(2), 12, &[0, 0, 0x15, 0, 0, 0, 0x17, 0x71]),
            (Page(2), 20, &[0xC0, 0, 0x2C, 0x70, 0, 0, 0x13, 0x90]),
            (Page(1), 12, &[0x80, 0, 0, 0, 0, 0x02, 0, 0x01]),
        ],
        entries: &[[1, 0, 2], [1, 65535, 4], [2, 1, 1], [2, 65535, 4], [3, 65536, 6]],
        after: &[
            Slot(1, 0, [0x40, 0, 0, 0, 0, 0, 0, 0]),
            Header(1, [0, 0x02, 0, 0, 0, 0, 0x10, 0xBC, 0, 0, 0x11, 0x04]),
            Slot(2, 1, [0x40, 0, 0, 0, 0, 0, 0, 0]),
            Header(2, [0, 0x02, 0, 0x01, 0, 0, 0x15, 0, 0, 0, 0x28, 0x73]),
            True([3, 3, 3, 2, 2, 2, 2, 2, 1, 1, 1, 1, 1, 1, 1], &[15, 8, 3]),
        ],
        ..SOUND
    },
    Example {
        title: "25. Nothing but the inventory: a nibble past the last page",
        set: &[(Inventory, 16383, &[0xF0])],
        entries: &[[1, 65536, 6]],
        after: &[True([1, 1, 0, 0, 0, 0, 0, 0, 0, 0, 0, 0, 0, 0, 0], &[2])],
        ..SOUND
    },
    Example {
        title: "26. No page at all, and an inventory that is not all zero",
        pages: 0,
        calls: &[],
        set: &[(Inventory, 0, &[0x01])],
        entries: &[[0, 65536, 6]],
        after: &[True([0, 0, 0, 0, 0, 0, 0, 0, 0, 0, 0, 0, 0, 0, 0], &[])],
        ..SOUND
    },
    Example {
        title: "27. An initialised header without a record is fresh and stays",
        calls: &[],
        set: &[(Page(0), 0, &[0, 0, 0, 0, 0, 0, 0x40, 0, 0, 0, 0x3F, 0xF4])],
        ..SOUND
    },
    Example {
        title: "28. The last two slots are freed: the count stays",
        set: &[(Page(0), 20, &[0, 0, 0x3F, 0xF9, 0, 0, 0, 0x08]), (Page(0), 28, &[0, 0, 0x3F, 0xFC, 0, 0, 0, 0x05])],
        entries: &[[0, 1, 1], [0, 2, 1], [0, 65535, 4]],
        after: &[
            Slot(0, 1, [0x40, 0, 0, 0, 0, 0, 0, 0]),
            Slot(0, 2, [0x40, 0, 0, 0, 0, 0, 0, 0]),
            Header(0, [0, 0x03, 0, 0x01, 0, 0, 0x3F, 0xF4, 0, 0, 0x3F, 0xD9]),
        ],
        ..SOUND
    },
    Example {
        title: "29. Empty records, one inside another record, one low in the page: they stay, and data start does not look at them",
        set: &[
            (Page(0), 4, &[0, 0, 0, 0]),
            (Page(0), 20, &[0, 0, 0x3F, 0xFE, 0, 0, 0, 0]),
            (Page(0), 28, &[0, 0, 0, 0x64, 0, 0, 0, 0]),
        ],
        entries: &[[0, 65535, 4]],
        after: &[Header(0, [0, 0x03, 0, 0x03, 0, 0, 0x3F, 0xFD, 0, 0, 0x3F, 0xD9])],
        ..SOUND
    },
    Example {
        title: "30. A bit high in the back id",
        pages: 3,
        calls: FORWARDED,
        set: &[(Page(2), 11376, &[0x01])],
        entries: &[[1, 0, 2], [1, 65535, 4], [2, 0, 3], [2, 65535, 4]],
        after: &[
            Slot(1, 0, [0x40, 0, 0, 0, 0, 0, 0, 0]),
            Header(1, [0, 0x02, 0, 0, 0, 0, 0x10, 0xBC, 0, 0, 0x11, 0x04]),
            Slot(2, 0, [0, 0, 0x2C, 0x78, 0, 0, 0x13, 0x88]),
            Header(2, [0, 0x01, 0, 0x01, 0, 0, 0x2C, 0x70, 0, 0, 0x2C, 0x64]),
        ],
        ..SOUND
    },
];
