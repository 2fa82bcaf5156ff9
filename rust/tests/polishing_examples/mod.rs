//! The seventeen worked examples of document 02's Ask 9, and which readings are whole in each.
#![allow(dead_code)] // no test uses all of it

use Call::*;

const PAGE: usize = 16384;

/// A call before the question. `Row` inserts a record of 9 bytes, of mirror 7 with this reading and row; `Erase` has the id's page and
/// slot.
#[derive(Clone, Copy)]
pub enum Call {
    Row(u16, u16),
    Insert(&'static [u8]),
    Erase(u64, u16),
}

/// A segment: so many bytes of zeros, and over an inventory of zeros calls, and bytes set by hand. What is asked, and the answer; and what a
/// list of the whole readings answers, which asks for no edition.
#[derive(Clone, Copy)]
pub struct Example {
    pub title: &'static str,
    pub bytes: usize,
    pub calls: &'static [Call],
    pub set: &'static [(usize, u8)],
    pub mirror: u64,
    pub rows: u64,
    pub edition: u64,
    pub answer: u64,
    pub cleared: u64,
    pub listed: u64,
    pub whole: &'static [u16],
}

/// The record of a row.
pub fn record(reading: u16, row: u16) -> [u8; 9] {
    let ([a, b], [c, d]) = (reading.to_be_bytes(), row.to_be_bytes());
    [0, 0, 0, 7, a, b, c, d, 0xDD]
}

const EMPTY: Example = Example {
    title: "",
    bytes: PAGE,
    calls: &[],
    set: &[],
    mirror: 7,
    rows: 1,
    edition: 1,
    answer: 0,
    cleared: 0,
    listed: 0,
    whole: &[],
};

const FIRST: Example = Example { calls: &[Row(1, 0), Row(1, 1), Row(2, 1), Row(2, 0)], rows: 2, whole: &[1, 2], ..EMPTY };

/// The first, and a second page all zero but its count 1.
const DAMAGED: Example = Example { bytes: 2 * PAGE, set: &[(PAGE + 1, 1)], answer: 4, listed: 4, whole: &[], ..FIRST };

pub const EXAMPLES: [Example; 19] = [
    Example { title: "1. Two readings of two rows", cleared: 1, ..FIRST },
    Example { title: "2. The same by edition 2", edition: 2, ..FIRST },
    Example { title: "3. The same of one row: both have another", rows: 1, whole: &[], ..FIRST },
    Example { title: "4. The same of three rows", rows: 3, whole: &[], ..FIRST },
    Example {
        title: "5. A row twice",
        calls: &[Row(1, 0), Row(1, 1), Row(2, 0), Row(2, 1), Row(2, 0)],
        rows: 2,
        whole: &[1],
        ..EMPTY
    },
    Example {
        title: "6. A row twice, and one missing",
        calls: &[Row(1, 0), Row(1, 1), Row(2, 0), Row(2, 0)],
        rows: 2,
        whole: &[1],
        ..EMPTY
    },
    Example {
        title: "7. A row twice, and erased once",
        calls: &[Row(1, 0), Row(1, 1), Row(2, 0), Row(2, 1), Row(2, 1), Erase(0, 4)],
        rows: 2,
        cleared: 1,
        whole: &[1, 2],
        ..EMPTY
    },
    Example { title: "8. Three as mounted", calls: &[Row(1, 0), Row(2, 0), Row(3, 0)], edition: 2, whole: &[1, 2, 3], ..EMPTY },
    Example {
        title: "9. Two as mounted, and one turned",
        calls: &[Row(1, 0), Row(32767, 0), Row(32768, 0)],
        edition: 2,
        cleared: 1,
        whole: &[1, 32767, 32768],
        ..EMPTY
    },
    Example {
        title: "10. Three turned",
        calls: &[Row(32768, 0), Row(32769, 0), Row(65535, 0)],
        edition: 2,
        whole: &[32768, 32769, 65535],
        ..EMPTY
    },
    Example {
        title: "11. Two of each",
        calls: &[Row(1, 0), Row(2, 0), Row(32768, 0), Row(32769, 0)],
        edition: 2,
        cleared: 1,
        whole: &[1, 2, 32768, 32769],
        ..EMPTY
    },
    Example { title: "12. One of each", calls: &[Row(1, 0), Row(32768, 0)], edition: 2, whole: &[1, 32768], ..EMPTY },
    Example { title: "13. A damaged page", ..DAMAGED },
    Example { title: "14. A damaged page, and edition 3", edition: 3, answer: 14, ..DAMAGED },
    Example { title: "14. A damaged page, and no rows", rows: 0, answer: 14, listed: 14, ..DAMAGED },
    Example { title: "14. A damaged page, and 2,049 rows", rows: 2049, answer: 14, listed: 14, ..DAMAGED },
    Example { title: "15. 16,383 bytes, and edition 3", bytes: PAGE - 1, edition: 3, answer: 1, listed: 1, ..EMPTY },
    Example { title: "16. Mirror 2^32 + 7", mirror: (1 << 32) + 7, whole: &[], ..FIRST },
    Example {
        title: "17. Seven bytes",
        calls: &[Row(1, 0), Row(2, 0), Insert(&[0x00, 0x00, 0x00, 0x07, 0x00, 0x01, 0x00])],
        cleared: 1,
        whole: &[1, 2],
        ..EMPTY
    },
];
