//! The worked examples of document 02's Ask 1, with every number that they tell of.

use Call::*;

/// A call before the report. `Write` and `Erase` have the id's page and slot first.
#[derive(Clone, Copy)]
pub enum Call {
    Insert(usize),
    Write(u64, u16, usize),
    Erase(u64, u16),
}

/// Pages, fresh pages, slots, records, record bytes, forwarded records, free bytes, and the pages of each class.
pub type Figures = [u64; 23];

/// A segment: its bytes, all alike, and over an inventory of zeros calls, and bytes set by hand. What a report answers, and the tally before
/// it and afterwards.
#[derive(Clone, Copy)]
pub struct Example {
    pub title: &'static str,
    pub bytes: usize,
    pub filled_with: u8,
    pub calls: &'static [Call],
    pub set: &'static [(usize, &'static [u8])],
    pub before: Figures,
    pub answer: u64,
    pub after: Figures,
}

impl Example {
    /// The bytes before the calls.
    pub fn segment(&self) -> Vec<u8> {
        vec![self.filled_with; self.bytes]
    }

    /// Sets bytes of what the calls have left.
    pub fn set(&self, segment: &mut [u8]) {
        self.set.iter().for_each(|&(from, bytes)| segment[from..][..bytes.len()].copy_from_slice(bytes));
    }
}

const PAGE: usize = 16384;
const MOST: u64 = u64::MAX;

/// So many pages, fresh pages, slots, records, record bytes, forwarded records and free bytes; and by class the pages that it has, where it has any.
const fn figures(seven: [u64; 7], classes: &[(usize, u64)]) -> Figures {
    let mut figures = [0; 23];
    let mut k = 0;
    while k < 7 {
        figures[k] = seven[k];
        k += 1;
    }
    k = 0;
    while k < classes.len() {
        figures[7 + classes[k].0] = classes[k].1;
        k += 1;
    }
    figures
}

const NOTHING: Figures = [0; 23];

/// (1,0) forwarded to (2,0).
const FORWARDED: &[Call] = &[Insert(16000), Insert(100), Insert(12000), Write(1, 0, 5000)];

const FORWARDED_ONCE: Figures = figures([3, 0, 4, 3, 33000, 1, 16076], &[(3, 1), (8, 1), (15, 1)]);

const EMPTY: Example = Example { title: "", bytes: PAGE, filled_with: 0, calls: &[], set: &[], before: NOTHING, answer: 0, after: NOTHING };

const THREE_BYTES: Example = Example { calls: &[Insert(3)], after: figures([1, 0, 1, 1, 3, 0, 16361], &[(2, 1)]), ..EMPTY };

pub const EXAMPLES: [Example; 16] = [
    Example { title: "1. No pages, and a tally of 2^64 - 1 throughout", bytes: 0, before: [MOST; 23], after: [MOST; 23], ..EMPTY },
    Example { title: "2. Two pages of zeros", bytes: 2 * PAGE, after: figures([2, 2, 0, 0, 0, 0, 0], &[(0, 2)]), ..EMPTY },
    Example { title: "3. Three bytes", ..THREE_BYTES },
    Example { title: "4. (1,0) forwarded to (2,0)", bytes: 3 * PAGE, calls: FORWARDED, after: FORWARDED_ONCE, ..EMPTY },
    Example {
        title: "5. The same again, with the tally of 4",
        bytes: 3 * PAGE,
        calls: FORWARDED,
        before: FORWARDED_ONCE,
        after: figures([6, 0, 8, 6, 66000, 2, 32152], &[(3, 2), (8, 2), (15, 2)]),
        ..EMPTY
    },
    Example {
        title: "6. Lengths 3, 4, 5, erased in order",
        calls: &[Insert(3), Insert(4), Insert(5), Erase(0, 0), Erase(0, 1), Erase(0, 2)],
        after: figures([1, 0, 1, 0, 0, 0, 16364], &[(2, 1)]),
        ..EMPTY
    },
    Example {
        title: "7. Record bytes would be 2^64",
        before: figures([0, 0, 0, 0, MOST - 2, 0, 0], &[]),
        answer: 9,
        after: figures([0, 0, 0, 0, MOST - 2, 0, 0], &[]),
        ..THREE_BYTES
    },
    Example {
        title: "8. Record bytes become 2^64 - 1",
        before: figures([0, 0, 0, 0, MOST - 3, 0, 0], &[]),
        after: figures([1, 0, 1, 1, MOST, 0, 16361], &[(2, 1)]),
        ..THREE_BYTES
    },
    Example {
        title: "9. A damaged page behind a sound one, and pages would pass 2^64 - 1",
        bytes: 2 * PAGE,
        set: &[(PAGE + 1, &[1])],
        before: figures([MOST, 0, 0, 0, 0, 0, 0], &[]),
        answer: 4,
        after: figures([MOST, 0, 0, 0, 0, 0, 0], &[]),
        ..THREE_BYTES
    },
    Example {
        title: "10. A target that no redirect names",
        bytes: 2 * PAGE,
        calls: &[Insert(12)],
        set: &[(12, &[0xC0])],
        after: figures([2, 1, 1, 1, 4, 1, 16352], &[(0, 1), (2, 1)]),
        ..EMPTY
    },
    Example { title: "11. 16,383 bytes", bytes: PAGE - 1, answer: 1, ..EMPTY },
    Example {
        title: "12. Twelve zero bytes, and then EE everywhere",
        filled_with: 0xEE,
        set: &[(0, &[0; 12])],
        after: figures([1, 1, 0, 0, 0, 0, 0], &[(0, 1)]),
        ..EMPTY
    },
    Example {
        title: "12. The initialised header, and then EE everywhere",
        filled_with: 0xEE,
        set: &[(0, &[0, 0, 0, 0, 0, 0, 0x40, 0, 0, 0, 0x3F, 0xF4])],
        after: figures([1, 1, 0, 0, 0, 0, 0], &[(0, 1)]),
        ..EMPTY
    },
    Example { title: "12b. Two zero bytes, and then EE everywhere", filled_with: 0xEE, set: &[(0, &[0; 2])], answer: 4, ..EMPTY },
    Example {
        title: "13. Class 2 would pass 2^64 - 1",
        before: figures([0; 7], &[(2, MOST)]),
        answer: 9,
        after: figures([0; 7], &[(2, MOST)]),
        ..THREE_BYTES
    },
    Example {
        title: "14. Fresh pages are 2^64 - 1, and the segment has none",
        before: figures([0, MOST, 0, 0, 0, 0, 0], &[]),
        after: figures([1, MOST, 1, 1, 3, 0, 16361], &[(2, 1)]),
        ..THREE_BYTES
    },
];
