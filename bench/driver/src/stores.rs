//! The published Rust, the corrected Rust, the archive, the model, and a store that does nothing.
//!
//! The published and the corrected Rust are called as they are, over the judge's stand-in for the
//! buffer manager; nothing of the judge's comparison is between the driver and them.

use std::hint::black_box;
use store::{Answer, Store as _};
use workload::{refused, summary, Subject};

/// A store over bytes of its own.
pub trait Held: Subject {
    fn new(segment: &[u8], inventory: &[u8]) -> Self;

    /// Shows the pages and the inventory, as they are now.
    fn show(&self, see: &mut dyn FnMut(&[u8]));
}

fn refused_by(answer: Answer) -> u64 {
    match answer {
        Answer::Number(number) => refused(number),
        Answer::PastEnd | Answer::Endless | Answer::Panic => refused(9),
    }
}

#[inline(always)]
fn fold(sum: u64, id: u64, summary: u64) -> u64 {
    (sum.rotate_left(7) ^ id).rotate_left(7) ^ summary
}

macro_rules! published {
    ($name:ident, $from:ident) => {
        pub struct $name {
            lent: $from::storage::buffer_manager::Lent,
            called: $from::access::slotted_page_segment::SlottedPageSegment<$from::storage::buffer_manager::Lent>,
        }

        impl Held for $name {
            fn new(segment: &[u8], inventory: &[u8]) -> $name {
                use $from::storage::buffer_manager::{Lent, INVENTORY, SEGMENT};
                let pages = segment.chunks(workload::PAGE_SIZE);
                let lent = Lent::new(pages.len());
                pages.chain([inventory]).enumerate().for_each(|(frame, bytes)| lent.load(frame, bytes));
                let called = $from::access::slotted_page_segment::SlottedPageSegment::new(lent.clone(), SEGMENT, INVENTORY);
                $name { lent, called }
            }

            fn show(&self, see: &mut dyn FnMut(&[u8])) {
                (0..=self.lent.pages()).for_each(|frame| see(&self.lent.frame(frame)));
            }
        }

        impl Subject for $name {
            fn insert_record(&mut self, record: &[u8]) -> u64 {
                self.lent.begin_call();
                self.called.insert_record(record).map_or_else(|stopped| refused_by(stopped.0), |tid| u64::from(&tid))
            }

            fn get_record(&mut self, id: u64) -> u64 {
                self.lent.begin_call();
                match self.called.get_record(id.into(), summary) {
                    Ok(Some(summary)) => summary,
                    Ok(None) => refused(5),
                    Err(stopped) => refused_by(stopped.0),
                }
            }

            fn write_record(&mut self, id: u64, record: &[u8]) -> u64 {
                self.lent.begin_call();
                self.called.write_record(id.into(), record).map_or_else(|stopped| refused_by(stopped.0), |()| 0)
            }

            fn resize_record(&mut self, id: u64, size: u64) -> u64 {
                self.lent.begin_call();
                self.called.resize_record(id.into(), size as usize).map_or_else(|stopped| refused_by(stopped.0), |()| 0)
            }

            fn erase_record(&mut self, id: u64) -> u64 {
                self.lent.begin_call();
                self.called.erase_record(id.into()).map_or_else(|stopped| refused_by(stopped.0), |()| 0)
            }

            fn scan(&mut self) -> u64 {
                self.lent.begin_call();
                let mut sum = 0;
                for step in self.called.clone().scan(|record: &[u8]| Some(summary(record))) {
                    match step {
                        Ok((tid, summary)) => sum = fold(sum, u64::from(&tid), summary),
                        Err(stopped) => return refused_by(stopped.0),
                    }
                }
                sum
            }
        }
    };
}

published!(Original, original);
published!(Corrected, corrected);

/// The archive, through the crate for users in Rust.
#[cfg(feature = "ours")]
pub struct Ours {
    segment: Vec<u8>,
    inventory: Vec<u8>,
}

/// A store that takes rows by lists.
#[cfg(feature = "ours")]
pub trait Lists: Held {
    /// Whether all rows went in; their ids are then in their places.
    fn insert_records(&mut self, rows: &[u8], lengths: &[u64], ids: &mut [hekatosuy::Rid]) -> bool;
}

#[cfg(feature = "ours")]
pub use ours::scan;

#[cfg(feature = "ours")]
mod ours {
    use super::{fold, Held, Lists, Nothing, Ours};
    use hekatosuy::{Refusal, Rid, SlottedPageSegment, SlottedPages};
    use std::hint::black_box;
    use workload::{refused, summary, Subject};

    fn told<T>(result: Result<T, Refusal>, done: impl FnOnce(T) -> u64) -> u64 {
        result.map_or_else(|refusal| refused(refusal.number()), done)
    }

    impl Ours {
        fn lend(&mut self) -> SlottedPageSegment<'_> {
            SlottedPageSegment::new(&mut self.segment, &mut self.inventory)
        }

        /// Whether all records of an exchange file went in.
        pub fn import(&mut self, file: &[u8]) -> bool {
            self.lend().import(file).is_ok()
        }
    }

    impl Held for Ours {
        fn new(segment: &[u8], inventory: &[u8]) -> Ours {
            Ours { segment: segment.to_vec(), inventory: inventory.to_vec() }
        }

        fn show(&self, see: &mut dyn FnMut(&[u8])) {
            self.segment.chunks(workload::PAGE_SIZE).for_each(&mut *see);
            see(&self.inventory);
        }
    }

    impl Subject for Ours {
        fn insert_record(&mut self, record: &[u8]) -> u64 {
            told(self.lend().insert_record(record), u64::from)
        }

        fn get_record(&mut self, id: u64) -> u64 {
            told(SlottedPages::new(&self.segment).get_record(id.into()), summary)
        }

        fn write_record(&mut self, id: u64, record: &[u8]) -> u64 {
            told(self.lend().write_record(id.into(), record), |()| 0)
        }

        fn resize_record(&mut self, id: u64, size: u64) -> u64 {
            told(self.lend().resize_record(id.into(), size as usize), |()| 0)
        }

        fn erase_record(&mut self, id: u64) -> u64 {
            told(self.lend().erase_record(id.into()), |()| 0)
        }

        fn scan(&mut self) -> u64 {
            let mut sum = 0;
            for step in SlottedPages::new(&self.segment).scan() {
                match step {
                    Ok((tid, record)) => sum = fold(sum, tid.into(), summary(record)),
                    Err(refusal) => return refused(refusal.number()),
                }
            }
            sum
        }
    }

    extern "C" {
        fn hk_scan_step(
            segment: *const u8,
            segment_len: usize,
            position: *mut u64,
            found: *mut u64,
            id: *mut u64,
            offset: *mut u64,
            length: *mut u64,
        ) -> u64;
    }

    /// How many records a scan by the archive's own step gives, not through the crate's iterator, and their bytes; nothing where it is
    /// refused.
    #[inline(never)]
    pub fn scan(segment: &[u8]) -> Option<(u64, u64)> {
        let (mut position, mut found, mut id, mut offset, mut length) = (0, 0, 0, 0, 0);
        let (mut records, mut bytes) = (0, 0);
        loop {
            let answer = unsafe {
                hk_scan_step(segment.as_ptr(), segment.len(), &mut position, &mut found, &mut id, &mut offset, &mut length)
            };
            if answer != 0 {
                return None;
            }
            if found == 0 {
                return Some((records, bytes));
            }
            records += 1;
            bytes += length;
        }
    }

    impl Lists for Ours {
        fn insert_records(&mut self, rows: &[u8], lengths: &[u64], ids: &mut [Rid]) -> bool {
            self.lend().insert_records(rows, lengths, ids).is_ok()
        }
    }

    impl Lists for Nothing {
        fn insert_records(&mut self, rows: &[u8], lengths: &[u64], ids: &mut [Rid]) -> bool {
            black_box(rows);
            black_box(lengths);
            black_box(ids);
            true
        }
    }
}

/// Does nothing: what is counted with it is the driver's own.
pub struct Nothing;

impl Held for Nothing {
    fn new(_segment: &[u8], _inventory: &[u8]) -> Nothing {
        Nothing
    }

    fn show(&self, _see: &mut dyn FnMut(&[u8])) {}
}

impl Subject for Nothing {
    fn insert_record(&mut self, record: &[u8]) -> u64 {
        black_box(record).len() as u64
    }

    fn get_record(&mut self, id: u64) -> u64 {
        black_box(id)
    }

    fn write_record(&mut self, id: u64, record: &[u8]) -> u64 {
        black_box(record);
        black_box(id)
    }

    fn resize_record(&mut self, id: u64, size: u64) -> u64 {
        black_box(size);
        black_box(id)
    }

    fn erase_record(&mut self, id: u64) -> u64 {
        black_box(id)
    }

    fn scan(&mut self) -> u64 {
        black_box(0)
    }
}

/// Document 01's steps as the judge has them: what every store must answer and leave, and which
/// faults of the published Rust the calls meet.
pub struct Modelled {
    pub model: model::Model,
    pub faults: u32,
    pub refusals: u64,
}

impl Modelled {
    fn noted<T>(&mut self, call: impl FnOnce(&mut model::Model) -> T) -> T {
        self.model.notes.faults = 0;
        let told = call(&mut self.model);
        self.faults |= self.model.notes.faults;
        told
    }

    fn told(&mut self, answer: Answer, value: u64) -> u64 {
        if answer == store::DONE {
            return value;
        }
        self.refusals += 1;
        refused_by(answer)
    }

    fn summary_at(&self, offset: u64, length: u64) -> u64 {
        summary(&self.model.segment()[offset as usize..][..length as usize])
    }
}

impl Held for Modelled {
    fn new(segment: &[u8], inventory: &[u8]) -> Modelled {
        Modelled { model: model::Model::new(segment, inventory), faults: 0, refusals: 0 }
    }

    fn show(&self, see: &mut dyn FnMut(&[u8])) {
        self.model.segment().chunks(workload::PAGE_SIZE).for_each(&mut *see);
        see(self.model.inventory());
    }
}

impl Subject for Modelled {
    fn insert_record(&mut self, record: &[u8]) -> u64 {
        let (answer, id) = self.noted(|model| model.insert_record(record));
        self.told(answer, id)
    }

    fn get_record(&mut self, id: u64) -> u64 {
        let (answer, offset, length) = self.noted(|model| model.get_record(id));
        let summary = self.summary_at(offset, length);
        self.told(answer, summary)
    }

    fn write_record(&mut self, id: u64, record: &[u8]) -> u64 {
        let answer = self.noted(|model| model.write_record(id, record));
        self.told(answer, 0)
    }

    fn resize_record(&mut self, id: u64, size: u64) -> u64 {
        let answer = self.noted(|model| model.resize_record(id, size));
        self.told(answer, 0)
    }

    fn erase_record(&mut self, id: u64) -> u64 {
        let answer = self.noted(|model| model.erase_record(id));
        self.told(answer, 0)
    }

    fn scan(&mut self) -> u64 {
        let (answer, found) = self.noted(|model| model.scan());
        let sum = found.iter().fold(0, |sum, found| fold(sum, found.id, self.summary_at(found.offset, found.length)));
        self.told(answer, sum)
    }
}

/// A sum of all bytes of stores.
pub fn sum_of_bytes<S: Held>(stores: &[S]) -> u64 {
    let mut sum: u64 = 0;
    let mut see = |bytes: &[u8]| {
        for word in bytes.chunks_exact(8) {
            let word = u64::from_le_bytes(word.try_into().expect("a word has eight bytes"));
            sum = (sum ^ word).wrapping_mul(0x9E37_79B9_7F4A_7C15).rotate_left(29);
        }
    };
    stores.iter().for_each(|store| store.show(&mut see));
    sum
}
