// The published segment over lent bytes, as a store that can be compared.

use crate::access::slotted_page_segment::SlottedPageSegment;
use crate::storage::buffer_manager::{Lent, Stopped, INVENTORY, SEGMENT};
use crate::storage::page::PAGE_SIZE;
use crate::types::RelationTID;
use store::{caught, Answer, Found, Store, DONE};

/// The calls go to pages of their own; `segment` and `inventory` are copies of these, brought
/// up to date after each call with the pages that the call may have written.
pub struct LentStore {
    lent: Lent,
    called: SlottedPageSegment<Lent>,
    segment: Vec<u8>,
    inventory: Vec<u8>,
}

const NONE: Answer = Answer::Number(5);

fn stopped<T>(result: Result<T, Stopped>) -> Result<T, Answer> {
    result.map_err(|Stopped(answer)| answer)
}

fn end(result: Result<(), Answer>) -> Answer {
    result.err().unwrap_or(DONE)
}

fn new_id(result: Result<RelationTID, Answer>) -> (Answer, u64) {
    match result {
        Ok(tid) => (DONE, u64::from(&tid)),
        Err(answer) => (answer, 0),
    }
}

impl LentStore {
    pub fn new(segment: &[u8], inventory: &[u8]) -> LentStore {
        let lent = Lent::new(segment.len() / PAGE_SIZE);
        let called = SlottedPageSegment::new(lent.clone(), SEGMENT, INVENTORY);
        let mut made = LentStore {
            lent,
            called,
            segment: vec![0; segment.len()],
            inventory: vec![0; inventory.len()],
        };
        made.load(segment, inventory);
        made
    }

    fn call<T>(&mut self, call: impl FnOnce(&SlottedPageSegment<Lent>) -> Result<T, Stopped>) -> Result<T, Answer> {
        self.lent.begin_call();
        let result = caught(|| stopped(call(&self.called)));
        for frame in self.lent.written() {
            let copy = match frame * PAGE_SIZE {
                start if start < self.segment.len() => &mut self.segment[start..start + PAGE_SIZE],
                _ => &mut self.inventory[..],
            };
            copy.copy_from_slice(&self.lent.frame(frame));
        }
        result
    }
}

impl Store for LentStore {
    fn load(&mut self, segment: &[u8], inventory: &[u8]) {
        for (page, (new, old)) in segment.chunks(PAGE_SIZE).zip(self.segment.chunks_mut(PAGE_SIZE)).enumerate() {
            if new != old {
                self.lent.load(page, new);
                old.copy_from_slice(new);
            }
        }
        self.lent.load(self.lent.pages(), inventory);
        self.inventory.copy_from_slice(inventory);
    }

    fn bytes(&self) -> (&[u8], &[u8]) {
        (&self.segment, &self.inventory)
    }

    fn bytes_mut(&mut self) -> (&mut [u8], &mut [u8]) {
        (&mut self.segment, &mut self.inventory)
    }

    fn insert_record(&mut self, record: &[u8]) -> (Answer, u64) {
        new_id(self.call(|called| called.insert_record(record)))
    }

    fn allocate(&mut self, size: u64) -> (Answer, u64) {
        new_id(self.call(|called| called.allocate(size as _)))
    }

    fn get_record(&mut self, id: u64) -> (Answer, u64, u64) {
        let lent = self.lent.clone();
        let part = |record: &[u8]| (lent.offset_of(record), record.len() as u64);
        match self.call(|called| called.get_record(RelationTID::from(id), part)) {
            Ok(Some((offset, length))) => (DONE, offset, length),
            Ok(None) => (NONE, 0, 0),
            Err(answer) => (answer, 0, 0),
        }
    }

    fn write_record(&mut self, id: u64, record: &[u8]) -> Answer {
        end(self.call(|called| called.write_record(RelationTID::from(id), record)))
    }

    fn resize_record(&mut self, id: u64, size: u64) -> Answer {
        end(self.call(|called| called.resize_record(RelationTID::from(id), size as usize)))
    }

    fn erase_record(&mut self, id: u64) -> Answer {
        end(self.call(|called| called.erase_record(RelationTID::from(id))))
    }

    fn scan(&mut self) -> (Answer, Vec<Found>) {
        let lent = self.lent.clone();
        let mut found = Vec::new();
        let result = self.call(|called| {
            let part = |record: &[u8]| Some((lent.offset_of(record), record.len() as u64));
            let mut scan = called.clone().scan(part);
            let ended = scan.by_ref().try_for_each(|step| {
                let (tid, (offset, length)) = step?;
                found.push(Found { id: u64::from(&tid), offset, length });
                Ok(())
            });
            assert!(scan.next().is_none() && scan.next().is_none(), "a scan that is over went on");
            ended
        });
        (end(result), found)
    }
}
