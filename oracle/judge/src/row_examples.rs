//! The thirteen worked examples of document 02's Ask 2, with every number that they tell of.

use crate::cases::{erase, id, insert};
use crate::poke::{self, poke_store};
use crate::repairs::LEFTOVER;
use crate::sequence::Event;
use model::Model;
use store::{perform, Store, DONE, PAGE_SIZE};

/// A store, a list, and what the call answers and leaves. The rows' bytes are 00, 01, 02, .. end to end.
pub struct Example {
    pub title: &'static str,
    pub segment: Vec<u8>,
    pub inventory: Vec<u8>,
    pub lengths: Vec<u64>,
    pub rows: Vec<u8>,
    pub places: usize,
    /// The answer and the rows told.
    answer: (u64, u64),
    /// The ids' pages and slots.
    ids: Vec<(u64, u64)>,
    /// Bytes of the segment, from an offset on.
    left: Vec<(usize, Vec<u8>)>,
}

impl Example {
    fn new(title: &'static str, n: usize, before: &[Event], (lengths, bytes, places): (&[u64], usize, usize)) -> Example {
        let mut model = Model::new(&vec![0; n * PAGE_SIZE], &[0; PAGE_SIZE]);
        for event in before {
            match event {
                Event::Call(call) => assert_eq!(perform(&mut model, *call).answer, DONE, "{title}: {call}"),
                Event::Pokes(pokes) => poke_store(&mut model, pokes),
            }
        }
        Example {
            title,
            segment: model.segment().to_vec(),
            inventory: model.inventory().to_vec(),
            lengths: lengths.to_vec(),
            rows: (0..bytes).map(|k| k as u8).collect(),
            places,
            answer: (0, 0),
            ids: vec![],
            left: vec![],
        }
    }

    fn answers(self, answer: u64, told: u64, ids: &[(u64, u64)]) -> Example {
        Example { answer: (answer, told), ids: ids.to_vec(), ..self }
    }

    fn leaves(mut self, offset: usize, bytes: &[u8]) -> Example {
        self.left.push((offset, bytes.to_vec()));
        self
    }

    /// The id places as they are before the call.
    pub fn ids(&self) -> Vec<u64> {
        (0..self.places as u64).map(|k| LEFTOVER + k).collect()
    }

    /// What a call has answered and left.
    pub fn check(&self, answer: (u64, u64), ids: &[u64], segment: &[u8], inventory: &[u8]) -> Result<(), String> {
        let fails = |what: &str| Err(format!("{}: {what}", self.title));
        let mut wanted = self.ids();
        self.ids.iter().zip(&mut wanted).for_each(|(&(page, slot), place)| *place = id(page, slot));
        if answer != self.answer || ids != wanted {
            return fails(&format!("answers {answer:?}, ids {ids:?}"));
        }
        if answer.1 == 0 && (segment != self.segment || inventory != self.inventory) {
            return fails("a byte changed");
        }
        if !self.left.iter().all(|(offset, bytes)| segment[*offset..][..bytes.len()] == bytes[..]) {
            return fails("leaves other bytes");
        }
        self.check_rows(&wanted, segment, inventory)
    }

    /// Each row is read back by its id.
    fn check_rows(&self, ids: &[u64], segment: &[u8], inventory: &[u8]) -> Result<(), String> {
        let mut model = Model::new(segment, inventory);
        let mut rest = &self.rows[..];
        for k in 0..self.answer.1 as usize {
            let (row, after) = rest.split_at(self.lengths[k] as usize);
            let (answer, offset, length) = model.get_record(ids[k]);
            if answer != DONE || segment[offset as usize..][..length as usize] != *row {
                return Err(format!("{}: row {k} is not read back", self.title));
            }
            rest = after;
        }
        Ok(())
    }
}

const LARGE: u64 = 1 << 63;

/// Document 01's page P2, of one record of three bytes.
const P2: [u8; 20] = [0, 1, 0, 1, 0, 0, 0x3F, 0xFD, 0, 0, 0x3F, 0xE9, 0, 0, 0x3F, 0xFD, 0, 0, 0, 3];

const THREE_ROWS: [u8; 36] = [
    0x00, 0x03, 0x00, 0x03, 0x00, 0x00, 0x3F, 0xF8, 0x00, 0x00, 0x3F, 0xD4, //
    0x00, 0x00, 0x3F, 0xFD, 0x00, 0x00, 0x00, 0x03, //
    0x00, 0x00, 0x3F, 0xFD, 0x00, 0x00, 0x00, 0x00, //
    0x00, 0x00, 0x3F, 0xF8, 0x00, 0x00, 0x00, 0x05,
];

pub fn examples() -> Vec<Example> {
    let new = Example::new;
    let damaged = [insert(3), Event::Pokes(vec![poke::count(1, 1)])];
    let gaps = [insert(5000), insert(5000), insert(3000), erase(id(0, 1))];
    let short_inventory = |title, bytes| {
        let whole = new(title, 1, &[], (&[], bytes, 0));
        Example { inventory: vec![0; 16383], ..whole }.answers(1, 0, &[])
    };
    vec![
        new("1", 2, &[], (&[3, 0, 5], 8, 4)).answers(0, 3, &[(0, 0), (0, 1), (0, 2)]).leaves(0, &THREE_ROWS),
        new("2", 2, &[], (&[], 0, 1)).answers(0, 0, &[]),
        new("3", 2, &[], (&[], 1, 1)).answers(10, 0, &[]),
        new("4", 2, &[], (&[3, 5], 8, 1)).answers(10, 0, &[]),
        new("5", 2, &[], (&[LARGE, LARGE], 0, 2)).answers(10, 0, &[]),
        new("6", 2, &[], (&[3, 16365, 3], 16371, 3)).answers(3, 1, &[(0, 0)]).leaves(0, &P2),
        new("7", 1, &[], (&[3, 12271], 12274, 2)).answers(7, 1, &[(0, 0)]),
        new("8", 1, &[], (&[3, 12270], 12273, 2)).answers(0, 2, &[(0, 0), (0, 1)]).leaves(8, &4083_u32.to_be_bytes()),
        new("9", 3, &[], (&[12000, 20, 12000, 20], 24040, 4)).answers(0, 4, &[(0, 0), (0, 1), (1, 0), (0, 2)]),
        new("10", 0, &[], (&[0, 0], 0, 2)).answers(7, 0, &[]),
        new("11", 2, &damaged, (&[100, 16256], 16356, 2)).answers(4, 1, &[(0, 1)]),
        short_inventory("12, no bytes", 0),
        short_inventory("12, a byte", 1),
        new("13", 1, &gaps, (&[10, 3338], 3348, 2))
            .answers(0, 2, &[(0, 1), (0, 3)])
            .leaves(4, &5036_u32.to_be_bytes())
            .leaves(8, &4992_u32.to_be_bytes()),
    ]
}
