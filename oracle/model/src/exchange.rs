//! The bench exchange file, of document 02's Ask 7: a plain second implementation, written from the request's
//! words. It has its own reading and writing of the file; the records go into any store one at a time by that
//! store's insert, and come out of it by its scan.

use crate::page::PAGE;
use store::{Answer, Store, DONE};

const SIZE: u64 = 1;
const LONG: u64 = 3;
const ROOM: u64 = 11;
const MARK: u64 = 12;
const SHORT: u64 = 13;

/// The records of a file, each as the store has it, or the number of what is wrong with the first record that is not one.
pub fn parse(file: &[u8]) -> Result<Vec<Vec<u8>>, u64> {
    let mut records = Vec::new();
    let mut left = file;
    while !left.is_empty() {
        if left.len() < 12 {
            return Err(SHORT);
        }
        let (begin, behind) = left.split_at(12);
        if begin[..2] != [0x52, 0x54] {
            return Err(MARK);
        }
        let length = usize::from(begin[10]) * 256 + usize::from(begin[11]);
        if length > 16356 {
            return Err(LONG);
        }
        if behind.len() < length {
            return Err(SHORT);
        }
        let (data, rest) = behind.split_at(length);
        records.push([&begin[2..10], data].concat());
        left = rest;
    }
    Ok(records)
}

/// The file of records of 8 to 16,364 bytes.
pub fn file_of(records: &[&[u8]]) -> Vec<u8> {
    let mut file = Vec::new();
    for record in records {
        let (head, data) = record.split_at(8);
        file.extend([0x52, 0x54]);
        file.extend(head);
        file.extend([(data.len() / 256) as u8, (data.len() % 256) as u8]);
        file.extend(data);
    }
    file
}

pub(crate) fn is_segment(bytes: &[u8]) -> bool {
    bytes.len() % PAGE == 0 && bytes.len() / PAGE <= 32527
}

/// The records that the store's scan gives, or the number that it ends with.
pub(crate) fn scanned(store: &mut dyn Store) -> Result<Vec<&[u8]>, u64> {
    let found = match store.scan() {
        (DONE, found) => found,
        (Answer::Number(number), _) => return Err(number),
        (ended, _) => panic!("a scan ends by {ended}"),
    };
    let bytes = store.segment();
    Ok(found.iter().map(|found| &bytes[found.offset as usize..][..found.length as usize]).collect())
}

/// The answer, and how many records went in.
pub fn import(store: &mut dyn Store, file: &[u8]) -> (u64, u64) {
    let (segment, inventory) = store.bytes();
    if !is_segment(segment) || inventory.len() != PAGE {
        return (SIZE, 0);
    }
    let records = match parse(file) {
        Ok(records) => records,
        Err(number) => return (number, 0),
    };
    let mut inserted = 0;
    for record in &records {
        match store.insert_record(record).0 {
            DONE => inserted += 1,
            Answer::Number(number) => return (number, inserted),
            ended => panic!("an insert ends by {ended}"),
        }
    }
    (0, inserted)
}

/// The answer, the file's length, and how many records are no readings; the file is in the first bytes of `place` where the answer is 0.
pub fn export(store: &mut dyn Store, place: &mut [u8]) -> (u64, u64, u64) {
    if !is_segment(store.segment()) {
        return (SIZE, 0, 0);
    }
    let records = match scanned(store) {
        Ok(records) => records,
        Err(number) => return (number, 0, 0),
    };
    let (readings, others): (Vec<&[u8]>, Vec<&[u8]>) = records.into_iter().partition(|record| record.len() >= 8);
    let file = file_of(&readings);
    let told = (file.len() as u64, others.len() as u64);
    if place.len() < file.len() {
        return (ROOM, told.0, told.1);
    }
    place[..file.len()].copy_from_slice(&file);
    (0, told.0, told.1)
}
