//! The polishing rule, of document 02's Ask 9: a plain second implementation, written from the request's words. It
//! counts how often each row of each reading is there, among the records that any store's scan gives.

use crate::exchange::{is_segment, scanned};
use std::collections::BTreeMap;
use store::Store;

const SIZE: u64 = 1;
const ROOM: u64 = 11;
const RULE: u64 = 14;

fn number(bytes: &[u8]) -> u64 {
    bytes.iter().fold(0, |sum, &byte| sum * 256 + u64::from(byte))
}

/// Each reading of the mirror, with how often each of its rows is there.
fn times(records: &[&[u8]], mirror: u64) -> BTreeMap<u64, BTreeMap<u64, u64>> {
    let mut times: BTreeMap<u64, BTreeMap<u64, u64>> = BTreeMap::new();
    for record in records.iter().filter(|record| record.len() >= 8 && number(&record[..4]) == mirror) {
        let (reading, row) = (number(&record[4..6]), number(&record[6..8]));
        *times.entry(reading).or_default().entry(row).or_default() += 1;
    }
    times
}

/// The whole readings of the mirror, upward, or the number of a refusal.
fn whole(store: &mut dyn Store, mirror: u64, rows: u64) -> Result<Vec<u64>, u64> {
    let times = times(&scanned(store)?, mirror);
    let is_whole = |times: &BTreeMap<u64, u64>| (0..rows).all(|row| times.get(&row) == Some(&1)) && times.keys().all(|&row| row < rows);
    Ok(times.into_iter().filter(|(_, times)| is_whole(times)).map(|(reading, _)| reading).collect())
}

/// The answer, and 1 if the mirror is cleared.
pub fn cleared(store: &mut dyn Store, mirror: u64, rows: u64, edition: u64) -> (u64, u64) {
    if !is_segment(store.segment()) {
        return (SIZE, 0);
    }
    if !(1..=2).contains(&edition) || !(1..=2048).contains(&rows) {
        return (RULE, 0);
    }
    let whole = match whole(store, mirror, rows) {
        Ok(whole) => whole,
        Err(number) => return (number, 0),
    };
    let is_cleared = match edition {
        1 => whole.len() >= 2,
        _ => whole.len() >= 3 && whole.iter().any(|&reading| reading < 32768) && whole.iter().any(|&reading| reading >= 32768),
    };
    (0, is_cleared as u64)
}

/// The answer; where it is 0, the first 1,024 words have a bit for each whole reading.
pub fn whole_readings(store: &mut dyn Store, mirror: u64, rows: u64, words: &mut [u64]) -> u64 {
    if !is_segment(store.segment()) {
        return SIZE;
    }
    if !(1..=2048).contains(&rows) {
        return RULE;
    }
    let whole = match whole(store, mirror, rows) {
        Ok(whole) => whole,
        Err(number) => return number,
    };
    if words.len() < 1024 {
        return ROOM;
    }
    words[..1024].fill(0);
    whole.iter().for_each(|reading| words[(reading / 64) as usize] |= 1 << (reading % 64));
    0
}
