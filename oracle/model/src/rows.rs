//! Many rows in one call, of document 02's Ask 2: a plain second implementation, written from the
//! request's words. The rows go in one at a time, by the model's own insert.

use crate::Model;
use store::{Answer, Store, DONE};

const LIST: u64 = 10;

/// The rows stand end to end. The answer, and how many rows went in: their ids are in the first places, the others keep what they were.
pub fn insert_records(model: &mut Model, rows: &[u8], lengths: &[u64], ids: &mut [u64]) -> (u64, u64) {
    if let Err(number) = model.check_both() {
        return (number, 0);
    }
    let sum: u128 = lengths.iter().map(|&length| u128::from(length)).sum();
    if sum != rows.len() as u128 || ids.len() < lengths.len() {
        return (LIST, 0);
    }
    let mut begin = 0;
    for (k, &length) in lengths.iter().enumerate() {
        let end = begin + length as usize;
        match model.insert_record(&rows[begin..end]) {
            (DONE, id) => ids[k] = id,
            (Answer::Number(number), _) => return (number, k as u64),
            (ended, _) => unreachable!("the model's insert ends by {ended}"),
        }
        begin = end;
    }
    (0, lengths.len() as u64)
}
