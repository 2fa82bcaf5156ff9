//! Playing calls on a store.

use crate::{Call, Op};

/// A store that calls are played on. What a call answers is told by one number: the id of a new
/// record, the [`summary`] of a record that was read, a sum over the records of a scan, 0 for the
/// others; or [`refused`].
pub trait Subject {
    fn insert_record(&mut self, record: &[u8]) -> u64;
    fn get_record(&mut self, id: u64) -> u64;
    fn write_record(&mut self, id: u64, record: &[u8]) -> u64;
    fn resize_record(&mut self, id: u64, size: u64) -> u64;
    fn erase_record(&mut self, id: u64) -> u64;
    fn scan(&mut self) -> u64;
}

/// A refusal by its number.
pub fn refused(number: u64) -> u64 {
    u64::MAX - number
}

/// A record's length and first byte: that it was found, and was looked at.
#[inline(always)]
pub fn summary(record: &[u8]) -> u64 {
    (record.len() as u64) << 8 | record.first().copied().unwrap_or(0) as u64
}

const SEEDS: usize = 4096;

/// The bytes that records are taken from.
pub fn pool() -> Vec<u8> {
    let mut state: u32 = 1;
    (0..SEEDS + crate::PAGE_SIZE).map(|_| next_byte(&mut state)).collect()
}

fn next_byte(state: &mut u32) -> u8 {
    *state = state.wrapping_mul(1_664_525).wrapping_add(1_013_904_223);
    (*state >> 24) as u8
}

/// The bytes of a call's record.
pub fn record<'a>(pool: &'a [u8], call: &Call) -> &'a [u8] {
    &pool[call.seed as usize % SEEDS..][..call.length as usize]
}

/// The sum of all that was answered, once this is answered too.
#[inline(always)]
pub fn with_answer(sum: u64, answer: u64) -> u64 {
    sum.rotate_left(7) ^ answer
}

/// Plays calls, the first of them on the first store; answers a sum of all that was answered.
#[inline(never)]
pub fn play<S: Subject>(stores: &mut [S], calls: &[Call], pool: &[u8]) -> u64 {
    let mut sum: u64 = 0;
    let mut store = &mut stores[0];
    for call in calls {
        let answer = match call.op {
            Op::Segment => {
                store = &mut stores[call.id as usize];
                0
            }
            Op::Insert => store.insert_record(record(pool, call)),
            Op::Read => store.get_record(call.id),
            Op::Write => store.write_record(call.id, record(pool, call)),
            Op::Resize => store.resize_record(call.id, call.length),
            Op::Erase => store.erase_record(call.id),
            Op::Scan => store.scan(),
        };
        sum = with_answer(sum, answer);
    }
    sum
}
