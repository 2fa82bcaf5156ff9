//! What every store under comparison answers, and how calls on it are made.
//!
//! The published Rust, the corrected Rust and the model implement [`Store`]; a driver for
//! another store implements it too and can then be compared with them.

use std::cell::Cell;
use std::panic::{catch_unwind, panic_any, AssertUnwindSafe};
use std::sync::Once;

pub const PAGE_SIZE: usize = 16384;

/// An enum of things that runs can meet, and a list of what each is called, in the same order.
#[macro_export]
macro_rules! meetings {
    ($(#[$meaning:meta])* $enum:ident $list:ident: $($name:ident $text:literal)*) => {
        $(#[$meaning])*
        #[derive(Clone, Copy, PartialEq, Eq, Debug)]
        pub enum $enum { $($name),* }
        #[doc = concat!("What each is called, in the order of [`", stringify!($enum), "`].")]
        pub const $list: &[&str] = &[$($text),*];
    };
}

/// How a call ended. The three last are no answers: only the published Rust ends so.
#[derive(Clone, Copy, PartialEq, Eq, Debug)]
pub enum Answer {
    /// Answers 0 to 8 by their number.
    Number(u64),
    /// A page past the lent run was asked for.
    PastEnd,
    /// The call would retry for ever.
    Endless,
    /// The call panicked.
    Panic,
}

pub const DONE: Answer = Answer::Number(0);

impl std::fmt::Display for Answer {
    fn fmt(&self, out: &mut std::fmt::Formatter<'_>) -> std::fmt::Result {
        match self {
            Answer::Number(number) => write!(out, "{number}"),
            Answer::PastEnd => write!(out, "past the end"),
            Answer::Endless => write!(out, "endless"),
            Answer::Panic => write!(out, "panic"),
        }
    }
}

/// A record as a scan gives it; `offset` counts from the start of the segment.
#[derive(Clone, Copy, PartialEq, Eq, Debug)]
pub struct Found {
    pub id: u64,
    pub offset: u64,
    pub length: u64,
}

/// Insert and allocate answer with an id, which is 0 where the call is refused. A read
/// answers with the record's place in the segment, without a target's back id, and its
/// length; both are 0 where the call is refused. A scan goes to its end and gives the
/// records before it, and the answer it ended with.
pub trait Store {
    /// Segment and inventory, as the last call left them.
    fn bytes(&self) -> (&[u8], &[u8]);
    /// The same, for `load`.
    fn bytes_mut(&mut self) -> (&mut [u8], &mut [u8]);

    fn load(&mut self, segment: &[u8], inventory: &[u8]) {
        let (old_segment, old_inventory) = self.bytes_mut();
        old_segment.copy_from_slice(segment);
        old_inventory.copy_from_slice(inventory);
    }

    fn segment(&self) -> &[u8] {
        self.bytes().0
    }

    fn inventory(&self) -> &[u8] {
        self.bytes().1
    }

    fn insert_record(&mut self, record: &[u8]) -> (Answer, u64);
    fn allocate(&mut self, size: u64) -> (Answer, u64);
    fn get_record(&mut self, id: u64) -> (Answer, u64, u64);
    fn write_record(&mut self, id: u64, record: &[u8]) -> Answer;
    fn resize_record(&mut self, id: u64, size: u64) -> Answer;
    fn erase_record(&mut self, id: u64) -> Answer;
    fn scan(&mut self) -> (Answer, Vec<Found>);
}

#[derive(Clone, Copy, PartialEq, Eq, Debug)]
pub enum Call {
    Insert { length: u64, seed: u64 },
    Allocate { size: u64 },
    Read { id: u64 },
    Write { id: u64, length: u64, seed: u64 },
    Resize { id: u64, size: u64 },
    Erase { id: u64 },
    Scan,
}

impl std::fmt::Display for Call {
    fn fmt(&self, out: &mut std::fmt::Formatter<'_>) -> std::fmt::Result {
        match self {
            Call::Insert { length, seed } => write!(out, "I {length} {seed}"),
            Call::Allocate { size } => write!(out, "A {size}"),
            Call::Read { id } => write!(out, "R {id}"),
            Call::Write { id, length, seed } => write!(out, "W {id} {length} {seed}"),
            Call::Resize { id, size } => write!(out, "Z {id} {size}"),
            Call::Erase { id } => write!(out, "E {id}"),
            Call::Scan => write!(out, "N"),
        }
    }
}

/// The answer and two numbers: the id and 0, or offset and length, or for a scan the number
/// of its records and their digest; 0 and 0 for the other calls.
#[derive(Clone, Copy, PartialEq, Eq, Debug)]
pub struct Reply {
    pub answer: Answer,
    pub first: u64,
    pub second: u64,
}

/// The bytes of a record of a trace: byte k is (seed + 7k + k / 256) mod 256.
pub fn record(length: u64, seed: u64) -> Vec<u8> {
    (0..length).map(|k| ((seed + k * 7 + k / 256) % 256) as u8).collect()
}

const MODULUS: u64 = 4_294_967_291;

fn fold(digest: u64, number: u64) -> u64 {
    (digest * 31 + number % MODULUS + 1) % MODULUS
}

/// From 0, byte by byte: 31 times the digest, and the byte, and 1, modulo 4,294,967,291.
pub fn digest(bytes: &[u8]) -> u64 {
    bytes.iter().fold(0, |digest, &byte| fold(digest, byte.into()))
}

/// As [`digest`], over the id, offset and length of each record instead of over bytes.
pub fn scan_digest(found: &[Found]) -> u64 {
    found.iter().flat_map(|f| [f.id, f.offset, f.length]).fold(0, fold)
}

pub fn perform(store: &mut dyn Store, call: Call) -> Reply {
    let reply = |answer, first, second| Reply { answer, first, second };
    match call {
        Call::Insert { length, seed } => {
            let (answer, id) = store.insert_record(&record(length, seed));
            reply(answer, id, 0)
        }
        Call::Allocate { size } => {
            let (answer, id) = store.allocate(size);
            reply(answer, id, 0)
        }
        Call::Read { id } => {
            let (answer, offset, length) = store.get_record(id);
            reply(answer, offset, length)
        }
        Call::Write { id, length, seed } => {
            reply(store.write_record(id, &record(length, seed)), 0, 0)
        }
        Call::Resize { id, size } => reply(store.resize_record(id, size), 0, 0),
        Call::Erase { id } => reply(store.erase_record(id), 0, 0),
        Call::Scan => {
            let (answer, found) = store.scan();
            reply(answer, found.len() as u64, scan_digest(&found))
        }
    }
}

struct EndlessRetry;

/// Ends a call that would retry for ever; to be used under [`caught`].
pub fn end_endless() -> ! {
    panic_any(EndlessRetry)
}

thread_local!(static EXPECTING: Cell<bool> = const { Cell::new(false) });
static QUIET: Once = Once::new();

fn expect_panics(expecting: bool) {
    QUIET.call_once(|| {
        let loud = std::panic::take_hook();
        std::panic::set_hook(Box::new(move |info| {
            if !EXPECTING.get() {
                loud(info);
            }
        }));
    });
    EXPECTING.set(expecting);
}

/// Runs a call and tells an endless retry from a panic.
pub fn caught<T>(call: impl FnOnce() -> Result<T, Answer>) -> Result<T, Answer> {
    expect_panics(true);
    let ended = catch_unwind(AssertUnwindSafe(call));
    expect_panics(false);
    match ended {
        Ok(result) => result,
        Err(payload) if payload.is::<EndlessRetry>() => Err(Answer::Endless),
        Err(_) => Err(Answer::Panic),
    }
}
