//! Traces: sequences of calls with what each answered and a digest of what it left.

use crate::poke::{poke_store, Poke};
use crate::sequence::{Event, Sequence};
use crate::trial::{Counts, Trial};
use model::Model;
use store::{digest, perform, Call, Reply, Store, PAGE_SIZE};

pub fn start_line(segment_bytes: usize, inventory_bytes: usize) -> String {
    format!("S {segment_bytes} {inventory_bytes}\n")
}

fn poke_lines(pokes: &[Poke]) -> String {
    pokes.iter().map(|poke| format!("{poke}\n")).collect()
}

fn call_line(call: Call, reply: Reply, store: &dyn Store) -> String {
    let Reply { answer, first, second } = reply;
    format!("{call} {answer} {first} {second} {} {}\n", digest(store.segment()), digest(store.inventory()))
}

/// A sequence from a seed, run on all three stores.
pub fn of_sequence(n: usize, sequence: &mut Sequence, counts: &mut Counts) -> Result<String, String> {
    of_events(n, &mut |segment| sequence.next(segment), counts)
}

/// A given list of events, run on all three stores.
pub fn of_list(n: usize, list: &[Event], counts: &mut Counts) -> Result<String, String> {
    let mut list = list.iter().cloned();
    of_events(n, &mut |_| list.next(), counts)
}

fn of_events(n: usize, next: &mut dyn FnMut(&[u8]) -> Option<Event>, counts: &mut Counts) -> Result<String, String> {
    let mut text = start_line(n * PAGE_SIZE, PAGE_SIZE);
    let mut write = |event: &Event, reply: Option<Reply>, model: &Model| match (event, reply) {
        (Event::Call(call), Some(reply)) => text += &call_line(*call, reply, model),
        (Event::Pokes(pokes), _) => text += &poke_lines(pokes),
        _ => {}
    };
    Trial::new(n).run(next, counts, &mut write)?;
    Ok(text)
}

/// Calls on lent bytes of a wrong size, which only the model can be given.
pub fn of_wrong_size(segment_bytes: usize, inventory_bytes: usize, calls: &[Call]) -> String {
    let mut model = Model::new(&vec![0; segment_bytes], &vec![0; inventory_bytes]);
    let mut text = start_line(segment_bytes, inventory_bytes);
    for &call in calls {
        let reply = perform(&mut model, call);
        text += &call_line(call, reply, &model);
    }
    text
}

type Lend<'a> = &'a dyn Fn(&[u8], &[u8]) -> Option<Box<dyn Store>>;

/// Replays a trace on stores made by `lend`, which gives none for sequences to be passed over;
/// answers how many calls were made.
pub fn replay(text: &str, lend: Lend) -> Result<u64, String> {
    let mut store = None;
    let mut calls = 0;
    for (place, line) in text.lines().enumerate() {
        let called = replay_line(line, &mut store, lend).map_err(|what| format!("line {}: {line}: {what}", place + 1))?;
        calls += called as u64;
    }
    Ok(calls)
}

/// Whether the line made a call.
fn replay_line(line: &str, store: &mut Option<Box<dyn Store>>, lend: Lend) -> Result<bool, String> {
    let (letter, numbers) = parse(line).ok_or("not understood")?;
    if let ("S", &[segment, inventory]) = (letter, &numbers[..]) {
        *store = lend(&vec![0; segment as usize], &vec![0; inventory as usize]);
        return Ok(false);
    }
    let Some(store) = store else { return Ok(false) };
    if let ("B" | "V" | "G", &[offset, length, value]) = (letter, &numbers[..]) {
        poke_store(store.as_mut(), &[poke_of(letter, offset, length, value)]);
        return Ok(false);
    }
    let call = call_of(letter, &numbers).ok_or("not understood")?;
    let reply = perform(store.as_mut(), call);
    let now = call_line(call, reply, store.as_ref());
    if now.trim_end() == line { Ok(true) } else { Err(format!("is now {now}")) }
}

fn parse(line: &str) -> Option<(&str, Vec<u64>)> {
    let mut words = line.split(' ');
    let letter = words.next()?;
    let numbers: Result<Vec<u64>, _> = words.map(str::parse).collect();
    Some((letter, numbers.ok()?))
}

fn poke_of(letter: &str, offset: u64, length: u64, value: u64) -> Poke {
    match letter {
        "B" => Poke::Segment { offset, width: length, value },
        "V" => Poke::Inventory { offset, width: length, value },
        _ => Poke::Fill { offset, length, seed: value },
    }
}

fn call_of(letter: &str, numbers: &[u64]) -> Option<Call> {
    match (letter, numbers) {
        ("I", &[length, seed, ..]) => Some(Call::Insert { length, seed }),
        ("A", &[size, ..]) => Some(Call::Allocate { size }),
        ("R", &[id, ..]) => Some(Call::Read { id }),
        ("W", &[id, length, seed, ..]) => Some(Call::Write { id, length, seed }),
        ("Z", &[id, size, ..]) => Some(Call::Resize { id, size }),
        ("E", &[id, ..]) => Some(Call::Erase { id }),
        ("N", _) => Some(Call::Scan),
        _ => None,
    }
}
