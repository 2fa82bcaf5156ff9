//! Document 01's numbers to meet and the worked examples of document 02, checked on the corrected Rust.

use crate::cases::{erase, id, insert, last_page_byte, of_three, read, resize, scan, with_header, write, HEADERS};
use crate::poke::nibbles;
use crate::sequence::Event;
use crate::trial::{Counts, Trial};
use model::inventory::{class, entry, nibble};
use model::page::{count, data_start, first_free, free_space, slot};
use store::{Answer, Reply, Store, PAGE_SIZE};

/// What a list of calls left, and what the last of them answered.
struct Run {
    trial: Trial,
    last: Reply,
}

fn run(n: usize, events: &[Event]) -> Result<Run, String> {
    let mut trial = Trial::new(n);
    let mut events = events.iter().cloned();
    let mut last = None;
    trial.run(&mut |_| events.next(), &mut Counts::default(), &mut |_, reply, _| last = reply)?;
    Ok(Run { trial, last: last.ok_or("a run ends with a call")? })
}

impl Run {
    fn page(&self, number: usize) -> &[u8] {
        &self.trial.corrected.segment()[number * PAGE_SIZE..(number + 1) * PAGE_SIZE]
    }

    /// Count, first free, data start, free space.
    fn header(&self, page: usize) -> [usize; 4] {
        let page = self.page(page);
        [count(page), first_free(page), data_start(page), free_space(page)]
    }

    fn slot_bytes(&self, page: usize, k: usize) -> &[u8] {
        &self.page(page)[12 + 8 * k..20 + 8 * k]
    }

    /// Offset and length.
    fn record(&self, page: usize, k: usize) -> (usize, usize) {
        let slot = slot(self.page(page), k);
        (slot.offset, slot.length)
    }

    fn answers(&self, number: u64) -> bool {
        self.last.answer == Answer::Number(number)
    }

    fn entries(&self) -> Vec<u64> {
        (0..15).map(|number| entry(self.trial.corrected.inventory(), number)).collect()
    }
}

fn initialised() -> Result<bool, String> {
    // The published Rust leaves an initialised page behind where it retries for ever.
    let mut trial = Trial::new(1);
    trial.original.insert_record(&[0; 16365]);
    Ok(trial.original.segment()[..12] == [0, 0, 0, 0, 0, 0, 0x40, 0, 0, 0, 0x3F, 0xF4])
}

fn small() -> Result<Vec<(&'static str, bool)>, String> {
    let three = run(1, &[insert(3)])?;
    let grown = run(1, &[insert(100), write(id(0, 0), 300)])?;
    let erased = run(1, &[insert(3), insert(4), insert(5), erase(id(0, 0)), erase(id(0, 1)), erase(id(0, 2))])?;
    let entries = [[1; 2].as_slice(), &[0; 13]].concat();
    Ok(vec![
        ("P2 header", three.header(0) == [1, 1, 16381, 16361]),
        ("P2 slot", three.slot_bytes(0, 0) == [0, 0, 0x3F, 0xFD, 0, 0, 0, 3]),
        ("P9 nibble", nibble(three.trial.corrected.inventory(), 0) == 2),
        ("P9 entries", three.entries() == entries),
        ("P10", run(1, &[insert(3), insert(12270)])?.answers(0)),
        ("P11", run(1, &[insert(3), insert(12271)])?.answers(7)),
        ("P12", grown.header(0)[2..] == [15984, 16064]),
        ("16,364 on a fresh page", run(1, &[insert(16364)])?.header(0)[3] == 0),
        ("16,365", run(1, &[insert(16365)])?.answers(3)),
        ("lengths 3, 4, 5 erased", erased.header(0) == [1, 0, 16377, 16364]),
    ])
}

fn slots() -> Result<Vec<(&'static str, bool)>, String> {
    let target = run(2, &[insert(15500), insert(3), resize(id(0, 0), 16353), write(id(0, 1), 8)])?;
    let many = [insert(16000), insert(15500), insert(3), insert(5000), insert(1000), insert(1000), insert(1000), insert(1000)];
    let redirect = run(3, &[&many[..], &[write(id(1, 1), 2000)]].concat())?;
    Ok(vec![
        ("P3", target.slot_bytes(1, 0) == [0xC0, 0, 0x3F, 0xF0, 0, 0, 0, 0x10]),
        ("P4", redirect.slot_bytes(1, 1) == [0x80, 0, 0, 0, 0, 2, 0, 5]),
        ("P5 to P8", [0, 4093, 4094, 15584].map(class) == [1, 2, 3, 15]),
    ])
}

fn larger() -> Result<Vec<(&'static str, bool)>, String> {
    let gaps = |last| run(1, &[insert(5000), insert(5000), insert(3000), erase(id(0, 1)), insert(10), insert(last)]);
    let (packed, unpacked) = (gaps(3338)?, gaps(3330)?);
    let first = [insert(16000), insert(100), insert(12000), write(id(1, 0), 5000)];
    let then = |last: &[Event]| run(3, &[&first, last].concat());
    let (forwarded, stays) = (then(&[])?, then(&[write(id(1, 0), 16356)])?);
    Ok(vec![
        ("3,338 is compactified", packed.record(0, 3) == (5036, 3338) && packed.header(0)[3] == 4992),
        ("3,330 is not", unpacked.record(0, 3) == (44, 3330)),
        ("forwarded to (2,0)", forwarded.record(2, 0) == (11376, 5008)),
        ("its free spaces", (forwarded.header(1)[3], forwarded.header(2)[3]) == (4356, 11356)),
        ("16,356 stays", stays.answers(0) && stays.header(2)[3] == 0),
        ("16,357", then(&[write(id(1, 0), 16357)])?.answers(7)),
        ("the scan's three records", then(&[scan()])?.last.first == 3),
    ])
}

/// What follows from places that document 01 leaves open, and the Rust or its other lines settle.
fn settled() -> Result<Vec<(&'static str, bool)>, String> {
    let inside = run(1, &[insert(10), insert(0), erase(id(0, 0)), insert(20)])?;
    let tie = run(1, &[insert(5000), insert(5000), insert(0), insert(3000), erase(id(0, 0)), insert(4000)])?;
    let alone = run(1, &[insert(10000), resize(id(0, 0), 12000)])?;
    let downward = run(1, &[insert(3), insert(4), insert(5), erase(id(0, 2)), erase(id(0, 1))])?;
    let by_hand = run(2, &[insert(3), Event::Pokes(vec![nibbles(0, 9, 0)]), write(id(0, 0), 3)])?;
    Ok(vec![
        ("an empty record inside another", inside.record(0, 1) == (16374, 0) && inside.record(0, 0) == (16364, 20)),
        ("an empty record packed with the longer one", tie.record(0, 2).0 == tie.record(0, 1).0),
        ("compactify over no record", alone.record(0, 0) == (4384, 12000)),
        ("slots erased from the end down stay", downward.header(0)[0] == 3),
        ("a page once used is not fresh again", run(1, &[insert(16364), erase(0), insert(12271)])?.answers(7)),
        ("no pages, 16,365 bytes", run(0, &[insert(16365)])?.answers(3)),
        ("no pages, no bytes", run(0, &[insert(0)])?.answers(7)),
        ("no pages, an erase", run(0, &[erase(0)])?.answers(2)),
        ("no pages, a scan", run(0, &[scan()])?.answers(0)),
        ("an update compares with the nibble stored", nibble(by_hand.trial.corrected.inventory(), 0) == 2),
    ])
}

/// Ask 3: each call alone on a page with each of the seven headers.
fn headers() -> Result<Vec<(&'static str, bool)>, String> {
    let calls = [read(0), write(0, 1), erase(0), insert(3), insert(16365), scan()];
    let mut met = Vec::new();
    for (k, &header) in HEADERS.iter().enumerate() {
        let wanted = if k < 2 { [5, 5, 5, 0, 3, 0] } else { [4, 4, 4, 4, 3, 4] };
        for (call, number) in calls.iter().zip(wanted) {
            let left = run(1, &with_header(header, &[call.clone()]))?;
            met.push(("a header of Ask 3", left.answers(number) && (number != 0 || left.last.first == 0)));
        }
    }
    for &header in &HEADERS[..2] {
        met.push(("an insert on either fresh page", run(1, &with_header(header, &[insert(3)]))?.header(0) == [1, 1, 16381, 16361]));
    }
    Ok(met)
}

/// Ask 3: the last of three pages is fresh but for a byte, or its count was wiped.
fn three_pages() -> Result<Vec<(&'static str, bool)>, String> {
    let root = id(1, 0);
    let odd = |last: Event| run(3, &of_three(&[last_page_byte(11, 1), last]));
    let wiped = |last: Event| run(3, &of_three(&[write(root, 5000), last_page_byte(1, 0), last]));
    let scanned = |run: Run, records| run.answers(4) && run.last.first == records;
    Ok(vec![
        ("a new page with count 0", odd(write(root, 5000))?.answers(4)),
        ("a write that needs no new page", odd(write(root, 200))?.answers(0)),
        ("a scan up to that page", scanned(odd(scan())?, 3)),
        ("a read of its root", wiped(read(root))?.answers(4)),
        ("a write to its root", wiped(write(root, 5000))?.answers(4)),
        ("an erase of its root", wiped(erase(root))?.answers(4)),
        ("a read of the target's own id", wiped(read(id(2, 0)))?.answers(4)),
        ("a read of another record", wiped(read(id(1, 1)))?.answers(0)),
        ("a scan up to the wiped page", scanned(wiped(scan())?, 2)),
    ])
}

/// Checks all; answers how many there are.
pub fn check() -> Result<usize, String> {
    let of_01 = [vec![("P1", initialised()?)], small()?, slots()?, larger()?, settled()?].concat();
    let all = [of_01, headers()?, three_pages()?].concat();
    match all.iter().find(|(_, met)| !met) {
        Some((name, _)) => Err(format!("not met: {name}")),
        None => Ok(all.len()),
    }
}
