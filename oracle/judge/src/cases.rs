//! For each fault the smallest sequences that show it; the documents' numbers; refusals; wrong sizes.

use crate::poke::{self, Poke};
use crate::sequence::Event;
use store::{Call, PAGE_SIZE};

/// The last call meets the fault, none before it meets any.
pub struct Case {
    pub fault: usize,
    pub title: &'static str,
    pub n: usize,
    pub events: Vec<Event>,
}

pub fn id(page: u64, slot: u64) -> u64 {
    page * 65536 + slot
}

pub fn insert(length: u64) -> Event {
    Event::Call(Call::Insert { length, seed: 1 })
}

fn allocate(size: u64) -> Event {
    Event::Call(Call::Allocate { size })
}

pub fn read(id: u64) -> Event {
    Event::Call(Call::Read { id })
}

pub fn write(id: u64, length: u64) -> Event {
    Event::Call(Call::Write { id, length, seed: 2 })
}

pub fn resize(id: u64, size: u64) -> Event {
    Event::Call(Call::Resize { id, size })
}

pub fn erase(id: u64) -> Event {
    Event::Call(Call::Erase { id })
}

pub fn scan() -> Event {
    Event::Call(Call::Scan)
}

fn pokes(pokes: &[Poke]) -> Event {
    Event::Pokes(pokes.to_vec())
}

/// (0,1) forwarded to (1,0): 4,000 bytes, of which page 0 has room for 3,856.
fn forwarded(then: &[Event]) -> Vec<Event> {
    [&[insert(12500), insert(3000), write(id(0, 1), 4000)], then].concat()
}

pub fn faults() -> Vec<Case> {
    let case = |fault, title, n, events| Case { fault, title, n, events };
    vec![
        case(1, "a full page that the inventory names; an empty record", 1, vec![
            insert(16364), pokes(&[poke::entry(14, 0)]), insert(0),
        ]),
        case(2, "a gap of 1,364 for a record of 1,360 and its slot", 1, vec![
            insert(15000), resize(id(0, 0), 14000), insert(1360),
        ]),
        case(3, "two records at one offset", 1, vec![
            insert(15000), insert(0), resize(id(0, 0), 14000), insert(1400),
        ]),
        case(3, "a target on the page", 2, forwarded(&[
            insert(9000), resize(id(1, 1), 7000), insert(4000),
        ])),
        case(4, "a target of 4,000 shrinks to 3,900", 2, forwarded(&[write(id(0, 1), 3900)])),
        case(5, "100 bytes grow to 300", 1, vec![insert(100), write(id(0, 0), 300)]),
        case(6, "a forwarded record moves home", 2, forwarded(&[write(id(0, 1), 3000)])),
        case(7, "a forwarded record is erased", 2, forwarded(&[erase(id(0, 1))])),
        case(8, "moving home by resize", 2, forwarded(&[resize(id(0, 1), 3000)])),
        case(8, "the second forwarding by resize", 3, forwarded(&[insert(11000), resize(id(0, 1), 6000)])),
        case(9, "a page leaves class 15", 1, vec![insert(16000), erase(id(0, 0))]),
        case(10, "a record of 16,365", 1, vec![insert(16365)]),
        case(10, "a record of 16,373", 1, vec![insert(16373)]),
        case(10, "allocate 16,365", 1, vec![allocate(16365)]),
        case(10, "write 16,365", 1, vec![insert(3), write(id(0, 0), 16365)]),
        case(10, "a new target of 16,360 needs 16,376", 2, vec![insert(12500), insert(3000), write(id(0, 1), 16360)]),
        case(11, "read past the count", 1, vec![insert(3), read(id(0, 1))]),
        case(11, "erase past the count", 1, vec![insert(3), erase(id(0, 1))]),
        case(11, "write a fresh page", 1, vec![write(id(0, 0), 3)]),
        case(11, "write a free slot", 1, vec![insert(3), erase(id(0, 0)), write(id(0, 0), 3)]),
        case(11, "erase a free slot", 1, vec![insert(3), erase(id(0, 0)), erase(id(0, 0))]),
        case(11, "write by a target's own id", 2, forwarded(&[write(id(1, 0), 3)])),
        case(11, "erase by a target's own id", 2, forwarded(&[erase(id(1, 0))])),
        case(12, "an allocated record where another was", 1, vec![insert(3), erase(id(0, 0)), allocate(3)]),
        case(12, "10,000 bytes grow to 12,000", 1, vec![insert(10000), resize(id(0, 0), 12000)]),
        case(13, "no page is left", 1, vec![insert(16364), insert(1)]),
        case(13, "read of page n", 1, vec![read(id(1, 0))]),
        case(13, "a full page is named, and its nibble suits that: the Rust sets both right and tries again", 2, vec![
            insert(16000), pokes(&[poke::nibbles(0, 13, 0), poke::entry(13, 0)]), insert(1000),
        ]),
        case(13, "a full page is named, and its nibble is right: the Rust tries again for ever", 2, vec![
            insert(16000), pokes(&[poke::entry(13, 0)]), insert(1000),
        ]),
        case(13, "the root's page is named for a new target", 2, vec![
            insert(12500), insert(3000), pokes(&[poke::entry(8, 0)]), write(id(0, 1), 4000),
        ]),
        case(13, "a page with a free slot and too little room is named", 1, vec![
            insert(12500), insert(3000), erase(id(0, 1)), pokes(&[poke::entry(8, 0)]), insert(3900),
        ]),
        case(14, "read of a page with a wrong free space", 1, vec![
            insert(3), pokes(&[poke::free_space(0, 0)]), read(id(0, 0)),
        ]),
        case(14, "insert on a page with a wrong free space", 1, vec![
            insert(3), pokes(&[poke::free_space(0, 16372)]), insert(3),
        ]),
        case(14, "scan of a page with a record past its end", 1, vec![
            insert(3), pokes(&[poke::slot(0, 0, poke::plain(16382, 3))]), scan(),
        ]),
        case(14, "insert on a page with a data start past its end", 1, vec![
            insert(3), pokes(&[poke::data_start(0, 16385)]), insert(3),
        ]),
        case(14, "erase of a redirect to page n", 1, vec![
            insert(0), pokes(&[poke::slot(0, 0, poke::redirect(id(1, 0)))]), erase(id(0, 0)),
        ]),
        case(14, "write to a redirect to an unsound page", 2, forwarded(&[
            pokes(&[poke::free_space(1, 16372)]), write(id(0, 1), 4100),
        ])),
        case(14, "erase of a redirect to an ordinary record", 2, forwarded(&[
            pokes(&[poke::slot(1, 0, poke::plain(16384 - 4008, 4008))]), erase(id(0, 1)),
        ])),
        case(14, "read of a redirect to no target", 2, vec![
            insert(0), pokes(&[poke::slot(0, 0, poke::redirect(id(1, 0)))]), read(id(0, 0)),
        ]),
        case(14, "write to a redirect to no target", 2, vec![
            insert(0), pokes(&[poke::slot(0, 0, poke::redirect(id(1, 0)))]), write(id(0, 0), 3),
        ]),
        case(14, "write to a redirect to its own page", 1, vec![
            insert(0), pokes(&[poke::slot(0, 0, poke::redirect(id(0, 0)))]), write(id(0, 0), 3),
        ]),
        case(14, "a target that points to another root", 2, forwarded(&[
            pokes(&[poke::back_id(1, 16384 - 4008, id(0, 0))]), read(id(0, 1)),
        ])),
        case(15, "the nibble of page n is 5", 1, vec![pokes(&[poke::nibbles(0, 0, 5)]), insert(3)]),
        case(16, "insert on a page whose count was wiped", 1, vec![insert(3), pokes(&[poke::count(0, 0)]), insert(4)]),
        case(16, "read of a page whose count was wiped", 1, vec![insert(3), pokes(&[poke::count(0, 0)]), read(id(0, 0))]),
        case(16, "scan of a page whose count was wiped", 1, vec![insert(3), pokes(&[poke::count(0, 0)]), scan()]),
        case(16, "insert on a page of count 0 that passes the six tests", 1, vec![
            pokes(&poke::header(0, [0, 0, 16000, 16372])), insert(3),
        ]),
        case(16, "erase of a redirect to a page whose count was wiped", 2, forwarded(&[pokes(&[poke::count(1, 0)]), erase(id(0, 1))])),
    ]
}

/// The sequences of document 01's numbers to meet, and of places that it leaves open.
pub fn numbers() -> Vec<(usize, Vec<Event>)> {
    let three = |last: &[Event]| {
        let first = [insert(16000), insert(100), insert(12000), write(id(1, 0), 5000), scan()];
        [&first, last].concat()
    };
    let gaps = |last| vec![insert(5000), insert(5000), insert(3000), erase(id(0, 1)), insert(10), insert(last), scan()];
    vec![
        (1, vec![insert(3), insert(12270), scan()]),
        (1, vec![insert(3), insert(12271), scan()]),
        (1, vec![insert(100), write(id(0, 0), 300), read(id(0, 0))]),
        (1, vec![insert(16364), insert(16365), erase(id(0, 0)), insert(12271)]),
        (1, vec![insert(3), insert(4), insert(5), erase(id(0, 0)), erase(id(0, 1)), erase(id(0, 2))]),
        (1, vec![insert(3), insert(4), insert(5), erase(id(0, 2)), erase(id(0, 1))]),
        (1, gaps(3338)),
        (1, gaps(3330)),
        (3, three(&[write(id(1, 0), 16356), scan()])),
        (3, three(&[write(id(1, 0), 16357), scan(), resize(id(1, 0), 0), scan()])),
        (1, vec![insert(10), insert(0), erase(id(0, 0)), insert(20), scan()]),
        (1, vec![insert(5000), insert(5000), insert(0), insert(3000), erase(id(0, 0)), insert(4000), scan()]),
        (1, vec![insert(10000), resize(id(0, 0), 12000), read(id(0, 0))]),
        (0, vec![insert(16365), insert(0), read(0), scan()]),
        (2, vec![insert(3), pokes(&[poke::nibbles(0, 9, 0)]), write(id(0, 0), 3)]),
    ]
}

/// Every call that touches the record (0,0) or its page.
fn all_calls() -> Vec<Event> {
    let first = id(0, 0);
    vec![read(first), write(first, 60), resize(first, 60), erase(first), insert(20), allocate(20), scan()]
}

/// Each line of the sound-page rule broken on a page of three records: 100, 50 and 0 bytes.
fn unsound() -> Vec<(usize, Vec<Event>)> {
    let broken = [
        vec![poke::count(0, 2047)],
        vec![poke::first_free(0, 2)],
        vec![poke::data_start(0, 35)],
        vec![poke::data_start(0, 16385)],
        vec![poke::data_start(0, 16235)],
        vec![poke::slot(0, 1, poke::plain(16335, 50))],
        vec![poke::slot(0, 2, poke::plain(16385, 0))],
        vec![poke::slot(0, 1, poke::plain(16283, 50))],
        vec![poke::slot(0, 1, poke::target(16234, 7)), poke::free_space(0, 16241)],
        vec![poke::free_space(0, 16197)],
    ];
    let start = [insert(100), insert(50), insert(0)];
    broken.iter().map(|broken| (1, [&start[..], &[pokes(broken)], &all_calls()].concat())).collect()
}

/// Document 02, Ask 3: the seven headers of a page full of leftovers.
pub const HEADERS: [[u64; 4]; 7] = [
    [0, 0, 0, 0],
    [0, 0, 16384, 16372],
    [0, 3, 16372, 16336],
    [0, 0, 16000, 16372],
    [0, 0, 16384, 0],
    [0, 1, 0, 0],
    [0, 0, 0, 1],
];

pub fn with_header(header: [u64; 4], then: &[Event]) -> Vec<Event> {
    let leftovers = Poke::Fill { offset: 0, length: PAGE_SIZE as u64, seed: 238 };
    [&[pokes(&[&[leftovers][..], &poke::header(0, header)].concat())], then].concat()
}

/// Ask 3's segments of three pages: the last is fresh, or holds the target (2,0).
pub fn of_three(then: &[Event]) -> Vec<Event> {
    [&[insert(16000), insert(100), insert(12000)], then].concat()
}

/// A byte of the last of three pages.
pub fn last_page_byte(place: u64, value: u64) -> Event {
    pokes(&[Poke::Segment { offset: 2 * PAGE_SIZE as u64 + place, width: 1, value }])
}

/// Ask 3's examples, and every call on each of its headers.
fn emptied() -> Vec<(usize, Vec<Event>)> {
    let (root, target) = (id(1, 0), id(2, 0));
    let calls = [read(0), write(0, 1), resize(0, 1), erase(0), insert(16365), scan(), allocate(3), insert(3), scan()];
    let fresh = of_three(&[last_page_byte(11, 1), write(root, 5000), resize(root, 5000), write(root, 200), scan()]);
    let touched = [read(root), write(root, 6000), resize(root, 6000), erase(root), read(target), write(target, 3), read(id(1, 1)), scan()];
    let wiped = of_three(&[&[write(root, 5000), last_page_byte(1, 0)], &touched[..]].concat());
    let headers = HEADERS.map(|header| (1, with_header(header, &calls)));
    [&headers[..], &[(3, fresh), (3, wiped)]].concat()
}

/// A redirect (0,0) that leads astray: past n, home, to a slot past the count, to an ordinary
/// record, to a target with another back id, and to an unsound page.
fn astray() -> Vec<(usize, Vec<Event>)> {
    let redirects = [id(2, 0), id(1 << 32, 0), id(0, 1), id(1, 7), id(1, 0), id(1, 1)];
    let start = [insert(0), pokes(&(0..15).map(|c| poke::entry(c, 1)).collect::<Vec<_>>()), insert(100), insert(50)];
    let target = pokes(&[poke::slot(1, 1, poke::target(16234, 50))]);
    let unsound = pokes(&[poke::free_space(1, 0)]);
    let redirect = |id| pokes(&[poke::slot(0, 0, poke::redirect(id))]);
    let mut all: Vec<(usize, Vec<Event>)> = Vec::new();
    for to in redirects {
        all.push((2, [&start[..], &[target.clone(), redirect(to)], &all_calls()].concat()));
    }
    all.push((2, [&start[..], &[target, redirect(id(1, 1)), unsound], &all_calls()].concat()));
    all
}

/// A page without room named for each call that asks the inventory, and each page excluded.
fn stale() -> Vec<(usize, Vec<Event>)> {
    let named = |entry, page| pokes(&[poke::entry(entry, page)]);
    let (root, old) = (id(0, 1), 1);
    vec![
        (2, vec![
            insert(12500), insert(3000), named(8, 0), write(root, 4000), resize(root, 4000), insert(3900), allocate(3900),
        ]),
        (3, forwarded(&[
            insert(11000), named(5, old), resize(root, 6000), write(root, 6000), named(5, 0), resize(root, 6000), write(root, 6000),
            named(5, 2), resize(root, 6000), scan(),
        ])),
    ]
}

/// Refusals by 4 and 8 of every kind and in every call.
pub fn refusals() -> Vec<(usize, Vec<Event>)> {
    [unsound(), emptied(), astray(), stale()].concat()
}

/// Lent bytes of a wrong size, and the calls made on each.
pub fn wrong_sizes() -> (Vec<(usize, usize)>, Vec<Call>) {
    let sizes = vec![(16383, 16384), (16385, 16384), (1, 16384), (16384, 16383), (16384, 16385), (16384, 0)];
    let calls = vec![
        Call::Insert { length: 16365, seed: 1 },
        Call::Allocate { size: u64::MAX },
        Call::Read { id: id(1, 0) },
        Call::Write { id: id(1, 0), length: 16365, seed: 2 },
        Call::Resize { id: id(0, 0), size: 3 },
        Call::Erase { id: id(0, 0) },
        Call::Scan,
    ];
    (sizes, calls)
}
