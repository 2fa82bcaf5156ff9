//! Segments with readings of a few mirrors, and what is asked of them. Repeatable from a seed. The readings are few and many of them are
//! whole or all but whole, so that a yes, a no and a near miss are all frequent.

use crate::damage::damage;
use crate::poke;
use crate::random::Random;
use crate::wreck::sound;
use model::Model;
use store::{Store, DONE, PAGE_SIZE};

/// Mirror, reading and row of a record.
#[derive(Clone, Copy, PartialEq, Eq, PartialOrd, Ord, Debug)]
pub struct Head {
    pub mirror: u32,
    pub reading: u16,
    pub row: u16,
}

impl Head {
    pub fn bytes(self) -> Vec<u8> {
        [&self.mirror.to_be_bytes()[..], &self.reading.to_be_bytes(), &self.row.to_be_bytes()].concat()
    }

    /// Of a record, where it is a reading.
    pub fn of(record: &[u8]) -> Option<Head> {
        let &[m3, m2, m1, m0, r1, r0, k1, k0, ..] = record else { return None };
        Some(Head { mirror: u32::from_be_bytes([m3, m2, m1, m0]), reading: u16::from_be_bytes([r1, r0]), row: u16::from_be_bytes([k1, k0]) })
    }
}

/// Whether the mirror is cleared, of so many rows and by this edition.
#[derive(Clone, Copy, PartialEq, Eq, Debug)]
pub struct Asked {
    pub mirror: u64,
    pub rows: u64,
    pub edition: u64,
}

pub struct Case {
    pub segment: Vec<u8>,
    /// First by edition 1, then the same by edition 2, then others.
    pub asked: Vec<Asked>,
    /// The readings that were put in, where they are still there.
    pub heads: Option<Vec<Head>>,
}

/// A segment of few pages, now and then with readings of thousands of rows.
pub fn case(seed: u64) -> Case {
    let mut random = Random::new(seed ^ 0x0009_C1EA);
    let mirror = random.pick(&[7, 7, 7, 0, 0x0107, 0x0700_0000, u32::MAX]);
    let any_rows = 1 + random.below(300) as u16;
    let few_rows = 1 + random.below(4) as u16;
    let rows = match random.below(60) {
        0 => 2048,
        1 => 2047,
        2..5 => any_rows,
        _ => few_rows,
    };
    let heads = heads(&mut random, mirror, rows);
    let (segment, kept) = match heads.len() {
        0..120 if random.one_in(2) => by_calls(&mut random, &heads),
        0..120 if random.one_in(2) => in_records(&mut random, &heads),
        _ => (packed(&heads.iter().map(|head| head.bytes()).collect::<Vec<_>>()), heads),
    };
    let mut case = Case { segment, asked: asked(&mut random, mirror, rows.into()), heads: Some(kept) };
    match random.below(12) {
        0 | 1 => case.damage(&mut random),
        2 => case.add_damaged_page(&mut random),
        3 if random.one_in(2) => case.make_wrong_size(&mut random),
        _ => {}
    }
    case
}

pub fn shuffle<T>(random: &mut Random, list: &mut [T]) {
    (1..list.len()).for_each(|k| list.swap(k, random.below(k as u64 + 1) as usize));
}

/// Numbers at the ends of each side, of words of 64 bits and of bytes.
const MOUNTED: [u16; 12] = [0, 1, 2, 62, 63, 64, 127, 128, 255, 256, 32766, 32767];
const TURNED: [u16; 10] = [32768, 32769, 32831, 32832, 33023, 33024, 65471, 65472, 65534, 65535];

/// The numbers of up to seven readings: of any sides, all of one, or all but one.
fn numbers(random: &mut Random, times: usize) -> Vec<u16> {
    let sides = random.below(5);
    let mut numbers = vec![];
    for k in 0..times {
        let any = random.next() as u16;
        let is_turned = match sides {
            0 => false,
            1 => true,
            2 => k == 0,
            3 => k > 0,
            _ => random.one_in(2),
        };
        let number = if is_turned { random.pick(&TURNED) } else { random.pick(&MOUNTED) };
        numbers.push(if random.one_in(6) { any } else { number });
    }
    numbers.sort_unstable();
    numbers.dedup();
    numbers
}

/// The rows of a reading: whole, or a little else, one of so many times.
fn rows_of(random: &mut Random, rows: u16, times: u64) -> Vec<u16> {
    let mut there: Vec<u16> = (0..rows).collect();
    let (any, some) = (random.below(rows.into()) as usize, random.below(rows.into()) as u16);
    let place = random.pick(&[0, rows as usize - 1, any]);
    let any_other = rows + random.below(65536 - u64::from(rows)) as u16;
    let far = random.pick(&[2046, 2047, 2048, 32768, 65535, rows + 256, any_other]).max(rows);
    match random.below(7 * times) {
        0 | 1 => drop(there.remove(place)),
        2 => there.push(place as u16),
        3 => there[place] = some,
        4 => there.push(rows),
        5 => there.push(far),
        6 => there[place] = random.pick(&[rows, far]),
        _ => {}
    }
    there
}

/// The readings of the mirror, and some of mirrors that differ from it in a bit or by the order of their bytes.
fn heads(random: &mut Random, mirror: u32, rows: u16) -> Vec<Head> {
    let most = if rows > 100 { 4 } else { 7 };
    let times = random.pick(&[0, 1, 2, 3, 3, 3, 4, 4, 5, 7]).min(most);
    let spoiled = random.pick(&[2, 8, 8]);
    let mut heads = vec![];
    let mut add = |random: &mut Random, mirror: u32, times: usize| {
        for reading in numbers(random, times) {
            heads.extend(rows_of(random, rows, spoiled).into_iter().map(|row| Head { mirror, reading, row }));
        }
    };
    add(random, mirror, times);
    let others = random.pick(&[0, 0, 1, 2, 3]).min(most - 3);
    for _ in 0..others {
        let other = another(random, mirror);
        add(random, other, 1);
    }
    if random.one_in(2) {
        shuffle(random, &mut heads);
    }
    heads
}

fn another(random: &mut Random, mirror: u32) -> u32 {
    let bit = 1 << random.below(32);
    random.pick(&[mirror ^ 1, mirror ^ 0x100, mirror ^ bit, mirror ^ (1 << 31), mirror.swap_bytes() ^ 2])
}

/// A store, and the records that its calls have left, each with its id.
struct Kept {
    model: Model,
    records: Vec<(u64, Vec<u8>)>,
}

impl Kept {
    fn insert(&mut self, record: Vec<u8>) {
        if let (DONE, id) = self.model.insert_record(&record) {
            self.records.push((id, record));
        }
    }

    /// The head with some data; mostly equal data for equal heads.
    fn insert_head(&mut self, random: &mut Random, head: Head) {
        let data = if random.one_in(8) { random.next() as u8 } else { 0xDD };
        let length = random.pick(&[0, 1, 1, 1, 9, 40]);
        self.insert([head.bytes(), vec![data; length]].concat());
    }

    fn any(&self, random: &mut Random) -> Option<usize> {
        (!self.records.is_empty()).then(|| random.below(self.records.len() as u64) as usize)
    }

    fn resize(&mut self, k: usize, size: usize) {
        let (id, record) = &mut self.records[k];
        if self.model.resize_record(*id, size as u64) == DONE {
            record.resize(size, 0);
        }
    }

    /// Takes a record out: erased, cut off so that it is no reading, or written over by another mirror's.
    fn take_out(&mut self, random: &mut Random, k: usize) {
        match random.below(4) {
            0 => self.resize(k, random.below(8) as usize),
            1 => {
                let (id, record) = &mut self.records[k];
                let written = [0xEE; 9];
                if self.model.write_record(*id, &written) == DONE {
                    *record = written.to_vec();
                }
            }
            _ => {
                if self.model.erase_record(self.records[k].0) == DONE {
                    self.records.remove(k);
                }
            }
        }
    }
}

/// The records go in one at a time, beside others that go in and out again; some then grow, and move to another page.
fn by_calls(random: &mut Random, heads: &[Head]) -> (Vec<u8>, Vec<Head>) {
    let n = random.pick(&[1, 2, 3, 4, 5]);
    let mut kept = Kept { model: Model::new(&vec![0; n * PAGE_SIZE], &[0; PAGE_SIZE]), records: vec![] };
    if random.one_in(2) {
        kept.insert(vec![0xEE; random.pick(&[9000, 12000, 14000, 15500])]);
    }
    heads.iter().for_each(|&head| kept.insert_head(random, head));
    for _ in 0..random.pick(&[0, 0, 1, 1, 3]) {
        let Some(k) = kept.any(random) else { break };
        let Some(mut head) = Head::of(&kept.records[k].1) else { continue };
        head.row = random.pick(&[head.row, head.row, head.row.wrapping_add(1), 65535]);
        let before = kept.records.len();
        kept.insert_head(random, head);
        if before < kept.records.len() {
            kept.take_out(random, before);
        }
    }
    for _ in 0..random.pick(&[0, 0, 1, 2]) {
        let begin = kept.any(random).map_or(vec![7; 7], |k| kept.records[k].1.clone());
        kept.insert(begin.into_iter().take(random.pick(&[0, 4, 6, 7, 7]) as usize).collect());
    }
    for _ in 0..random.pick(&[0, 0, 1, 3]) {
        let Some(k) = kept.any(random) else { break };
        let size = random.pick(&[8, 9, 2000, 5000, 8000]);
        if kept.records[k].1.len() >= 8 {
            kept.resize(k, size);
        }
    }
    if let (true, Some(k)) = (random.one_in(8), kept.any(random)) {
        kept.take_out(random, k);
    }
    let heads = kept.records.iter().filter_map(|(_, record)| Head::of(record)).collect();
    (kept.model.segment().to_vec(), heads)
}

/// The heads stand, in any order, in records of a sound segment that no calls need have made, with redirects, targets and free slots between
/// them; what records are left are another mirror's.
fn in_records(random: &mut Random, heads: &[Head]) -> (Vec<u8>, Vec<Head>) {
    let (n, most_slots) = (random.pick(&[0, 1, 2, 3, 3, 4, 6]), random.pick(&[8, 40, 40, 200]));
    let (mut segment, inventory) = sound(random, n, most_slots);
    let (_, mut found) = Model::new(&segment, &inventory).scan();
    shuffle(random, &mut found);
    let (mut kept, mut left) = (vec![], heads.to_vec());
    left.sort_unstable();
    let other = Head { mirror: 0xEEEE_EEEE, reading: 1, row: 0 };
    for found in found {
        let place = &mut segment[found.offset as usize..][..found.length as usize];
        match place.first_chunk_mut::<8>() {
            Some(begin) => {
                kept.push(left.pop().unwrap_or(other));
                begin.copy_from_slice(&kept[kept.len() - 1].bytes());
            }
            // no reading, though it begins as one
            None => place.copy_from_slice(&heads.first().unwrap_or(&other).bytes()[..place.len()]),
        }
    }
    (segment, kept)
}

/// The records on as few pages as they need, in their order, as no calls need have made them.
pub fn packed(records: &[Vec<u8>]) -> Vec<u8> {
    let (mut segment, mut left) = (vec![], records);
    while !left.is_empty() {
        let mut used = 0;
        let fits = |record: &&Vec<u8>| {
            used += 8 + record.len();
            used <= 16372
        };
        let (page, behind) = left.split_at(left.iter().take(2046).take_while(fits).count());
        add_page(&mut segment, page);
        left = behind;
    }
    segment
}

/// A page that is sound, with these records.
fn add_page(segment: &mut Vec<u8>, records: &[Vec<u8>]) {
    let (number, count) = (segment.len() / PAGE_SIZE, records.len());
    let bytes: usize = records.iter().map(Vec::len).sum();
    segment.resize((number + 1) * PAGE_SIZE, 0);
    let mut start = PAGE_SIZE;
    for (k, record) in records.iter().enumerate() {
        start -= record.len();
        poke::slot(number, k, poke::plain(start, record.len())).apply(segment, &mut []);
        segment[number * PAGE_SIZE + start..][..record.len()].copy_from_slice(record);
    }
    let header = [count, count, start, 16372 - bytes - 8 * count].map(|figure| figure as u64);
    poke::header(number, header).iter().for_each(|poke| poke.apply(segment, &mut []));
}

/// By both editions, and three others: of another mirror or one that a record cannot have, of other rows, of what is no rule.
fn asked(random: &mut Random, mirror: u32, rows: u64) -> Vec<Asked> {
    let right = Asked { mirror: mirror.into(), rows, edition: 1 };
    let mut asked = vec![right, Asked { edition: 2, ..right }];
    for _ in 0..3 {
        let right = Asked { edition: 1 + random.below(2), ..right };
        let few = random.pick(&[rows + 1, rows + 1, rows - 1, 1, 2, 3, 4, 2047, 2048]);
        let no_rows = random.pick(&[0, 2049, 2049, 4096, 65536, (1 << 32) + rows, (1 << 63) + rows, u64::MAX]);
        let no_edition = random.pick(&[0, 3, 3, 4, (1 << 32) + 1, (1 << 32) + 2, (1 << 63) + 1, u64::MAX]);
        asked.push(match random.below(7) {
            0 => Asked { mirror: right.mirror + random.pick(&[1 << 32, 1 << 63]), ..right },
            1 => Asked { mirror: another(random, mirror).into(), ..right },
            2 | 3 => Asked { rows: few, ..right },
            4 => Asked { rows: no_rows, ..right },
            5 => Asked { edition: no_edition, ..right },
            _ => Asked { rows: no_rows, edition: no_edition, ..right },
        });
    }
    asked
}

impl Case {
    fn damage(&mut self, random: &mut Random) {
        for _ in 0..random.pick(&[1, 1, 1, 3]) {
            let pokes = damage(random, &self.segment);
            pokes.iter().for_each(|poke| poke.apply(&mut self.segment, &mut []));
        }
        self.heads = None;
    }

    /// A page that could hold nothing, all zero but one number of its header, behind or before the others.
    fn add_damaged_page(&mut self, random: &mut Random) {
        let mut page = vec![0; PAGE_SIZE];
        page[random.pick(&[1, 1, 3, 7, 11])] = 1;
        let behind = random.pick(&[true, true, false]);
        self.segment = if behind { [&self.segment[..], &page].concat() } else { [&page, &self.segment[..]].concat() };
        self.heads = None;
    }

    fn make_wrong_size(&mut self, random: &mut Random) {
        let length = self.segment.len();
        self.segment.resize(random.pick(&[length + 1, length + 16383, length.saturating_sub(1), 1]), 0);
        self.heads = None;
    }
}
