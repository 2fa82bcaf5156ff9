//! Exchange files, each with a store that it is to go into and that is exported itself. Repeatable from a seed.

use crate::lists::{lengths, store};
use crate::random::Random;
use store::{record, PAGE_SIZE};

/// What is wrong with a record of a file.
#[derive(Clone, Copy, PartialEq, Eq, Debug)]
pub enum Fault {
    /// Fewer than 12 bytes are left.
    Short,
    /// Another mark.
    Mark,
    /// A length above 16,356.
    Long,
    /// The data is cut off.
    Cut,
}

impl Fault {
    pub fn number(self) -> u64 {
        match self {
            Fault::Short | Fault::Cut => 13,
            Fault::Mark => 12,
            Fault::Long => 3,
        }
    }
}

/// How a file was made.
#[derive(Clone, Copy, PartialEq, Eq, Debug)]
pub enum Made {
    /// Of whole records.
    Whole,
    /// Of whole records and one with a fault, behind which there may be anything.
    Wrong(Fault),
    /// Of whole records, and then cut off anywhere.
    CutOff,
    /// Of whole records, and then one byte changed.
    Changed,
    /// Of any bytes.
    AnyBytes,
}

pub struct Case {
    pub segment: Vec<u8>,
    pub inventory: Vec<u8>,
    pub file: Vec<u8>,
    pub made: Made,
    /// The whole records, those before the one with a fault, as the store has them; they are the file's where it is whole or wrong.
    pub records: Vec<Vec<u8>>,
    /// Segment or inventory have a length that is refused.
    pub wrong_size: bool,
}

/// A record of 8 bytes or more as the file has it, with this mark and this length.
fn piece(record: &[u8], mark: [u8; 2], length: usize) -> Vec<u8> {
    [&mark, &record[..8], &(length as u16).to_be_bytes(), &record[8..]].concat()
}

const MARK: [u8; 2] = [0x52, 0x54];

/// Whole records end to end.
pub fn written<'a>(records: impl IntoIterator<Item = &'a [u8]>) -> Vec<u8> {
    records.into_iter().flat_map(|record| piece(record, MARK, record.len() - 8)).collect()
}

pub fn of_records(records: &[Vec<u8>]) -> Vec<u8> {
    written(records.iter().map(Vec::as_slice))
}

/// A file for a store of few pages, now and then of some forty.
pub fn case(seed: u64) -> Case {
    let mut random = Random::new(seed ^ 0x0007_F11E);
    let (segment, inventory) = store(&mut random);
    let records = records(&mut random, &segment, &inventory);
    let mut case = Case { segment, inventory, file: vec![], made: Made::Whole, records, wrong_size: false };
    case.file = of_records(&case.records);
    match random.below(12) {
        0..6 => {}
        6..9 => case.make_wrong(&mut random),
        9 => case.cut_off(&mut random),
        10 => case.change(&mut random),
        _ => case.any_bytes(&mut random),
    }
    if random.one_in(25) {
        case.make_wrong_size(&mut random);
    }
    case
}

/// Of lengths with a view of the pages, some of them more than once.
fn records(random: &mut Random, segment: &[u8], inventory: &[u8]) -> Vec<Vec<u8>> {
    let mut lengths = lengths(random, segment, inventory);
    if random.one_in(8) {
        let longest = random.below(lengths.len() as u64 + 1) as usize;
        lengths.insert(longest, 16364);
    }
    let made = |length: u64, random: &mut Random| {
        let seed = if random.one_in(3) { 0x52 } else { random.below(256) };
        record(length.clamp(8, 16364), seed)
    };
    lengths.into_iter().map(|length| made(length, random)).collect()
}

impl Case {
    /// One record with a fault, behind some of the whole ones.
    fn make_wrong(&mut self, random: &mut Random) {
        let kept = random.below(self.records.len() as u64 + 1) as usize;
        let behind = self.records.split_off(if random.one_in(3) { 0 } else { kept });
        let longest = random.pick(&[8, 9, 20, 300, 16364]);
        let any = record(8 + random.below(longest - 7), random.below(256));
        let right = any.len() - 8;
        let marks = [[0x53, 0x54], [0x52, 0x55], [0x54, 0x52], [0, 0], [0x52, 0], [0, 0x54], [0xFF, 0xFF]];
        let fault = random.pick(&[Fault::Short, Fault::Mark, Fault::Long, Fault::Cut]);
        self.file = of_records(&self.records);
        let mut wrong = match fault {
            Fault::Short => {
                let mark = if random.one_in(3) { random.pick(&marks) } else { MARK };
                let any_number = 1 + random.below(11) as usize;
                let left = random.pick(&[1, 2, 11, 11, any_number]);
                piece(&any, mark, right)[..left].to_vec()
            }
            Fault::Mark => {
                let length = random.pick(&[right, right, 16356, 16357, 65535]);
                piece(&any, random.pick(&marks), length)
            }
            Fault::Long => {
                let length = random.pick(&[16357, 16357, 16358, 20000, 65535]);
                let data = random.pick(&[0, 1, 16356, length, length]);
                piece(&record(8 + data as u64, 7), MARK, length)
            }
            Fault::Cut => {
                let any_length = 1 + random.below(16356) as usize;
                let length = random.pick(&[1, 2, 256, 16356, any_length]);
                let any_part = random.below(length as u64) as usize;
                let data = random.pick(&[0, length - 1, length - 1, any_part]);
                piece(&record(8 + data as u64, 7), MARK, length)
            }
        };
        if matches!(fault, Fault::Mark | Fault::Long) {
            match random.below(3) {
                0 => {}
                1 => wrong.extend(of_records(&behind)),
                _ => wrong.extend((0..random.below(30)).map(|_| random.next() as u8)),
            }
        }
        self.file.extend(wrong);
        self.made = Made::Wrong(fault);
    }

    /// Where a record begins, or the file ends.
    fn border(&self, random: &mut Random) -> usize {
        let before = random.below(self.records.len() as u64 + 1) as usize;
        of_records(&self.records[..before]).len()
    }

    fn cut_off(&mut self, random: &mut Random) {
        let (border, anywhere) = (self.border(random), random.below(self.file.len() as u64 + 1) as usize);
        let near = border + random.pick(&[0, 0, 1, 2, 10, 11, 12, 13]);
        self.file.truncate(if random.one_in(2) { near } else { anywhere });
        self.made = Made::CutOff;
    }

    fn change(&mut self, random: &mut Random) {
        let (border, anywhere) = (self.border(random), random.below(self.file.len() as u64) as usize);
        let near = border + random.below(12) as usize;
        let at = if near < self.file.len() && !random.one_in(3) { near } else { anywhere };
        let any_bits = 1 + random.below(255) as u8;
        if let Some(byte) = self.file.get_mut(at) {
            *byte ^= random.pick(&[1, 2, 0x06, 0x40, 0x80, 0xFF, any_bits]);
        }
        self.made = Made::Changed;
    }

    fn any_bytes(&mut self, random: &mut Random) {
        let any_length = random.below(100);
        let length = random.pick(&[1, 11, 12, 13, 40, 3000, any_length]);
        self.file = (0..length).map(|_| random.next() as u8).collect();
        if random.one_in(2) {
            self.file.iter_mut().zip(MARK).for_each(|(byte, mark)| *byte = mark);
        }
        self.made = Made::AnyBytes;
    }

    fn make_wrong_size(&mut self, random: &mut Random) {
        match random.below(6) {
            0 => self.segment.push(0),
            1 => self.segment.resize(self.segment.len() + PAGE_SIZE - 1, 0),
            2 => self.inventory.push(0),
            3 => drop(self.inventory.pop()),
            4 => self.inventory.clear(),
            _ => self.inventory.resize(2 * PAGE_SIZE, 0),
        }
        self.wrong_size = true;
    }
}
