//! Plans, and the files that they are kept in.

use std::path::Path;
use std::{fs, io};

pub const PAGE_SIZE: usize = 16384;

#[derive(Clone, Copy, PartialEq, Eq, Debug)]
#[repr(u64)]
pub enum Op {
    /// The calls after this one go to the segment whose number is `id`.
    Segment,
    Insert,
    Read,
    Write,
    Resize,
    Erase,
    Scan,
}

const OPS: [Op; 7] = [Op::Segment, Op::Insert, Op::Read, Op::Write, Op::Resize, Op::Erase, Op::Scan];

/// `seed` chooses the bytes of a record; what an operation does not need is 0.
#[derive(Clone, Copy, PartialEq, Eq, Debug)]
pub struct Call {
    pub op: Op,
    pub id: u64,
    pub length: u64,
    pub seed: u64,
}

/// What calls left: a sum of all they answered, and one of all bytes of segments and inventories.
#[derive(Clone, Copy, PartialEq, Eq, Debug, Default)]
pub struct Left {
    pub answers: u64,
    pub bytes: u64,
}

#[derive(Clone, PartialEq, Eq, Debug)]
pub struct Plan {
    /// Pages of a segment.
    pub pages: usize,
    /// How many segments there are, all equal at the start.
    pub segments: usize,
    /// The parts of a segment that are not zero at the start, and where they are.
    pub parts: Vec<(usize, Vec<u8>)>,
    pub inventory: Vec<u8>,
    /// The ids of the rows at the start, in the order in which they were inserted.
    pub rows: Vec<u64>,
    pub units: [Vec<Call>; 2],
    /// What a unit's cost is divided by: its calls, or the records of its scans.
    pub steps: u64,
    /// The faults of document 01's list that the published Rust meets: bit k is fault k.
    pub faults: u64,
    /// What one unit leaves, and what both leave.
    pub left: [Left; 2],
}

/// The parts of bytes that are not zero.
pub fn parts(bytes: &[u8]) -> Vec<(usize, Vec<u8>)> {
    const GRAIN: usize = 64;
    let mut parts: Vec<(usize, Vec<u8>)> = Vec::new();
    for (place, chunk) in bytes.chunks(GRAIN).enumerate() {
        if chunk.iter().all(|&byte| byte == 0) {
            continue;
        }
        match parts.last_mut() {
            Some((start, part)) if *start + part.len() == place * GRAIN => part.extend(chunk),
            _ => parts.push((place * GRAIN, chunk.to_vec())),
        }
    }
    parts
}

impl Plan {
    /// The bytes of a segment at the start, in memory that has been written to.
    pub fn segment(&self) -> Vec<u8> {
        let mut segment = vec![1; self.pages * PAGE_SIZE];
        segment.fill(0);
        for (start, part) in &self.parts {
            segment[*start..start + part.len()].copy_from_slice(part);
        }
        segment
    }

    pub fn save(&self, path: &Path) -> io::Result<()> {
        let mut out = Out(Vec::new());
        out.numbers(&[self.pages as u64, self.segments as u64, self.parts.len() as u64]);
        for (start, part) in &self.parts {
            out.numbers(&[*start as u64]);
            out.bytes(part);
        }
        out.bytes(&self.inventory);
        out.numbers(&[self.rows.len() as u64]);
        out.numbers(&self.rows);
        for unit in &self.units {
            out.numbers(&[unit.len() as u64]);
            unit.iter().for_each(|call| out.numbers(&[call.op as u64, call.id, call.length, call.seed]));
        }
        out.numbers(&[self.steps, self.faults]);
        self.left.iter().for_each(|left| out.numbers(&[left.answers, left.bytes]));
        fs::write(path, out.0)
    }

    pub fn load(path: &Path) -> io::Result<Plan> {
        let file = fs::read(path)?;
        let mut from = In(&file);
        let (pages, segments, parts) = (from.size(), from.size(), from.size());
        Ok(Plan {
            pages,
            segments,
            parts: (0..parts).map(|_| (from.size(), from.bytes())).collect(),
            inventory: from.bytes(),
            rows: (0..from.size()).map(|_| from.number()).collect(),
            units: [from.calls(), from.calls()],
            steps: from.number(),
            faults: from.number(),
            left: [from.left(), from.left()],
        })
    }
}

struct Out(Vec<u8>);

impl Out {
    fn numbers(&mut self, numbers: &[u64]) {
        numbers.iter().for_each(|number| self.0.extend(number.to_le_bytes()));
    }

    fn bytes(&mut self, bytes: &[u8]) {
        self.numbers(&[bytes.len() as u64]);
        self.0.extend(bytes);
    }
}

struct In<'a>(&'a [u8]);

impl In<'_> {
    fn number(&mut self) -> u64 {
        let (number, rest) = self.0.split_first_chunk().expect("a plan is whole");
        self.0 = rest;
        u64::from_le_bytes(*number)
    }

    fn size(&mut self) -> usize {
        self.number() as usize
    }

    fn bytes(&mut self) -> Vec<u8> {
        let size = self.size();
        let (bytes, rest) = self.0.split_at(size);
        self.0 = rest;
        bytes.to_vec()
    }

    fn calls(&mut self) -> Vec<Call> {
        (0..self.size()).map(|_| self.call()).collect()
    }

    fn call(&mut self) -> Call {
        Call { op: OPS[self.size()], id: self.number(), length: self.number(), seed: self.number() }
    }

    fn left(&mut self) -> Left {
        Left { answers: self.number(), bytes: self.number() }
    }
}
