//! One sequence run on the three stores side by side.
//!
//! The model and the corrected Rust must agree on every call. The published Rust must agree with
//! them on every call that meets no fault; after one that does it is given their bytes, so that
//! each call is judged from a state that all three share.

use crate::poke::{poke_store, Poke};
use crate::sequence::Event;
use model::{Model, STEPS};
use std::collections::BTreeMap;
use store::{perform, Answer, Call, Reply, Store, DONE, PAGE_SIZE};

pub const FAULTS: usize = 16;
const KINDS: [&str; 7] = ["insert", "allocate", "read", "write", "resize", "erase", "scan"];

/// Of a thousand calls that met a fault alone, on how many the published Rust may all the same have done what the corrected does. A
/// detector that notes its fault too often takes calls out of the comparison, and a difference could hide there.
fn most_equal(fault: usize) -> u64 {
    match fault {
        // A record that compactify does not collect keeps its offset. Where it is packed already, that is its place.
        3 => 80,
        // Behind the directory's end can stand what looks like a free slot, of which the published Rust says that no record is there.
        11 => 10,
        _ => 0,
    }
}

/// What was run, met and reached.
#[derive(Clone, Default)]
pub struct Counts {
    /// Sequences by their number of pages.
    pub sequences: BTreeMap<usize, u64>,
    /// Sequences that kept to sound segments.
    pub calm: u64,
    pub calls: [u64; 7],
    pub answers: [[u64; 9]; 7],
    /// Calls that met no fault and were compared with the published Rust.
    pub compared: u64,
    pub met: [u64; FAULTS + 1],
    /// Calls that met the fault and no other.
    pub met_alone: [u64; FAULTS + 1],
    pub differed: [u64; FAULTS + 1],
    pub differed_alone: [u64; FAULTS + 1],
    /// Calls that met the fault, alone or with others, and on which nothing differed.
    pub equal: [u64; FAULTS + 1],
    /// How the published Rust ended the calls that met a fault: done, refused, past the end,
    /// endless, panicked.
    pub endings: [u64; 5],
    pub pokes: u64,
    pub steps: Vec<u64>,
}

pub struct Trial {
    pub model: Model,
    pub corrected: corrected::LentStore,
    pub original: original::LentStore,
}

fn kind(call: Call) -> usize {
    match call {
        Call::Insert { .. } => 0,
        Call::Allocate { .. } => 1,
        Call::Read { .. } => 2,
        Call::Write { .. } => 3,
        Call::Resize { .. } => 4,
        Call::Erase { .. } => 5,
        Call::Scan => 6,
    }
}

/// The first place where two runs of bytes differ.
fn difference(one: &[u8], other: &[u8]) -> Option<usize> {
    if one == other {
        return None;
    }
    one.iter().zip(other).position(|(one, other)| one != other)
}

fn bytes_differ(one: &dyn Store, other: &dyn Store) -> Option<String> {
    if let Some(place) = difference(one.segment(), other.segment()) {
        return Some(format!("page {} byte {}", place / PAGE_SIZE, place % PAGE_SIZE));
    }
    difference(one.inventory(), other.inventory()).map(|place| format!("inventory byte {place}"))
}

fn differ(one: (&dyn Store, Reply), other: (&dyn Store, Reply)) -> Option<String> {
    if one.1 != other.1 {
        return Some(format!("{:?} and {:?}", one.1, other.1));
    }
    bytes_differ(one.0, other.0)
}

/// Allocate takes 16 bits in the published Rust: a larger size cannot be asked of it.
pub fn askable(call: Call) -> bool {
    !matches!(call, Call::Allocate { size } if size > u16::MAX.into())
}

impl Trial {
    pub fn new(n: usize) -> Trial {
        Trial::over(&vec![0; n * PAGE_SIZE], &[0; PAGE_SIZE])
    }

    /// Over whole pages as they are.
    pub fn over(segment: &[u8], inventory: &[u8]) -> Trial {
        Trial {
            model: Model::new(segment, inventory),
            corrected: corrected::LentStore::new(segment, inventory),
            original: original::LentStore::new(segment, inventory),
        }
    }

    pub fn poke(&mut self, pokes: &[Poke]) {
        let stores: [&mut dyn Store; 3] = [&mut self.model, &mut self.corrected, &mut self.original];
        stores.into_iter().for_each(|store| poke_store(store, pokes));
    }

    pub fn call(&mut self, call: Call, counts: &mut Counts) -> Result<Reply, String> {
        self.model.notes.faults = 0;
        let reply = perform(&mut self.model, call);
        let corrected = perform(&mut self.corrected, call);
        if let Some(what) = differ((&self.model, reply), (&self.corrected, corrected)) {
            return Err(format!("model and corrected Rust differ: {what}"));
        }
        counts.count_reply(call, reply);
        if reply.answer != DONE {
            if let Some(what) = bytes_differ(&self.model, &self.original) {
                return Err(format!("a refused call changed {what}"));
            }
        }
        self.ask_original(call, reply, counts)?;
        Ok(reply)
    }

    fn ask_original(&mut self, call: Call, reply: Reply, counts: &mut Counts) -> Result<(), String> {
        let faults = self.model.notes.faults;
        let ended = askable(call).then(|| perform(&mut self.original, call));
        let differs = ended.and_then(|ended| differ((&self.original, ended), (&self.model, reply)));
        if faults == 0 {
            counts.compared += 1;
            return differs.map_or(Ok(()), |what| Err(format!("published and corrected Rust differ without a fault: {what}")));
        }
        counts.count_faults(faults, ended, differs.is_some());
        self.original.load(self.model.segment(), self.model.inventory());
        Ok(())
    }

    /// Runs the events that `next` chooses with a view of the segment, until it gives none. Each is
    /// shown to `see` once it is done, with the reply of a call.
    pub fn run(
        &mut self,
        next: &mut dyn FnMut(&[u8]) -> Option<Event>,
        counts: &mut Counts,
        see: &mut dyn FnMut(&Event, Option<Reply>, &Model),
    ) -> Result<(), String> {
        counts.count_sequence(self.model.segment());
        let mut history = Vec::new();
        while let Some(event) = next(self.model.segment()) {
            history.push(event.clone());
            let reply = self.event(&event, counts).map_err(|what| told(&what, &history))?;
            see(&event, reply, &self.model);
        }
        counts.add_steps(&self.model.notes.steps);
        Ok(())
    }

    fn event(&mut self, event: &Event, counts: &mut Counts) -> Result<Option<Reply>, String> {
        match event {
            Event::Pokes(pokes) => {
                counts.pokes += pokes.len() as u64;
                self.poke(pokes);
                Ok(None)
            }
            Event::Call(call) => self.call(*call, counts).map(Some),
        }
    }
}

/// A difference with the events that led to it.
fn told(what: &str, history: &[Event]) -> String {
    let mut text = format!("{what}\nafter");
    for event in history {
        match event {
            Event::Pokes(pokes) => pokes.iter().for_each(|poke| text += &format!("\n{poke}")),
            Event::Call(call) => text += &format!("\n{call}"),
        }
    }
    text
}

fn numbers(mask: u32) -> impl Iterator<Item = usize> {
    (1..=FAULTS).filter(move |number| mask >> number & 1 == 1)
}

/// The faults that the last call met.
pub fn faults_of(trial: &Trial) -> Vec<usize> {
    numbers(trial.model.notes.faults).collect()
}

impl Counts {
    pub fn count_sequence(&mut self, segment: &[u8]) {
        *self.sequences.entry(segment.len() / PAGE_SIZE).or_default() += 1;
    }

    fn count_reply(&mut self, call: Call, reply: Reply) {
        self.calls[kind(call)] += 1;
        if let Answer::Number(number) = reply.answer {
            self.answers[kind(call)][number as usize] += 1;
        }
    }

    fn count_faults(&mut self, faults: u32, ended: Option<Reply>, differed: bool) {
        let alone = faults.count_ones() == 1;
        for number in numbers(faults) {
            self.met[number] += 1;
            self.met_alone[number] += alone as u64;
            self.differed[number] += differed as u64;
            self.differed_alone[number] += (alone && differed) as u64;
            self.equal[number] += (ended.is_some() && !differed) as u64;
        }
        if let Some(ended) = ended {
            self.endings[match ended.answer {
                Answer::Number(0) => 0,
                Answer::Number(_) => 1,
                Answer::PastEnd => 2,
                Answer::Endless => 3,
                Answer::Panic => 4,
            }] += 1;
        }
    }

    pub fn add_steps(&mut self, steps: &[u64]) {
        self.steps.resize(STEPS.len(), 0);
        self.steps.iter_mut().zip(steps).for_each(|(sum, more)| *sum += more);
    }

    /// How often a call answered or met what none can on a sound segment.
    pub fn unsound_calls(&self) -> u64 {
        let answers: u64 = self.answers.iter().map(|answers| answers[4] + answers[8]).sum();
        answers + self.met[1] + self.met[14] + self.met[15] + self.met[16]
    }

    pub fn all_calls(&self) -> u64 {
        self.calls.iter().sum()
    }

    /// Steps and faults that no call reached.
    pub fn holes(&self) -> Vec<String> {
        let step = STEPS.iter().zip(&self.steps).filter(|(_, &times)| times == 0).map(|(name, _)| name.to_string());
        let fault = (1..=FAULTS).filter(|&number| self.differed[number] == 0).map(|number| format!("fault {number}"));
        step.chain(fault).collect()
    }

    /// Faults that were noted too often though nothing differed.
    pub fn overnoted(&self) -> Vec<usize> {
        (1..=FAULTS).filter(|&number| 1000 * self.equal[number] > most_equal(number) * self.met_alone[number]).collect()
    }

    pub fn print(&self) {
        let sequences: u64 = self.sequences.values().sum();
        let pages: Vec<String> = self.sequences.iter().map(|(n, times)| format!("{n}: {times}")).collect();
        println!("sequences {sequences}, calls {}, numbers set by hand {}", self.all_calls(), self.pokes);
        println!("sequences by pages: {}", pages.join(", "));
        println!("sequences that kept to sound segments, without answers 4 and 8 and faults 1 and 14 to 16: {}", self.calm);
        println!("calls that met no fault, published and corrected Rust equal: {}", self.compared);
        self.print_answers();
        self.print_faults();
        self.print_steps();
    }

    fn print_answers(&self) {
        println!("answers:        0        1        2        3        4        5        6        7        8");
        for (kind, answers) in KINDS.iter().zip(&self.answers) {
            let cells: String = answers.iter().map(|times| format!(" {times:8}")).collect();
            println!("{kind:8}{cells}");
        }
    }

    fn print_faults(&self) {
        println!("fault: met, of these published and corrected differ; met alone, of these differ; noted though nothing differed, at most");
        for number in 1..=FAULTS {
            let (met, differed) = (self.met[number], self.differed[number]);
            let (met_alone, differed_alone) = (self.met_alone[number], self.differed_alone[number]);
            let (equal, most) = (self.equal[number], most_equal(number) * met_alone / 1000);
            println!("{number:5}: {met:8} {differed:8} {met_alone:8} {differed_alone:8} {equal:8} {most:8}");
        }
        let equal = (1..=FAULTS).filter(|&number| self.equal[number] > 0);
        let equal: Vec<String> = equal.map(|number| format!("fault {number} {} of {}", self.equal[number], self.met[number])).collect();
        println!("noted though nothing differed: {}", if equal.is_empty() { "none".to_string() } else { equal.join(", ") });
        let [done, refused, past, endless, panicked] = self.endings;
        println!("calls that met a fault ended in the published Rust: done {done}, no record {refused}, past the end {past}, endless {endless}, panic {panicked}");
    }

    fn print_steps(&self) {
        println!("steps reached:");
        for (name, times) in STEPS.iter().zip(&self.steps) {
            println!("{times:9}  {name}");
        }
        let holes = self.holes();
        println!("never reached: {}", if holes.is_empty() { "none".to_string() } else { holes.join("; ") });
    }
}
