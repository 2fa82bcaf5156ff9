//! Generated sequences of calls on the crate and on the corrected Rust: equal answers, ids, places
//! and bytes after every call; the published Rust beside them on every call that meets no fault,
//! from the same bytes; and the judge's committed traces.

use compare::Ours;
use judge::poke::poke_store;
use judge::sequence::{any_style, few_pages, Event, Sequence};
use judge::trace;
use judge::trial::askable;
use std::path::Path;
use std::{env, fs, thread};
use store::{perform, Call, Reply, Store, PAGE_SIZE};

/// How many sequences are run, unless HEKATOSUY_SEQUENCES says another number.
const USUAL_SEQUENCES: u64 = 1000;
const CALLS_OF_EACH: u64 = 100;

struct Pair {
    seed: u64,
    ours: Ours,
    corrected: corrected::LentStore,
    /// Tells which faults a call meets.
    model: model::Model,
    original: original::LentStore,
    /// Calls that met no fault and were compared with the published Rust.
    published: u64,
}

impl Pair {
    fn new(seed: u64, n: usize) -> Pair {
        let (segment, inventory) = (vec![0; n * PAGE_SIZE], vec![0; PAGE_SIZE]);
        Pair {
            seed,
            ours: Ours::new(&segment, &inventory),
            corrected: corrected::LentStore::new(&segment, &inventory),
            model: model::Model::new(&segment, &inventory),
            original: original::LentStore::new(&segment, &inventory),
            published: 0,
        }
    }

    fn call(&mut self, call: Call) {
        let seed = self.seed;
        let (ours, corrected) = (perform(&mut self.ours, call), perform(&mut self.corrected, call));
        assert_eq!(ours, corrected, "seed {seed}, {call}: ours and the corrected Rust's answer");
        assert!(self.ours.segment() == self.corrected.segment(), "seed {seed}, {call} leaves another segment");
        assert!(self.ours.inventory() == self.corrected.inventory(), "seed {seed}, {call} leaves another inventory");
        self.ask_original(call, ours);
    }

    fn ask_original(&mut self, call: Call, ours: Reply) {
        let seed = self.seed;
        self.model.notes.faults = 0;
        perform(&mut self.model, call);
        if self.model.notes.faults != 0 || !askable(call) {
            self.original.load(self.ours.segment(), self.ours.inventory());
            return;
        }
        assert_eq!(ours, perform(&mut self.original, call), "seed {seed}, {call}: ours and the published Rust's answer");
        assert!(self.ours.segment() == self.original.segment(), "seed {seed}, {call} leaves another segment than the published Rust");
        assert!(self.ours.inventory() == self.original.inventory(), "seed {seed}, {call} leaves another inventory than the published Rust");
        self.published += 1;
    }

    fn run(&mut self, sequence: &mut Sequence) -> u64 {
        let mut calls = 0;
        while let Some(event) = sequence.next(self.ours.segment()) {
            match event {
                Event::Call(call) => {
                    self.call(call);
                    calls += 1;
                }
                Event::Pokes(pokes) => {
                    poke_store(&mut self.ours, &pokes);
                    poke_store(&mut self.corrected, &pokes);
                    poke_store(&mut self.model, &pokes);
                    poke_store(&mut self.original, &pokes);
                }
            }
        }
        calls
    }
}

/// Runs the sequences of these seeds, and counts their calls and those that met no fault.
fn run_seeds(seeds: impl Iterator<Item = u64>) -> (u64, u64) {
    let (mut calls, mut published) = (0, 0);
    for seed in seeds {
        let n = few_pages(seed);
        let mut pair = Pair::new(seed, n);
        calls += pair.run(&mut Sequence::new(seed, any_style(seed), n, CALLS_OF_EACH));
        published += pair.published;
    }
    (calls, published)
}

#[test]
fn generated_sequences() {
    let wanted = env::var("HEKATOSUY_SEQUENCES").map(|number| number.parse().expect("HEKATOSUY_SEQUENCES is a number"));
    let sequences = wanted.unwrap_or(USUAL_SEQUENCES);
    let seeds = 5_000_000..5_000_000 + sequences;
    let processors = thread::available_parallelism().map_or(1, usize::from);
    let (calls, published) = thread::scope(|scope| {
        let run = |first| scope.spawn({ let seeds = seeds.clone(); move || run_seeds(seeds.skip(first).step_by(processors)) });
        let runs: Vec<_> = (0..processors).map(run).collect();
        let counts = runs.into_iter().map(|run| run.join().expect("a sequence differs, as told above"));
        counts.fold((0, 0), |sum, count| (sum.0 + count.0, sum.1 + count.1))
    });
    println!("counted: {sequences} sequences, {calls} calls, 0 differences from the corrected Rust; {published} of them met no fault, 0 differences from the published Rust");
    assert!(calls >= CALLS_OF_EACH * sequences, "only {calls} calls were made");
    assert!(published * 5 > calls, "only {published} calls were compared with the published Rust");
}

#[test]
fn committed_traces() {
    let path = Path::new(env!("CARGO_MANIFEST_DIR")).join("../../crates/replay/stdin");
    let text = fs::read_to_string(&path).expect("the judge's traces are there");
    let lend = |segment: &[u8], inventory: &[u8]| Some(Box::new(Ours::new(segment, inventory)) as Box<dyn Store>);
    let calls = trace::replay(&text, &lend).unwrap_or_else(|what| panic!("{}: {what}", path.display()));
    assert!(calls > 1000, "only {calls} calls were replayed");
    println!("counted: {calls} calls of the judge's traces replayed, 0 differences");
}
