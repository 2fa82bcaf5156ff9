//! `play check STORE PLAN UNITS`: plays one unit or both, and fails unless the store answered and
//! left what document 01's steps do. `play count STORE PLAN UNITS`: the same without the check, to be
//! run under a counter of instructions. `play time STORE PLAN`: plays both units and prints the
//! nanoseconds of a step of the second.

#[cfg(feature = "ours")]
use driver::stores::Ours;
use driver::stores::{sum_of_bytes, Corrected, Held, Nothing, Original};
use std::path::Path;
use std::process::ExitCode;
use std::time::Instant;
use workload::{play, pool, Left, Plan};

const USAGE: &str = "play check|count STORE PLAN UNITS | play time STORE PLAN";

fn set_up<S: Held>(plan: &Plan) -> Vec<S> {
    let segment = plan.segment();
    (0..plan.segments).map(|_| S::new(&segment, &plan.inventory)).collect()
}

fn check<S: Held>(plan: &Plan, units: usize) -> Result<(), String> {
    let (mut stores, pool) = (set_up::<S>(plan), pool());
    for (unit, expected) in plan.units.iter().zip(plan.left).take(units) {
        let left = Left { answers: play(&mut stores, unit, &pool), bytes: sum_of_bytes(&stores) };
        if left != expected {
            return Err(format!("answers and bytes are {left:?}, should be {expected:?}"));
        }
    }
    Ok(())
}

fn count<S: Held>(plan: &Plan, units: usize) -> Result<(), String> {
    let (mut stores, pool) = (set_up::<S>(plan), pool());
    for unit in plan.units.iter().take(units) {
        std::hint::black_box(play(&mut stores, unit, &pool));
    }
    Ok(())
}

fn time<S: Held>(plan: &Plan) -> Result<(), String> {
    let (mut stores, pool) = (set_up::<S>(plan), pool());
    std::hint::black_box(play(&mut stores, &plan.units[0], &pool));
    let start = Instant::now();
    std::hint::black_box(play(&mut stores, &plan.units[1], &pool));
    println!("{}", start.elapsed().as_nanos() / u128::from(plan.steps));
    Ok(())
}

fn run<S: Held>(words: &[&str], plan: &Plan) -> Result<(), String> {
    match *words {
        ["check", _, _, units] => check::<S>(plan, units.parse().map_err(|_| USAGE)?),
        ["count", _, _, units] => count::<S>(plan, units.parse().map_err(|_| USAGE)?),
        ["time", _, _] => time::<S>(plan),
        _ => Err(USAGE.to_string()),
    }
}

fn run_on(words: &[&str]) -> Result<(), String> {
    let &[_, store, path, ..] = words else { return Err(USAGE.to_string()) };
    let plan = Plan::load(Path::new(path)).map_err(|why| format!("{path}: {why}"))?;
    match store {
        "nothing" => run::<Nothing>(words, &plan),
        "original" => run::<Original>(words, &plan),
        "corrected" => run::<Corrected>(words, &plan),
        #[cfg(feature = "ours")]
        "ours" => run::<Ours>(words, &plan),
        _ => Err(format!("no store is called {store}")),
    }
}

fn main() -> ExitCode {
    let words: Vec<String> = std::env::args().skip(1).collect();
    let words: Vec<&str> = words.iter().map(String::as_str).collect();
    run_on(&words).map_or_else(|why| { eprintln!("{}: {why}", words.join(" ")); ExitCode::FAILURE }, |()| ExitCode::SUCCESS)
}
