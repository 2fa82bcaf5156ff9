//! `plan FOLDER NAME..`: makes the plans of these names, in the folder. Prints for each its name,
//! the steps of a unit, and the faults that the published Rust meets, `-` for none.

use std::path::Path;
use std::process::ExitCode;

fn make(folder: &str, name: &str) -> Result<(), String> {
    let plan = driver::workloads::named(name).ok_or(format!("no workload is called {name}"))?;
    plan.save(&Path::new(folder).join(name)).map_err(|why| format!("{folder}/{name}: {why}"))?;
    let faults: Vec<String> = (1..=15).filter(|fault| plan.faults >> fault & 1 == 1).map(|fault| fault.to_string()).collect();
    println!("{name} {} {}", plan.steps, if faults.is_empty() { "-".to_string() } else { faults.join(",") });
    Ok(())
}

fn main() -> ExitCode {
    let words: Vec<String> = std::env::args().skip(1).collect();
    let made = match words.split_first() {
        Some((folder, names)) => names.iter().try_for_each(|name| make(folder, name)),
        None => Err("plan FOLDER NAME..".to_string()),
    };
    made.map_or_else(|why| { eprintln!("{why}"); ExitCode::FAILURE }, |()| ExitCode::SUCCESS)
}
