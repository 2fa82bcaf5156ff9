//! Tells whether a mirror is cleared for polishing, by its readings in a store kept in a file, as `store_in_file` keeps it, and why.
//!
//! ```text
//! cargo run --example cleared -- STORE MIRROR ROWS
//! ```
//!
//! prints which readings of so many rows are whole, and the answer by each edition of the rule sheet. `import` puts readings into STORE.

use hekatosuy::{SlottedPages, PAGE_SIZE};
use std::error::Error;
use std::process::ExitCode;
use std::{env, fs};

/// From this number on a reading is turned.
const TURNED: u16 = 32768;

fn print(side: &str, readings: &[u16]) {
    let numbers: Vec<String> = readings.iter().map(u16::to_string).collect();
    println!("whole {side}: {}", if numbers.is_empty() { "none".to_string() } else { numbers.join(", ") });
}

fn run() -> Result<(), Box<dyn Error>> {
    let words: Vec<String> = env::args().skip(1).collect();
    let [path, mirror, rows] = &words[..] else { return Err("cleared STORE MIRROR ROWS".into()) };
    let (mirror, rows) = (mirror.parse()?, rows.parse()?);
    let bytes = fs::read(path)?;
    let pages = SlottedPages::new(bytes.get(PAGE_SIZE..).ok_or("the file is too short for an inventory")?);
    let (mounted, turned): (Vec<u16>, Vec<u16>) = pages.whole_readings(mirror, rows)?.into_iter().partition(|&reading| reading < TURNED);
    println!("mirror {mirror}, readings of {rows} rows");
    print("as mounted", &mounted);
    print("turned", &turned);
    for edition in [1, 2] {
        println!("edition {edition}: {}", if pages.cleared(mirror, rows, edition)? { "cleared" } else { "not cleared" });
    }
    Ok(())
}

fn main() -> ExitCode {
    run().map_or_else(|why| { eprintln!("no answer, and so not cleared: {why}"); ExitCode::FAILURE }, |()| ExitCode::SUCCESS)
}
