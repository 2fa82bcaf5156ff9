//! Writes the readings of a store kept in a file, as `store_in_file` keeps it, as an exchange file.
//!
//! ```text
//! cargo run --example export -- STORE > READINGS
//! ```
//!
//! A record of fewer than 8 bytes is no reading: how many were passed over is told beside the file. `import` takes READINGS.

use hekatosuy::{SlottedPages, PAGE_SIZE};
use std::error::Error;
use std::io::{self, Write};
use std::process::ExitCode;
use std::{env, fs};

fn run() -> Result<(), Box<dyn Error>> {
    let path = env::args_os().nth(1).ok_or("export STORE > READINGS")?;
    let bytes = fs::read(path)?;
    let pages = SlottedPages::new(bytes.get(PAGE_SIZE..).ok_or("the file is too short for an inventory")?);
    let mut file = vec![0; pages.exported()?.length];
    let told = pages.export(&mut file)?;
    match told.passed {
        0 => {}
        1 => eprintln!("1 record has fewer than 8 bytes, is no reading and was passed over"),
        passed => eprintln!("{passed} records have fewer than 8 bytes, are no readings and were passed over"),
    }
    Ok(io::stdout().write_all(&file)?)
}

fn main() -> ExitCode {
    run().map_or_else(|why| { eprintln!("not exported: {why}"); ExitCode::FAILURE }, |()| ExitCode::SUCCESS)
}
