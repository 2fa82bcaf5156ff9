//! Puts the readings of an exchange file into a store kept in a file, as `store_in_file` keeps it.
//!
//! ```text
//! cargo run --example import -- STORE READINGS
//! ```
//!
//! The store gets as many pages as it needs; one that is not there is made. All readings go in, or, where one is refused, none: STORE
//! is written under another name, which then becomes its own.

use hekatosuy::{Refusal, SlottedPageSegment, Stopped, PAGE_SIZE};
use std::error::Error;
use std::path::PathBuf;
use std::process::ExitCode;
use std::{env, fs, io};

/// The file without so many records at its begin, each of 12 bytes and the data whose length stands in the last two of these.
fn behind(file: &[u8], records: usize) -> &[u8] {
    (0..records).fold(file, |file, _| &file[12 + usize::from(u16::from_be_bytes([file[10], file[11]]))..])
}

/// Puts the readings in; where no page has room, with one page more, from the refused one on. How many there are.
fn import(store: &mut Vec<u8>, mut file: &[u8]) -> Result<u64, Refusal> {
    let (mut stored, mut grown) = (0, false);
    loop {
        let (inventory, segment) = store.split_at_mut(PAGE_SIZE);
        match SlottedPageSegment::new(segment, inventory).import(file) {
            Ok(rows) => return Ok(stored + rows),
            // a page of zeros takes any record, unless the inventory is not true
            Err(Stopped { rows, refusal: Refusal::Full }) if rows > 0 || !grown => {
                stored += rows as u64;
                file = behind(file, rows);
                store.resize(store.len() + PAGE_SIZE, 0);
                grown = true;
            }
            Err(stopped) => return Err(stopped.refusal),
        }
    }
}

fn run() -> Result<(), Box<dyn Error>> {
    let words: Vec<PathBuf> = env::args_os().skip(1).map(PathBuf::from).collect();
    let [path, readings] = &words[..] else { return Err("import STORE READINGS".into()) };
    let file = fs::read(readings)?;
    let mut store = match fs::read(path) {
        Err(why) if why.kind() == io::ErrorKind::NotFound => vec![0; PAGE_SIZE],
        read => read?,
    };
    if store.len() < PAGE_SIZE {
        return Err("the file is too short for an inventory".into());
    }
    let stored = import(&mut store, &file)?;
    let new = path.with_extension("new");
    fs::write(&new, &store)?;
    fs::File::open(&new)?.sync_all()?;
    fs::rename(new, path)?;
    println!("{stored} readings went in, pages {}", store.len() / PAGE_SIZE - 1);
    Ok(())
}

fn main() -> ExitCode {
    run().map_or_else(|why| { eprintln!("not imported: {why}"); ExitCode::FAILURE }, |()| ExitCode::SUCCESS)
}
