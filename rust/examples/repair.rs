//! Repairs a store kept in a file, as `store_in_file` keeps it: the inventory first, then the segment's pages.
//!
//! ```text
//! cargo run --example repair -- FILE
//! ```
//!
//! checks the store, and where it is not sound keeps the old bytes in FILE.before, repairs it and says in a line each what
//! was touched. The last line is `sound`. A FILE.before that is there already is left alone, and so is the store then.

use hekatosuy::{SlottedPageSegment, PAGE_SIZE};
use std::error::Error;
use std::io::{self, Write};
use std::path::{Path, PathBuf};
use std::{env, fs};

/// The file's name with a word behind it.
fn beside(path: &Path, word: &str) -> PathBuf {
    let mut name = path.as_os_str().to_owned();
    name.push(word);
    name.into()
}

/// Writes a file that is not there yet, so that it stays after a fall of the machine.
fn write_new(path: &Path, bytes: &[u8]) -> io::Result<()> {
    let mut file = fs::File::create_new(path)?;
    file.write_all(bytes)?;
    file.sync_all()
}

fn main() -> Result<(), Box<dyn Error>> {
    let path = PathBuf::from(env::args_os().nth(1).ok_or("repair FILE")?);
    let mut bytes = fs::read(&path)?;
    if bytes.len() < PAGE_SIZE {
        return Err("the file is too short for an inventory".into());
    }
    let old = bytes.clone();
    let (inventory, segment) = bytes.split_at_mut(PAGE_SIZE);
    let mut calls = SlottedPageSegment::new(segment, inventory);
    let told = calls.repair_all()?;
    let sound = calls.is_sound();
    if !told.is_empty() {
        let (before, new) = (beside(&path, ".before"), beside(&path, ".new"));
        write_new(&before, &old).map_err(|why| format!("{}: {why}", before.display()))?;
        fs::write(&new, &bytes)?;
        fs::File::open(&new)?.sync_all()?;
        fs::rename(new, &path)?;
    }
    for touched in &told {
        println!("{touched}");
    }
    println!("{}", if sound { "sound" } else { "not sound" });
    Ok(())
}
