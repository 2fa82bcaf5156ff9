//! Tells how full stores kept in files are, as `store_in_file` keeps them: the inventory first, then the segment's pages.
//!
//! ```text
//! cargo run --example fill_report -- FILE..
//! ```
//!
//! prints the figures of all files, added up. A file that is refused, since a page is damaged say, adds nothing: it is told
//! beside the figures, which are those of the others.

use hekatosuy::{SlottedPages, Tally, PAGE_SIZE};
use std::error::Error;
use std::path::{Path, PathBuf};
use std::process::ExitCode;
use std::{env, fs};

/// Adds the figures of the store in a file.
fn add(path: &Path, tally: &mut Tally) -> Result<(), Box<dyn Error>> {
    let bytes = fs::read(path)?;
    let segment = bytes.get(PAGE_SIZE..).ok_or("the file is too short for an inventory")?;
    Ok(SlottedPages::new(segment).fill_report(tally)?)
}

fn main() -> ExitCode {
    let paths: Vec<PathBuf> = env::args_os().skip(1).map(PathBuf::from).collect();
    if paths.is_empty() {
        eprintln!("fill_report FILE..");
        return ExitCode::FAILURE;
    }
    let mut status = ExitCode::SUCCESS;
    let mut tally = Tally::default();
    for path in &paths {
        if let Err(why) = add(path, &mut tally) {
            eprintln!("{}: not added: {why}", path.display());
            status = ExitCode::FAILURE;
        }
    }
    println!("{tally}");
    status
}
