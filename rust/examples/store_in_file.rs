//! A store kept in a file: the inventory first, then the segment's pages. Zeros are an empty store,
//! and zeros at its end are further pages.
//!
//! ```text
//! cargo run --example store_in_file -- FILE ROW..
//! ```
//!
//! puts rows in, reads each back, and lists all that are there. The file is read whole, and written
//! whole under another name, which then becomes its own: a fall of the machine leaves the old
//! store or the new one.

use hekatosuy::{Refusal, Rid, SlottedPageSegment, SlottedPages, PAGE_SIZE};
use std::error::Error;
use std::path::Path;
use std::{env, fs, io};

/// Inventory and segment, one after the other.
struct Stored(Vec<u8>);

impl Stored {
    fn open(path: &Path) -> io::Result<Stored> {
        let mut bytes = match fs::read(path) {
            Err(why) if why.kind() == io::ErrorKind::NotFound => vec![],
            read => read?,
        };
        if bytes.is_empty() {
            bytes.resize(PAGE_SIZE, 0); // an empty inventory, and no page yet
        }
        if bytes.len() < PAGE_SIZE {
            return Err(io::Error::new(io::ErrorKind::InvalidData, "the file is too short for an inventory"));
        }
        Ok(Stored(bytes))
    }

    fn save(&self, path: &Path) -> io::Result<()> {
        let new = path.with_extension("new");
        fs::write(&new, &self.0)?;
        fs::File::open(&new)?.sync_all()?;
        fs::rename(new, path)
    }

    fn calls(&mut self) -> SlottedPageSegment<'_> {
        let (inventory, segment) = self.0.split_at_mut(PAGE_SIZE);
        SlottedPageSegment::new(segment, inventory)
    }

    fn pages(&self) -> SlottedPages<'_> {
        SlottedPages::new(&self.0[PAGE_SIZE..])
    }

    fn grow(&mut self) {
        self.0.resize(self.0.len() + PAGE_SIZE, 0);
    }

    /// Puts a row in; where no page has room, with one page more.
    fn insert(&mut self, row: &[u8]) -> Result<Rid, Refusal> {
        match self.calls().insert_record(row) {
            Err(Refusal::Full) => {
                self.grow();
                self.calls().insert_record(row)
            }
            done => done,
        }
    }
}

fn line(tid: Rid, row: &[u8]) -> String {
    let begin = String::from_utf8_lossy(&row[..row.len().min(20)]);
    format!("{tid} {} bytes: {begin}", row.len())
}

fn main() -> Result<(), Box<dyn Error>> {
    let words: Vec<String> = env::args().skip(1).collect();
    let (path, rows) = words.split_first().ok_or("store_in_file FILE ROW..")?;
    let mut stored = Stored::open(Path::new(path))?;
    for row in rows {
        let tid = stored.insert(row.as_bytes())?;
        println!("put {}", line(tid, stored.pages().get_record(tid)?));
    }
    stored.save(Path::new(path))?;
    for record in &stored.pages() {
        let (tid, row) = record?;
        println!("{}", line(tid, row));
    }
    println!("pages {}", stored.pages().get_size());
    Ok(())
}
