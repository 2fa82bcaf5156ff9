//! `polishing check CASE` and `polishing count CASE UNITS`: the polishing rule by the archive, and whole scans by
//! its step. `check` fails unless the archive answers what the judge's rule does, and a scan gives all records;
//! `polishing records CASE` prints how many there are. `count` asks so many times, so that what two take less what
//! one takes is one, or what one takes less what none takes.
//!
//! A case is a name and the pages of its segment, as `yes2-64`. The pages are full of records of 64 bytes, of which
//! mirror 7 has eight readings, four as mounted and four turned, of 256 rows on 64 pages and of 512 on 128; the
//! others are of other mirrors. `yes1` and `yes2` ask by edition 1 and 2. For `no2` the turned readings have a row
//! twice, and for `one` all but the first reading have; both ask by edition 2. `list` asks which readings are whole,
//! and `scan` is a scan. `worst-68` has each of the 65,536 readings with one row, of which two rows are named.

use driver::stores::scan;
use hekatosuy::{SlottedPageSegment, SlottedPages};
use judge::clearings::{PlainRule, Polishing};
use judge::mirrors::{packed, Asked, Head};
use std::hint::black_box;
use std::process::ExitCode;
use workload::PAGE_SIZE;

const USAGE: &str = "polishing check CASE | polishing records CASE | polishing count CASE UNITS";

/// Records of 64 bytes on a full page.
const A_PAGE: usize = 227;

struct Case {
    name: String,
    segment: Vec<u8>,
    asked: Asked,
}

/// Eight readings of as many rows as have room in a seventh of the pages, spread over them; so many of the readings are whole.
fn eight(pages: usize, rows: usize, whole: usize) -> Vec<u8> {
    let (count, wanted) = (A_PAGE * pages, 8 * rows);
    let head = |k: usize| {
        // every seventh record or so is the next of the mirror
        let place = k * wanted / count;
        if (k + 1) * wanted / count == place {
            return Head { mirror: 8 + (k % 5) as u32, reading: (k / 256) as u16, row: (k % 256) as u16 };
        }
        let (number, row) = (place % 8, place / 8);
        let spoiled = number >= whole && row == rows - 1;
        Head { mirror: 7, reading: [0, 1, 2, 3, 32768, 32769, 32770, 32771][number], row: if spoiled { 0 } else { row as u16 } }
    };
    packed(&(0..count).map(|k| [head(k).bytes(), vec![0xDD; 56]].concat()).collect::<Vec<_>>())
}

/// All readings of one row, by the archive's own import.
fn all_readings(pages: usize) -> Result<Vec<u8>, String> {
    let heads: Vec<Vec<u8>> = (0..=u16::MAX).map(|reading| Head { mirror: 7, reading, row: 0 }.bytes()).collect();
    let file = model::exchange::file_of(&heads.iter().map(Vec::as_slice).collect::<Vec<_>>());
    let (mut segment, mut inventory) = (vec![0; pages * PAGE_SIZE], vec![0; PAGE_SIZE]);
    SlottedPageSegment::new(&mut segment, &mut inventory).import(&file).map_err(|stopped| stopped.to_string())?;
    Ok(segment)
}

impl Case {
    fn of(word: &str) -> Result<Case, String> {
        let (name, pages) = word.split_once('-').ok_or(USAGE)?;
        let pages: usize = pages.parse().map_err(|_| USAGE)?;
        let rows = 4 * pages;
        let segment = match name {
            "yes1" | "yes2" | "list" | "scan" => eight(pages, rows, 8),
            "no2" => eight(pages, rows, 4),
            "one" => eight(pages, rows, 1),
            "worst" => all_readings(pages)?,
            _ => return Err(USAGE.to_string()),
        };
        let rows = if name == "worst" { 2 } else { rows as u64 };
        Ok(Case { name: name.to_string(), segment, asked: Asked { mirror: 7, rows, edition: if name == "yes1" { 1 } else { 2 } } })
    }

    fn pages(&self) -> SlottedPages<'_> {
        SlottedPages::new(black_box(&self.segment))
    }

    #[inline(never)]
    fn cleared(&self) -> Option<bool> {
        self.pages().cleared(7, self.asked.rows, self.asked.edition).ok()
    }

    #[inline(never)]
    fn whole_readings(&self) -> Option<usize> {
        self.pages().whole_readings(7, self.asked.rows).ok().map(|whole| whole.len())
    }

    fn records(&self) -> Result<u64, String> {
        scan(&self.segment).map(|(records, _)| records).ok_or("a scan is refused".to_string())
    }

    fn check(&self) -> Result<(), String> {
        let (answer, cleared) = PlainRule.cleared(&self.segment, self.asked);
        let wanted = matches!(self.name.as_str(), "yes1" | "yes2" | "list" | "scan");
        if (answer, cleared == 1) != (0, wanted) || self.cleared() != Some(wanted) {
            return Err(format!("{:?}, and the judge's {answer}, {cleared}", self.cleared()));
        }
        let mut words = [0; 1024];
        PlainRule.whole_readings(&self.segment, self.asked, &mut words);
        let whole = words.iter().map(|word| word.count_ones() as usize).sum();
        let wanted = match self.name.as_str() {
            "no2" => 4,
            "one" => 1,
            "worst" => 0,
            _ => 8,
        };
        if whole != wanted || self.whole_readings() != Some(whole) {
            return Err(format!("{:?} whole readings, and the judge's {whole}", self.whole_readings()));
        }
        let full = A_PAGE * self.segment.len() / PAGE_SIZE;
        let records = self.records()?;
        if records != if self.name == "worst" { 65536 } else { full as u64 } {
            return Err(format!("{records} records"));
        }
        Ok(())
    }

    fn count(&self, units: usize) {
        for _ in 0..units {
            match self.name.as_str() {
                "scan" => _ = black_box(scan(black_box(&self.segment))),
                "list" => _ = black_box(self.whole_readings()),
                _ => _ = black_box(self.cleared()),
            }
        }
    }
}

fn run(words: &[&str]) -> Result<(), String> {
    match *words {
        ["check", case] => Case::of(case)?.check()?,
        ["records", case] => println!("{}", Case::of(case)?.records()?),
        ["count", case, units] => Case::of(case)?.count(units.parse().map_err(|_| USAGE)?),
        _ => return Err(USAGE.to_string()),
    }
    Ok(())
}

fn main() -> ExitCode {
    let words: Vec<String> = std::env::args().skip(1).collect();
    let words: Vec<&str> = words.iter().map(String::as_str).collect();
    run(&words).map_or_else(|why| { eprintln!("polishing {}: {why}", words.join(" ")); ExitCode::FAILURE }, |()| ExitCode::SUCCESS)
}
