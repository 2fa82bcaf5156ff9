//! Where many rows in one call, or the records of a file, came to a stop.

use crate::Refusal;
use std::error::Error;
use std::fmt;

/// Where [`SlottedPageSegment::insert_records`](crate::SlottedPageSegment::insert_records) or
/// [`SlottedPageSegment::import`](crate::SlottedPageSegment::import) came to a stop, and why. The rows before, or the file's
/// records before, are stored and stay; nothing else has changed.
#[derive(Debug, Clone, Copy, PartialEq, Eq, Hash)]
pub struct Stopped {
    /// How many rows went in; where a row was refused, also its place in the list or in the file.
    pub rows: usize,
    /// Why that row was refused; or the whole list, by [`Refusal::Size`] or [`Refusal::List`], or the whole file, by
    /// [`Refusal::Size`], [`Refusal::Short`], [`Refusal::Mark`] or [`Refusal::Long`], and then no row went in.
    pub refusal: Refusal,
}

impl Stopped {
    /// What answer and rows told mean.
    pub(crate) fn of_answer((number, rows): (u64, u64)) -> Result<u64, Stopped> {
        Refusal::of_answer(number).map(|()| rows).map_err(|refusal| Stopped { rows: rows as usize, refusal })
    }
}

/// How far it came, and the refusal: `2 rows went in, the next was refused: 7 FULL: no page has room`.
impl fmt::Display for Stopped {
    fn fmt(&self, out: &mut fmt::Formatter<'_>) -> fmt::Result {
        match (self.rows, self.refusal) {
            (_, Refusal::Size | Refusal::List | Refusal::Short | Refusal::Mark) => write!(out, "no row went in")?,
            // of a list the first row, of a file any record
            (0, Refusal::Long) => write!(out, "no row went in")?,
            (0, _) => write!(out, "no row went in, the first was refused")?,
            (1, _) => write!(out, "1 row went in, the next was refused")?,
            (rows, _) => write!(out, "{rows} rows went in, the next was refused")?,
        }
        write!(out, ": {}", self.refusal)
    }
}

impl Error for Stopped {}
