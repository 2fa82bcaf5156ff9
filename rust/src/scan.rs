//! The scan.

use crate::segment::{part, Bytes};
use crate::{archive, Refusal, Rid};
use std::fmt;
use std::iter::FusedIterator;

/// All records of a segment with their ids, by page and slot. A record that was forwarded comes
/// where it lies now, with the id that it has always had.
///
/// Each page is checked when the scan reaches it. A damaged page, or a segment of a wrong size, is
/// given as the last item.
#[derive(Clone)]
pub struct SlottedPageScan<'a> {
    segment: &'a [u8],
    position: u64,
}

impl<'a> SlottedPageScan<'a> {
    pub(crate) fn new(segment: &'a [u8]) -> SlottedPageScan<'a> {
        SlottedPageScan { segment, position: 0 }
    }
}

impl<'a> Iterator for SlottedPageScan<'a> {
    type Item = Result<(Rid, &'a [u8]), Refusal>;

    fn next(&mut self) -> Option<Self::Item> {
        let step = archive::scan_step(self.segment, &mut self.position);
        match Refusal::of_answer(step.answer) {
            Err(refusal) => Some(Err(refusal)),
            Ok(()) if step.found == 0 => None,
            Ok(()) => Some(Ok((Rid::from(step.id), part(self.segment, step.place)))),
        }
    }
}

/// A scan that is over stays over.
impl FusedIterator for SlottedPageScan<'_> {}

/// How many bytes are lent, and the position that the next step starts from.
impl fmt::Debug for SlottedPageScan<'_> {
    fn fmt(&self, out: &mut fmt::Formatter<'_>) -> fmt::Result {
        out.debug_struct("SlottedPageScan")
            .field("segment", &Bytes(self.segment))
            .field("position", &Rid::from(self.position))
            .finish()
    }
}
