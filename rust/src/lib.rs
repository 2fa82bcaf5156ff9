//! A slotted-page record store, proved: safe Rust over the archive `libhekatosuy.a`.
//!
//! The store keeps records of bytes in pages that the caller lends, hands out an id for each, and
//! gives a record back by its id or in a scan. Its code is proved to do what its definition says,
//! for all bytes that can be lent to it, damaged pages among them; every call ends with an answer,
//! and a refused call changes nothing, or nothing beyond the rows that it tells. This crate adds
//! types to the archive's C functions and nothing else.
//!
//! ```
//! use hekatosuy::{Refusal, SlottedPageSegment, PAGE_SIZE};
//!
//! // Four empty pages, and the inventory that knows where there is room in them.
//! let mut pages = vec![0; 4 * PAGE_SIZE];
//! let mut inventory = vec![0; PAGE_SIZE];
//! let mut segment = SlottedPageSegment::new(&mut pages, &mut inventory);
//!
//! let first = segment.insert_record(b"mirror 7, row 1")?;
//! let second = segment.insert_record(b"mirror 7, row 2")?;
//! assert_eq!(segment.get_record(first)?, b"mirror 7, row 1");
//!
//! // A record keeps its id, whatever is written to it.
//! segment.write_record(first, b"mirror 7, row 1, measured again")?;
//! assert_eq!(segment.get_record(first)?, b"mirror 7, row 1, measured again");
//!
//! segment.erase_record(second)?;
//! assert_eq!(segment.get_record(second), Err(Refusal::None));
//!
//! let rows: Vec<_> = segment.scan().collect::<Result<_, _>>()?;
//! assert_eq!(rows, [(first, &b"mirror 7, row 1, measured again"[..])]);
//! # Ok::<(), Refusal>(())
//! ```
//!
//! Many rows, a whole map say, go in by one call, [`SlottedPageSegment::insert_records`]: it leaves the
//! ids and bytes that one call a row would, and does not check a page anew for each row.
//!
//! A store grows by being lent with more pages of zeros at its end and the same inventory;
//! `examples/store_in_file.rs` keeps one in a file.
//!
//! [`SlottedPages::fill_report`] tells how full a store is: pages, records, free bytes and more, in exact
//! figures that are summed up over any number of segments in one [`Tally`]; `examples/fill_report.rs`
//! prints them for stores in files.
//!
//! Readings are passed by file: [`SlottedPages::export`] writes those of a segment as an exchange file, and
//! [`SlottedPageSegment::import`] stores the records of one; `examples/export.rs` and `examples/import.rs`
//! do so for stores in files.
//!
//! [`SlottedPages::cleared`] tells whether a mirror is cleared for polishing by its readings, after edition 1
//! or 2 of the rule sheet, and [`SlottedPages::whole_readings`] why; `examples/cleared.rs` asks it of stores
//! in files.
//!
//! After a crash, [`SlottedPageSegment::repair`] makes a store sound again, keeps what can be kept and
//! tells what it touched; `examples/repair.rs` does so to a store in a file.
//!
//! # For callers of the published Rust
//!
//! The calls have the names that they have in OxidSQL, from which the store was carried over, with
//! these differences.
//!
//! | OxidSQL | here |
//! |-|-|
//! | `SlottedPageSegment::new(buffer_manager, ..)` | [`SlottedPageSegment::new`] over lent pages and an inventory page |
//! | `RelationTID` | [`Rid`], with the same conversions from and to `u64` |
//! | errors of the buffer manager, panics, `Ok(None)` | [`Refusal`] |
//! | `get_record(tid, operation)` | [`SlottedPageSegment::get_record`] gives the record, borrowed |
//! | `scan(transformation)` | [`SlottedPageSegment::scan`] gives the records, borrowed: use `filter_map` |
//! | locks | the borrow checker: a call that changes anything takes `&mut self` |
//!
//! OxidSQL has no call for many rows: [`SlottedPageSegment::insert_records`] stands for a loop over
//! `insert_record` that ends at the first error.
//!
//! # Linking
//!
//! The archive is x86-64 code. The repository's `./archive` writes it to `target/staticlib`
//! there, where this crate's build looks for it; `HEKATOSUY_LIB_DIR` names another folder.
//! A call needs no memory but the stack.

#![deny(unsafe_code)]
#![warn(missing_docs)]

#[allow(unsafe_code)]
mod archive;
mod exported;
mod refusal;
mod rid;
mod scan;
mod segment;
mod stopped;
mod tally;
mod touched;

pub use exported::Exported;
pub use refusal::Refusal;
pub use rid::Rid;
pub use scan::SlottedPageScan;
pub use segment::{SlottedPageSegment, SlottedPages};
pub use stopped::Stopped;
pub use tally::Tally;
pub use touched::{At, Change, RepairRefusal, Touched};

/// The bytes of a page, and of the inventory.
pub const PAGE_SIZE: usize = 16384;

/// The most pages of a segment.
pub const MAX_PAGES: usize = 32527;

/// The longest record, in bytes.
pub const MAX_RECORD_SIZE: usize = 16364;
