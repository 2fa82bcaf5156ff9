//! The published Rust with the patches of this package applied, over lent pages.
#![allow(warnings)]

include!("../../standins/tree.rs");
