//! The Rust to compare with: its files compiled unchanged by path (`build.rs`
//! finds them). The files beside this one (`cost`, `number`, `reduction`,
//! `serde`) stand in for module files that aren't in the folder.
#![allow(dead_code, clippy::all)]

include!(concat!(env!("OUT_DIR"), "/root.rs"));
pub mod cost;
pub mod number;
pub mod reduction;
pub mod serde;

pub use allocator::{Allocator, NodePtr, ObjectType, SExp};

/// `traverse_path::msb_mask` is `pub(crate)`; this hands it on.
pub fn msb_mask(byte: u8) -> u8 {
    traverse_path::msb_mask(byte)
}
