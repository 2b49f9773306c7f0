//! The Rust's writer with one change (`build.rs`): `serialized_length` has the documentation's prefix lengths.
#![allow(dead_code, clippy::all)]

pub use clvm_rs::{allocator, error};

pub mod serde {
    include!(concat!(env!("OUT_DIR"), "/serde.rs"));

    pub use clvm_rs::serde::{BitSet, RandomState, serialized_length_atom, write_atom};
    pub use incremental::{Serializer, UndoState};
    pub use path_builder::{ChildPos, PathBuilder};
    pub use tree_cache::{TreeCache, TreeCacheCheckpoint};
}
