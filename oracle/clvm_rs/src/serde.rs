//! Module file in the manner of the original: private modules and re-exports.

include!(concat!(env!("OUT_DIR"), "/serde.rs"));

pub use bitset::BitSet;
pub use de_br::{
    node_from_bytes_backrefs, node_from_bytes_backrefs_old, node_from_stream_backrefs,
    traverse_path_with_vec,
};
pub use identity_hash::RandomState;
pub use incremental::{Serializer, UndoState};
pub use path_builder::{ChildPos, PathBuilder};
pub use serialized_length::{
    atom_length_bits, serialized_length_atom, serialized_length_small_number,
};
pub use tree_cache::{TreeCache, TreeCacheCheckpoint};
