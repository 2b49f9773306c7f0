//! The Rust's writer by either measure of a found path: unchanged, and with one change, the
//! documentation's prefix lengths in `serialized_length` (the crate `documented`).

use clvm_rs::{Allocator, NodePtr};

/// How a found path is measured.
#[derive(Debug, Default, Clone, Copy, PartialEq, Eq)]
pub enum Measure {
    /// By the Rust's ranges, with prefix 3 from 512 bytes on.
    #[default]
    Counted,
    /// By the documentation's, with prefix 3 from 8,192 bytes on.
    Documented,
}

/// What the rig asks of a `TreeCache`.
pub trait Cache {
    type Checkpoint;
    fn new(sentinel: Option<NodePtr>) -> Self;
    fn update(&mut self, a: &Allocator, root: NodePtr);
    fn find_path(&mut self, node: NodePtr) -> Option<Vec<u8>>;
    fn push(&mut self, node: NodePtr);
    fn pop2_and_cons(&mut self, node: NodePtr);
    fn undo_state(&self) -> Self::Checkpoint;
    fn restore(&mut self, state: Self::Checkpoint);
}

/// What it asks of a `Serializer`.
pub trait Writer {
    type Cache: Cache;
    type Undo;
    fn new(sentinel: Option<NodePtr>) -> Self;
    /// Whether the session is finished, and what brings back the state before.
    fn add(&mut self, a: &Allocator, node: NodePtr) -> (bool, Self::Undo);
    fn restore(&mut self, state: Self::Undo);
    /// What is written; `size` says the same length.
    fn written(&self) -> &[u8];
}

macro_rules! writer {
    ($rust:ident) => {
        impl Cache for $rust::serde::TreeCache {
            type Checkpoint = $rust::serde::TreeCacheCheckpoint;

            fn new(sentinel: Option<NodePtr>) -> Self {
                Self::new(sentinel)
            }

            fn update(&mut self, a: &Allocator, root: NodePtr) {
                self.update(a, root);
            }

            fn find_path(&mut self, node: NodePtr) -> Option<Vec<u8>> {
                self.find_path(node)
            }

            fn push(&mut self, node: NodePtr) {
                self.push(node);
            }

            fn pop2_and_cons(&mut self, node: NodePtr) {
                self.pop2_and_cons(node);
            }

            fn undo_state(&self) -> Self::Checkpoint {
                self.undo_state()
            }

            fn restore(&mut self, state: Self::Checkpoint) {
                self.restore(state);
            }
        }

        impl Writer for $rust::serde::Serializer {
            type Cache = $rust::serde::TreeCache;
            type Undo = $rust::serde::UndoState;

            fn new(sentinel: Option<NodePtr>) -> Self {
                Self::new(sentinel)
            }

            fn add(&mut self, a: &Allocator, node: NodePtr) -> (bool, Self::Undo) {
                self.add(a, node).expect("Serializer::add")
            }

            fn restore(&mut self, state: Self::Undo) {
                self.restore(state);
            }

            fn written(&self) -> &[u8] {
                assert_eq!(self.size(), self.get_ref().len() as u64, "size differs");
                self.get_ref()
            }
        }
    };
}
writer!(clvm_rs);
writer!(documented);
