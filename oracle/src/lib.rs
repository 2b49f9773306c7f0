//! The oracle as a library: the unchanged Rust, driven by session files and
//! encoded trees, with a generator of both. A differential program links this
//! and calls `session::run`, `reading::read` and `generate::{session, tree}`.

pub mod corners;
pub mod counts;
pub mod generate;
pub mod hex;
pub mod leaves;
pub mod model;
pub mod node;
pub mod plain;
pub mod reading;
pub mod rng;
pub mod selfcheck;
pub mod session;
pub mod writer;
