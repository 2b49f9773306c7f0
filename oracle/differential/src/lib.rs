//! The port's outside calls beside the unchanged Rust: comparisons and
//! benchmarks. The calls are those of the crate `nikvoldra`.

#![forbid(unsafe_code)]

pub mod benchmark;
pub mod cache_benchmark;
pub mod compare;
pub mod count_benchmark;
pub mod inputs;
pub mod lent;
pub mod measure_benchmark;
pub mod numbers;
pub mod one_atom;
pub mod quote_benchmark;
pub mod session_benchmark;
pub mod session_compare;
pub mod session_inputs;
#[cfg(test)]
mod session_stand_in;
pub mod sets;
pub mod share;
#[cfg(test)]
mod stand_in;
pub mod times;
pub mod trial;
pub mod undo_benchmark;
