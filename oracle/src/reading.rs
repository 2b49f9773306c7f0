//! The reading call's answer, from the unchanged `node_from_bytes_backrefs`.

use crate::node::{ATOM, PAIR, from_word, handle, to_word};
use clvm_rs::error::EvalErr;
use clvm_rs::serde::node_from_bytes_backrefs;
use clvm_rs::{Allocator, SExp};
use std::fmt::Write;

pub const MAX_INPUT: usize = 65_535;

/// What question 2 and 14 to 16 leave: all empty and zero when refused.
#[derive(Debug, Default, Clone, PartialEq, Eq)]
pub struct ReadAnswer {
    pub number: u32,
    pub root: u32,
    pub pairs: Vec<(u32, u32)>,
    /// start and end in `bytes`
    pub atoms: Vec<(u32, u32)>,
    pub bytes: Vec<u8>,
    pub ghosts: u32,
}

impl ReadAnswer {
    pub fn refused(number: u32) -> Self {
        Self {
            number,
            ..Self::default()
        }
    }
}

/// The number of an error of the reader. Others are never met: an input of at
/// most 65,535 bytes stays far below the allocator's limits.
pub fn number_of(e: &EvalErr) -> u32 {
    match e {
        EvalErr::SerializationError => 14,
        EvalErr::NonCanonicalSerialization => 15,
        EvalErr::SerializationBackreferenceError => 16,
        // node_from_bytes_backrefs_old walks with traverse_path
        EvalErr::PathIntoAtom => 16,
        other => panic!("the reader gave {other:?}"),
    }
}

/// The store's contents.
pub fn answer(a: &Allocator, root: u32) -> ReadAnswer {
    let pairs = (0..a.allocated_pair_count() as u32)
        .map(|i| match a.sexp(from_word(handle(PAIR, i))) {
            SExp::Pair(left, right) => (to_word(left), to_word(right)),
            SExp::Atom => panic!("a pair handle names an atom"),
        })
        .collect();
    // new_atom appends, so each atom starts where the one before it ends
    let mut atoms = Vec::with_capacity(a.allocated_atom_count());
    let mut bytes = Vec::with_capacity(a.allocated_heap_size());
    for i in 0..a.allocated_atom_count() as u32 {
        let start = bytes.len() as u32;
        bytes.extend_from_slice(&a.atom(from_word(handle(ATOM, i))));
        atoms.push((start, bytes.len() as u32));
    }
    assert_eq!(bytes.len(), a.allocated_heap_size());
    ReadAnswer {
        number: 0,
        root,
        pairs,
        atoms,
        bytes,
        ghosts: (a.pair_count() - a.allocated_pair_count()) as u32,
    }
}

pub fn read(input: &[u8]) -> ReadAnswer {
    if input.len() > MAX_INPUT {
        return ReadAnswer::refused(2);
    }
    let mut a = Allocator::new();
    match node_from_bytes_backrefs(&mut a, input) {
        Ok(root) => answer(&a, to_word(root)),
        Err(e) => ReadAnswer::refused(number_of(&e)),
    }
}

/// The text that `read FILE` prints.
pub fn print(r: &ReadAnswer) -> String {
    let mut s = String::new();
    let _ = writeln!(
        s,
        "{} {:08x} {} {} {} {}",
        r.number,
        r.root,
        r.pairs.len(),
        r.atoms.len(),
        r.bytes.len(),
        r.ghosts
    );
    for (left, right) in &r.pairs {
        let _ = writeln!(s, "pair {left:08x} {right:08x}");
    }
    for (start, end) in &r.atoms {
        let _ = writeln!(s, "atom {start} {end}");
    }
    s += &crate::hex::encode(&r.bytes);
    s.push('\n');
    s
}
