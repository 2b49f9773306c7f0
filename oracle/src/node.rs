//! Handles as 32-bit words.

use clvm_rs::{NodePtr, ObjectType};

pub const INDEX_BITS: u32 = 26;
pub const INDEX_MASK: u32 = (1 << INDEX_BITS) - 1;
pub const PAIR: u32 = 0;
pub const ATOM: u32 = 1;
pub const SMALL: u32 = 2;
/// The sentinel field's word for "none".
pub const NONE: u32 = 0xffff_ffff;
pub const NIL: u32 = SMALL << INDEX_BITS;

pub const fn handle(kind: u32, index: u32) -> u32 {
    kind << INDEX_BITS | index
}

pub fn kind(h: u32) -> u32 {
    h >> INDEX_BITS
}

pub fn index(h: u32) -> usize {
    (h & INDEX_MASK) as usize
}

pub fn to_word(n: NodePtr) -> u32 {
    let kind = match n.object_type() {
        ObjectType::Pair => PAIR,
        ObjectType::Bytes => ATOM,
        ObjectType::SmallAtom => SMALL,
    };
    handle(kind, n.index())
}

pub fn from_word(h: u32) -> NodePtr {
    assert!(kind(h) <= SMALL);
    // NodePtr is a struct of one u32, whose field is private
    let n = unsafe { std::mem::transmute::<u32, NodePtr>(h) };
    debug_assert_eq!(to_word(n), h);
    n
}
