//! Handles.

use std::fmt;

const INDEX_BITS: u32 = 26;
const MASK: u32 = (1 << INDEX_BITS) - 1;

/// What a handle stands for.
#[derive(Clone, Copy, Debug, PartialEq, Eq, Hash)]
pub enum Kind {
    /// A pair, by its index.
    Pair,
    /// A listed atom, by its index.
    ListedAtom,
    /// A small atom, by its value.
    SmallAtom,
}

/// A node's handle: a kind in bits 26 up and an index or a small value below. That of a pair or a listed atom means something
/// only together with the session that gave it, or the store that it was read from.
///
/// ```
/// use nikvoldra::{Kind, NodePtr, Session};
///
/// let mut session = Session::new();
/// let five = session.atom(&[5])?;
/// assert_eq!((five.kind(), five.index(), five.handle()), (Kind::SmallAtom, 5, 0x0800_0005));
/// assert_eq!(session.atom(b"")?, NodePtr::NIL);
/// assert_eq!(session.atom(b"foobar")?.kind(), Kind::ListedAtom);
/// assert_eq!(session.pair(five, five)?.kind(), Kind::Pair);
/// # Ok::<(), nikvoldra::BuildError>(())
/// ```
#[derive(Clone, Copy, PartialEq, Eq, Hash, PartialOrd, Ord)]
pub struct NodePtr(u32);

impl NodePtr {
    /// The empty atom, which is the small atom 0.
    pub const NIL: NodePtr = NodePtr(2 << INDEX_BITS);

    /// The small atom of a number below 2^26. It means the same in every session and store.
    ///
    /// ```
    /// use nikvoldra::NodePtr;
    ///
    /// assert_eq!(NodePtr::small(0), Some(NodePtr::NIL));
    /// assert_eq!(NodePtr::small(1 << 26), None);
    /// ```
    pub fn small(value: u32) -> Option<NodePtr> {
        (value <= MASK).then(|| NodePtr::new(Kind::SmallAtom, value as usize))
    }

    pub(crate) fn new(kind: Kind, index: usize) -> NodePtr {
        let bits = match kind {
            Kind::Pair => 0,
            Kind::ListedAtom => 1,
            Kind::SmallAtom => 2,
        };
        NodePtr(bits << INDEX_BITS | index as u32 & MASK)
    }

    pub(crate) fn from_handle(handle: u32) -> NodePtr {
        NodePtr(handle)
    }

    /// What it stands for.
    pub fn kind(self) -> Kind {
        match self.0 >> INDEX_BITS {
            0 => Kind::Pair,
            1 => Kind::ListedAtom,
            _ => Kind::SmallAtom,
        }
    }

    /// The index of a pair or a listed atom, or the value of a small atom.
    pub fn index(self) -> usize {
        (self.0 & MASK) as usize
    }

    /// The 32 bits.
    pub fn handle(self) -> u32 {
        self.0
    }
}

impl fmt::Debug for NodePtr {
    fn fmt(&self, f: &mut fmt::Formatter<'_>) -> fmt::Result {
        write!(f, "{:?}({})", self.kind(), self.index())
    }
}

/// A small atom's bytes: its value in as few as that takes with the top bit clear, the highest first.
pub(crate) fn small_bytes(value: u32) -> ([u8; 4], usize) {
    let mut length = 0;
    while length < 4 && u64::from(value) >= 1 << (8 * length) >> 1 && value != 0 {
        length += 1;
    }
    let mut bytes = [0; 4];
    bytes[..length].copy_from_slice(&value.to_be_bytes()[4 - length..]);
    (bytes, length)
}

/// The value of an atom that fits in a small one.
pub(crate) fn small_value(atom: &[u8]) -> Option<u32> {
    if atom.len() > 4 {
        return None;
    }
    let value = atom.iter().fold(0u32, |n, byte| n << 8 | u32::from(*byte));
    let (bytes, length) = small_bytes(value & MASK);
    (value <= MASK && bytes[..length] == *atom).then_some(value)
}

#[cfg(test)]
mod tests {
    use super::*;

    #[test]
    fn small_atoms_are_shortest_and_positive() {
        let cases: [(u32, &[u8]); 10] = [
            (0, b""),
            (1, &[1]),
            (0x7f, &[0x7f]),
            (0x80, &[0, 0x80]),
            (0x7fff, &[0x7f, 0xff]),
            (0x8000, &[0, 0x80, 0]),
            (0x7f_ffff, &[0x7f, 0xff, 0xff]),
            (0x80_0000, &[0, 0x80, 0, 0]),
            (0x100_0000, &[1, 0, 0, 0]),
            (0x3ff_ffff, &[3, 0xff, 0xff, 0xff]),
        ];
        for (value, atom) in cases {
            let (bytes, length) = small_bytes(value);
            assert_eq!(&bytes[..length], atom, "{value}");
            assert_eq!(small_value(atom), Some(value));
        }
        let turned_down: [&[u8]; 7] = [
            &[0],
            &[0, 1],
            &[0x80],
            &[0xff],
            &[4, 0, 0, 0],
            &[0, 0, 0, 0, 1],
            b"foobar",
        ];
        for atom in turned_down {
            assert_eq!(small_value(atom), None, "{atom:?}");
        }
    }
}
