//! The reading call with slices of its own, and the tree that it reads.

use crate::call;
use crate::node::{small_bytes, Kind, NodePtr};
use crate::refusal::Refusal;
use std::collections::HashMap;
use std::fmt;
use std::ops::Deref;

/// What was read: a root, and the pairs and atoms that it is made of. A reference leads to a node that is there already, so a
/// subtree can be reached in many ways, and a tree followed at every place can be much larger than its store.
#[derive(Clone, PartialEq, Eq)]
pub struct Store {
    root: NodePtr,
    pairs: Vec<u32>,
    atoms: Vec<u32>,
    bytes: Vec<u8>,
    ghosts: usize,
}

impl Store {
    /// The tree at the root.
    pub fn tree(&self) -> Tree<'_> {
        Tree {
            store: self,
            node: self.root,
        }
    }

    /// How many pairs there are.
    pub fn pair_count(&self) -> usize {
        self.pairs.len() / 2
    }

    /// How many listed atoms there are.
    pub fn atom_count(&self) -> usize {
        self.atoms.len() / 2
    }

    /// How many bytes the listed atoms have together.
    pub fn byte_count(&self) -> usize {
        self.bytes.len()
    }

    /// How many ghost pairs there are: pairs of stack lists that the Rust counts and does not make.
    pub fn ghost_count(&self) -> usize {
        self.ghosts
    }
}

impl fmt::Debug for Store {
    fn fmt(&self, f: &mut fmt::Formatter<'_>) -> fmt::Result {
        f.debug_struct("Store")
            .field("root", &self.root)
            .field("pairs", &self.pair_count())
            .field("atoms", &self.atom_count())
            .field("bytes", &self.byte_count())
            .field("ghosts", &self.ghosts)
            .finish()
    }
}

/// A place in a tree that was read.
///
/// Two are equal when shape and every atom's bytes are, also across stores. That takes time in the pairs of the stores, and
/// not in the size of the trees.
///
/// ```
/// use nikvoldra::{read, Node, Tree};
///
/// /// The leaves of a tree. (Recursion: a tree can be 65,000 pairs deep and have very many leaves.)
/// fn leaves(tree: Tree) -> usize {
///     match tree.node() {
///         Node::Pair(left, right) => leaves(left) + leaves(right),
///         Node::Atom(_) => 1,
///     }
/// }
///
/// let store = read(b"\xff\x83abc\xfe\x02")?; // (abc . abc), with a reference
/// let plain = read(b"\xff\x83abc\x83abc")?;
/// assert_eq!(leaves(store.tree()), 2);
/// assert!(store.tree() == plain.tree());
/// # Ok::<(), nikvoldra::Refusal>(())
/// ```
#[derive(Clone, Copy)]
pub struct Tree<'a> {
    store: &'a Store,
    node: NodePtr,
}

/// What stands at a place.
#[derive(Clone, Copy, Debug)]
pub enum Node<'a> {
    /// A pair: its left and its right side.
    Pair(Tree<'a>, Tree<'a>),
    /// An atom, listed or small.
    Atom(Atom<'a>),
}

impl<'a> Tree<'a> {
    /// What stands here.
    pub fn node(self) -> Node<'a> {
        let i = 2 * self.node.index();
        match self.node.kind() {
            Kind::Pair => {
                let side = |handle| Tree {
                    store: self.store,
                    node: NodePtr::from_handle(handle),
                };
                Node::Pair(side(self.store.pairs[i]), side(self.store.pairs[i + 1]))
            }
            Kind::ListedAtom => {
                let (start, end) = (self.store.atoms[i], self.store.atoms[i + 1]);
                Node::Atom(Atom::Listed(
                    &self.store.bytes[start as usize..end as usize],
                ))
            }
            Kind::SmallAtom => Node::Atom(Atom::Small(SmallAtom::new(self.node.index() as u32))),
        }
    }

    /// The two sides, if this is a pair.
    pub fn pair(self) -> Option<(Tree<'a>, Tree<'a>)> {
        match self.node() {
            Node::Pair(left, right) => Some((left, right)),
            Node::Atom(_) => None,
        }
    }

    /// The atom, if this is one.
    pub fn atom(self) -> Option<Atom<'a>> {
        match self.node() {
            Node::Pair(..) => None,
            Node::Atom(atom) => Some(atom),
        }
    }

    /// The handle in the store.
    pub fn handle(self) -> NodePtr {
        self.node
    }
}

impl fmt::Debug for Tree<'_> {
    fn fmt(&self, f: &mut fmt::Formatter<'_>) -> fmt::Result {
        match self.node() {
            Node::Pair(..) => write!(f, "Tree({:?})", self.node),
            Node::Atom(atom) => write!(f, "Tree({atom:?})"),
        }
    }
}

/// Numbers for subtrees: equal ones get the same.
#[derive(Default)]
struct Numbers<'a> {
    atoms: HashMap<Atom<'a>, usize>,
    pairs: HashMap<(usize, usize), usize>,
    count: usize,
}

impl<'a> Numbers<'a> {
    fn of_atom(&mut self, atom: Atom<'a>) -> usize {
        let next = self.count;
        let number = *self.atoms.entry(atom).or_insert(next);
        self.count += usize::from(number == next);
        number
    }

    fn of_pair(&mut self, sides: (usize, usize)) -> usize {
        let next = self.count;
        let number = *self.pairs.entry(sides).or_insert(next);
        self.count += usize::from(number == next);
        number
    }

    /// Each pair is numbered once, after its sides.
    fn of_tree(&mut self, tree: Tree<'a>) -> usize {
        let mut known: HashMap<NodePtr, usize> = HashMap::new();
        let mut todo = vec![tree];
        while let Some(top) = todo.pop() {
            if known.contains_key(&top.node) {
                continue;
            }
            let number = match top.node() {
                Node::Atom(atom) => self.of_atom(atom),
                Node::Pair(left, right) => match (known.get(&left.node), known.get(&right.node)) {
                    (Some(left), Some(right)) => self.of_pair((*left, *right)),
                    _ => {
                        todo.extend([top, left, right]);
                        continue;
                    }
                },
            };
            known.insert(top.node, number);
        }
        known[&tree.node]
    }
}

impl PartialEq for Tree<'_> {
    fn eq(&self, other: &Self) -> bool {
        let mut numbers = Numbers::default();
        numbers.of_tree(*self) == numbers.of_tree(*other)
    }
}

impl Eq for Tree<'_> {}

/// An atom's bytes, as [`Atom::as_ref`] or `*atom`: a part of the store, or made from a small atom's value.
#[derive(Clone, Copy)]
pub enum Atom<'a> {
    /// A listed atom: a part of the store's bytes.
    Listed(&'a [u8]),
    /// A small atom, which stands in its handle.
    Small(SmallAtom),
}

/// A small atom: a number below 2^26, whose bytes are as few as it takes with the top bit clear. 0 has none.
///
/// ```
/// use nikvoldra::{read, Atom};
///
/// let store = read(b"\x82\x00\x80")?;
/// let Some(Atom::Small(atom)) = store.tree().atom() else {
///     panic!("128 is a small atom");
/// };
/// assert_eq!(atom.value(), 128);
/// assert_eq!(atom.as_ref(), [0x00, 0x80]);
/// # Ok::<(), nikvoldra::Refusal>(())
/// ```
#[derive(Clone, Copy, PartialEq, Eq)]
pub struct SmallAtom {
    value: u32,
    bytes: [u8; 4],
    length: usize,
}

impl SmallAtom {
    fn new(value: u32) -> SmallAtom {
        let (bytes, length) = small_bytes(value);
        SmallAtom {
            value,
            bytes,
            length,
        }
    }

    /// The number.
    pub fn value(self) -> u32 {
        self.value
    }
}

impl AsRef<[u8]> for SmallAtom {
    fn as_ref(&self) -> &[u8] {
        &self.bytes[..self.length]
    }
}

impl fmt::Debug for SmallAtom {
    fn fmt(&self, f: &mut fmt::Formatter<'_>) -> fmt::Result {
        write!(f, "SmallAtom({})", self.value)
    }
}

impl AsRef<[u8]> for Atom<'_> {
    fn as_ref(&self) -> &[u8] {
        match self {
            Atom::Listed(bytes) => bytes,
            Atom::Small(atom) => atom.as_ref(),
        }
    }
}

impl Deref for Atom<'_> {
    type Target = [u8];

    fn deref(&self) -> &[u8] {
        self.as_ref()
    }
}

impl PartialEq for Atom<'_> {
    fn eq(&self, other: &Self) -> bool {
        self.as_ref() == other.as_ref()
    }
}

impl Eq for Atom<'_> {}

impl std::hash::Hash for Atom<'_> {
    fn hash<H: std::hash::Hasher>(&self, state: &mut H) {
        self.as_ref().hash(state);
    }
}

impl fmt::Debug for Atom<'_> {
    fn fmt(&self, f: &mut fmt::Formatter<'_>) -> fmt::Result {
        let name = match self {
            Atom::Listed(_) => "Listed",
            Atom::Small(_) => "Small",
        };
        write!(f, "{name}(\"{}\")", self.escape_ascii())
    }
}

/// Reads serialized trees with slices that it keeps from call to call.
///
/// ```
/// use nikvoldra::{Reader, Refusal};
///
/// let mut reader = Reader::new();
/// let first = reader.read(b"\xff\x01\xfe\x01")?; // (1 . (1 . nil)): the whole stack as a list
/// assert_eq!(reader.read(b"\xfe\x02").unwrap_err(), Refusal::PathIntoAtom);
/// assert!(first.tree() == reader.read(b"\xff\x01\xff\x01\x80")?.tree());
/// # Ok::<(), Refusal>(())
/// ```
pub struct Reader {
    work: Vec<u32>,
    pairs: Vec<u32>,
    atoms: Vec<u32>,
    bytes: Vec<u8>,
}

impl Reader {
    /// A reader with slices of the least lengths that are taken.
    pub fn new() -> Reader {
        Reader {
            work: vec![0; call::WORK_LENGTH],
            pairs: vec![0; call::PAIRS_LENGTH],
            atoms: vec![0; call::ATOMS_LENGTH],
            bytes: vec![0; call::BYTES_LENGTH],
        }
    }

    /// Reads a tree. It can be refused by the questions 2 and 14 to 16.
    pub fn read(&mut self, input: &[u8]) -> Result<Store, Refusal> {
        let answer = call::read(
            input,
            &mut self.work,
            &mut self.pairs,
            &mut self.atoms,
            &mut self.bytes,
        );
        if let Some(refusal) = Refusal::of_answer(answer.number) {
            return Err(refusal);
        }
        Ok(Store {
            root: NodePtr::from_handle(answer.root),
            pairs: self.pairs[..2 * answer.pairs as usize].to_vec(),
            atoms: self.atoms[..2 * answer.atoms as usize].to_vec(),
            bytes: self.bytes[..answer.bytes as usize].to_vec(),
            ghosts: answer.ghosts as usize,
        })
    }
}

impl Default for Reader {
    fn default() -> Reader {
        Reader::new()
    }
}

impl fmt::Debug for Reader {
    fn fmt(&self, f: &mut fmt::Formatter<'_>) -> fmt::Result {
        f.debug_struct("Reader").finish_non_exhaustive()
    }
}

/// Reads a tree with slices of its own. A [`Reader`] keeps them for the next one.
///
/// ```
/// let store = nikvoldra::read(b"\x86foobar")?;
/// assert_eq!(store.tree().atom().unwrap().as_ref(), b"foobar");
/// # Ok::<(), nikvoldra::Refusal>(())
/// ```
pub fn read(input: &[u8]) -> Result<Store, Refusal> {
    Reader::new().read(input)
}
