//! A session's file, made in memory.

use crate::node::{small_value, Kind, NodePtr};
use crate::writer::{Run, SessionError, Writer};
use std::collections::HashMap;
use std::error::Error;
use std::fmt;

/// Why a session file can't hold what was asked.
#[non_exhaustive]
#[derive(Clone, Copy, Debug, PartialEq, Eq)]
pub enum BuildError {
    /// There are 1,024 listed atoms already.
    TooManyAtoms,
    /// The listed atoms would have more than 32,768 bytes together.
    TooManyAtomBytes,
    /// There are 1,024 pairs already.
    TooManyPairs,
    /// There are 1,024 steps already.
    TooManySteps,
    /// The handle names nothing of this session: it is another session's.
    UnknownNode(NodePtr),
}

impl fmt::Display for BuildError {
    fn fmt(&self, f: &mut fmt::Formatter<'_>) -> fmt::Result {
        match self {
            BuildError::TooManyAtoms => write!(f, "a session has at most 1,024 listed atoms"),
            BuildError::TooManyAtomBytes => write!(
                f,
                "the listed atoms of a session have at most 32,768 bytes together"
            ),
            BuildError::TooManyPairs => write!(f, "a session has at most 1,024 pairs"),
            BuildError::TooManySteps => write!(f, "a session has at most 1,024 steps"),
            BuildError::UnknownNode(node) => {
                write!(f, "{node:?} names nothing of this session")
            }
        }
    }
}

impl Error for BuildError {}

#[derive(Clone, Copy, Debug)]
enum Operation {
    Add(NodePtr),
    Restore(u16),
    Forget(u16),
    Quote(NodePtr),
    Take,
}

/// A session: its atoms and pairs, the handle that marks the open place, and the steps.
///
/// The methods keep to the limits of the session file, so a run of it can be refused by the questions 9 to 13 and 17 only.
///
/// ```
/// use nikvoldra::Session;
///
/// let mut session = Session::new();
/// let open = session.sentinel()?;
/// let name = session.atom(b"foobar")?;
/// let nil = session.atom(b"")?;
/// let list = session.pair(name, open)?;
/// session.add(list)?;
/// session.restore(0)?; // takes the add back
/// session.add(list)?;
/// session.add(nil)?;
/// let steps: Vec<(usize, bool)> = session.run()?.steps().iter().map(|s| (s.size, s.finished)).collect();
/// assert_eq!(steps, [(8, false), (0, false), (8, false), (9, true)]);
/// # Ok::<(), Box<dyn std::error::Error>>(())
/// ```
#[derive(Clone, Debug, Default)]
pub struct Session {
    atoms: Vec<Vec<u8>>,
    atom_bytes: usize,
    listed: HashMap<Vec<u8>, NodePtr>,
    pairs: Vec<(NodePtr, NodePtr)>,
    sentinel: Option<NodePtr>,
    steps: Vec<Operation>,
}

impl Session {
    /// The most listed atoms of a session.
    pub const MOST_ATOMS: usize = 1_024;
    /// The most bytes of its listed atoms together.
    pub const MOST_ATOM_BYTES: usize = 32_768;
    /// The most pairs of a session.
    pub const MOST_PAIRS: usize = 1_024;
    /// The most steps of a session.
    pub const MOST_STEPS: usize = 1_024;

    /// A session with no atoms, no pairs, no open place and no steps.
    pub fn new() -> Session {
        Session::default()
    }

    fn list_atom(&mut self, bytes: &[u8]) -> Result<NodePtr, BuildError> {
        if self.atoms.len() == Session::MOST_ATOMS {
            return Err(BuildError::TooManyAtoms);
        }
        if bytes.len() > Session::MOST_ATOM_BYTES - self.atom_bytes {
            return Err(BuildError::TooManyAtomBytes);
        }
        self.atom_bytes += bytes.len();
        self.atoms.push(bytes.to_vec());
        Ok(NodePtr::new(Kind::ListedAtom, self.atoms.len() - 1))
    }

    /// The handle of an atom. One that fits in a small atom is one; another is listed, once for the same bytes.
    ///
    /// A listed one is never the handle of the open place.
    pub fn atom(&mut self, bytes: &[u8]) -> Result<NodePtr, BuildError> {
        if let Some(value) = small_value(bytes) {
            return Ok(NodePtr::new(Kind::SmallAtom, value as usize));
        }
        if let Some(node) = self.listed.get(bytes) {
            return Ok(*node);
        }
        let node = self.list_atom(bytes)?;
        self.listed.insert(bytes.to_vec(), node);
        Ok(node)
    }

    /// Lists a pair. A pair with the same sides as an earlier one is another pair, as in the Rust's allocator.
    pub fn pair(&mut self, left: NodePtr, right: NodePtr) -> Result<NodePtr, BuildError> {
        self.known(left)?;
        self.known(right)?;
        if self.pairs.len() == Session::MOST_PAIRS {
            return Err(BuildError::TooManyPairs);
        }
        self.pairs.push((left, right));
        Ok(NodePtr::new(Kind::Pair, self.pairs.len() - 1))
    }

    /// The list of some nodes, ended by `end`: a pair for each.
    ///
    /// ```
    /// use nikvoldra::{NodePtr, Session};
    ///
    /// let mut session = Session::new();
    /// let (one, two) = (session.atom(&[1])?, session.atom(&[2])?);
    /// let list = session.list(&[one, two], NodePtr::NIL)?;
    /// session.add(list)?;
    /// assert_eq!(session.run()?.bytes(), [0xff, 1, 0xff, 2, 0x80]);
    /// # Ok::<(), Box<dyn std::error::Error>>(())
    /// ```
    pub fn list(&mut self, nodes: &[NodePtr], end: NodePtr) -> Result<NodePtr, BuildError> {
        self.known(end)?;
        let mut list = end;
        for node in nodes.iter().rev() {
            list = self.pair(*node, list)?;
        }
        Ok(list)
    }

    /// The handle of the open place. The first time an atom of its own is listed for it, which is no other atom's handle.
    ///
    /// The next tree added goes there. A tree without it closes the session.
    pub fn sentinel(&mut self) -> Result<NodePtr, BuildError> {
        if let Some(node) = self.sentinel {
            return Ok(node);
        }
        let node = self.list_atom(&[0xff])?;
        self.sentinel = Some(node);
        Ok(node)
    }

    /// Has a node of the session mark the open place, in place of [`sentinel`](Session::sentinel)'s.
    ///
    /// A small atom is the same handle wherever its value occurs, and marks an open place at each.
    pub fn set_sentinel(&mut self, node: NodePtr) -> Result<(), BuildError> {
        self.known(node)?;
        self.listed.retain(|_, listed| *listed != node);
        self.sentinel = Some(node);
        Ok(())
    }

    /// A step that adds a tree at the first open place from the left; the first one becomes the whole tree.
    pub fn add(&mut self, tree: NodePtr) -> Result<(), BuildError> {
        self.known(tree)?;
        self.step(Operation::Add(tree))
    }

    /// A step that goes back to the state before add `number`, counted from 0 on the present history.
    ///
    /// As in the Rust, the cache keeps what it learnt. A session with a restore is outside the promise of read-back.
    pub fn restore(&mut self, number: u16) -> Result<(), BuildError> {
        self.step(Operation::Restore(number))
    }

    /// A step that goes back to the state before add `number`, counted from 0 on the present history, and forgets the trees
    /// that it takes back.
    ///
    /// A session that forgets and never restores writes the bytes of the adds that remain, and read-back is promised for them.
    ///
    /// Bundles are tried: one that brings the block above 40 bytes is taken back, and the next one comes in its place.
    ///
    /// ```
    /// use nikvoldra::{NodePtr, Session, Writer};
    ///
    /// let (mut session, mut writer) = (Session::new(), Writer::new());
    /// let open = session.sentinel()?;
    /// let mut adds = 0;
    /// for bundle in [&b"one of some length"[..], b"one that is too long for what is left", b"a short one"] {
    ///     let atom = session.atom(bundle)?;
    ///     let tree = session.pair(atom, open)?;
    ///     session.add(tree)?;
    ///     if writer.run(&session)?.bytes().len() > 40 {
    ///         session.forget(adds)?;
    ///     } else {
    ///         adds += 1;
    ///     }
    /// }
    /// session.add(NodePtr::NIL)?;
    /// let run = writer.run(&session)?;
    /// let sizes: Vec<usize> = run.steps().iter().map(|step| step.size).collect();
    /// assert_eq!(sizes, [20, 59, 20, 33, 34]);
    /// assert_eq!(run.bytes(), b"\xff\x92one of some length\xff\x8ba short one\x80");
    /// # Ok::<(), Box<dyn std::error::Error>>(())
    /// ```
    pub fn forget(&mut self, number: u16) -> Result<(), BuildError> {
        self.step(Operation::Forget(number))
    }

    /// A step that says what [`add`](Session::add) of the tree would leave, and adds nothing: its size and whether it finishes
    /// the session are those of the add, and session and bytes stay as they were.
    ///
    /// Where the add would be refused the quote is, and leaves no item of it. [`take`](Session::take) right after it makes the
    /// add; any other step drops the quote.
    ///
    /// Three bundles are quoted, and the one that makes the block grow least is taken.
    ///
    /// ```
    /// use nikvoldra::{NodePtr, Session, Writer};
    ///
    /// let (mut session, mut writer) = (Session::new(), Writer::new());
    /// let open = session.sentinel()?;
    /// let shared = session.atom(b"a puzzle that is known")?;
    /// let first = session.pair(shared, open)?;
    /// session.add(first)?;
    ///
    /// let mut bundles = vec![];
    /// for puzzle in [&b"another puzzle"[..], b"a puzzle that is known", b"one more"] {
    ///     let atom = session.atom(puzzle)?;
    ///     let bundle = session.pair(atom, open)?;
    ///     session.quote(bundle)?;
    ///     bundles.push(bundle);
    /// }
    /// let run = writer.run(&session)?;
    /// let sizes: Vec<usize> = run.steps().iter().map(|step| step.size).collect();
    /// assert_eq!(sizes, [24, 40, 27, 34]);
    /// assert_eq!(run.bytes().len(), 24);
    ///
    /// let (cheapest, _) = bundles.iter().zip(&sizes[1..]).min_by_key(|(_, size)| **size).unwrap();
    /// session.quote(*cheapest)?;
    /// session.take()?;
    /// session.add(NodePtr::NIL)?;
    /// let run = writer.run(&session)?;
    /// assert_eq!(run.bytes(), b"\xff\x96a puzzle that is known\xff\xfe\x02\x80");
    /// # Ok::<(), Box<dyn std::error::Error>>(())
    /// ```
    pub fn quote(&mut self, tree: NodePtr) -> Result<(), BuildError> {
        self.known(tree)?;
        self.step(Operation::Quote(tree))
    }

    /// A step that makes the add quoted right before it, which closes the quote. It counts as an add: [`restore`](Session::restore)
    /// and [`forget`](Session::forget) go back before it, and read-back is promised as for an add.
    ///
    /// ```
    /// use nikvoldra::{NodePtr, Refusal, Session};
    ///
    /// let mut session = Session::new();
    /// session.quote(NodePtr::NIL)?;
    /// session.take()?;
    /// assert_eq!(session.run()?.bytes(), [0x80]);
    ///
    /// session.take()?; // no quote is open
    /// assert_eq!(session.run().unwrap_err().refusal(), Refusal::NoQuote);
    /// # Ok::<(), Box<dyn std::error::Error>>(())
    /// ```
    pub fn take(&mut self) -> Result<(), BuildError> {
        self.step(Operation::Take)
    }

    fn step(&mut self, step: Operation) -> Result<(), BuildError> {
        if self.steps.len() == Session::MOST_STEPS {
            return Err(BuildError::TooManySteps);
        }
        self.steps.push(step);
        Ok(())
    }

    fn known(&self, node: NodePtr) -> Result<(), BuildError> {
        let listed = match node.kind() {
            Kind::Pair => self.pairs.len(),
            Kind::ListedAtom => self.atoms.len(),
            Kind::SmallAtom => return Ok(()),
        };
        if node.index() < listed {
            return Ok(());
        }
        Err(BuildError::UnknownNode(node))
    }

    /// The session file.
    ///
    /// ```
    /// let file = nikvoldra::Session::new().to_file();
    /// assert_eq!(file, b"BRS\x00\x01\x00\x00\x00\x00\xff\xff\xff\xff");
    /// ```
    pub fn to_file(&self) -> Vec<u8> {
        // The limits keep each of these within its field, and the file within 65,535 bytes.
        let mut file = b"BRS\x00\x01".to_vec();
        let number = |file: &mut Vec<u8>, n: usize| file.extend((n as u16).to_be_bytes());
        let handle = |file: &mut Vec<u8>, node: NodePtr| file.extend(node.handle().to_be_bytes());
        number(&mut file, self.atoms.len());
        for atom in &self.atoms {
            number(&mut file, atom.len());
            file.extend(atom);
        }
        number(&mut file, self.pairs.len());
        for (left, right) in &self.pairs {
            handle(&mut file, *left);
            handle(&mut file, *right);
        }
        file.extend(
            self.sentinel
                .map_or(u32::MAX, NodePtr::handle)
                .to_be_bytes(),
        );
        for step in &self.steps {
            match step {
                Operation::Add(tree) => {
                    file.push(1);
                    handle(&mut file, *tree);
                }
                Operation::Restore(number) => {
                    file.push(2);
                    file.extend(number.to_be_bytes());
                }
                Operation::Forget(number) => {
                    file.push(3);
                    file.extend(number.to_be_bytes());
                }
                Operation::Quote(tree) => {
                    file.push(4);
                    handle(&mut file, *tree);
                }
                Operation::Take => file.push(5),
            }
        }
        file
    }

    /// Runs it with slices of its own and an output of 65,535 bytes. A [`Writer`] keeps the slices for the next run.
    pub fn run(&self) -> Result<Run, SessionError> {
        Writer::new().run(self)
    }

    /// Runs it like [`run`](Session::run), with references measured as the CLVM serialization documentation has it.
    ///
    /// Where a path to a subtree that was written before is found, the reference is written if it is no longer than the subtree in full.
    /// The Rust, and [`run`](Session::run), count a byte too many for paths of 512 to 8,191 bytes, so they leave some references out that are just
    /// as long as what they stand for. Paths of that length need thousands of values between the two places:
    ///
    /// ```
    /// use nikvoldra::{read, Session};
    ///
    /// let mut session = Session::new();
    /// let open = session.sentinel()?;
    /// let one = session.atom(&[1])?;
    /// let mut spine = vec![open];
    /// for i in 0..600 {
    ///     spine.push(session.pair(one, spine[i])?); // (1 . (1 . .. open))
    /// }
    /// let blob = session.atom(&[0x80; 513])?; // 515 bytes with its prefix
    /// let first = session.pair(blob, spine[487])?;
    /// session.add(first)?;
    /// for _ in 0..6 {
    ///     session.add(spine[600])?;
    /// }
    /// session.add(blob)?; // 4,087 values after the first one: a path of 512 bytes, and 515 for the reference
    ///
    /// let (rust, documented) = (session.run()?, session.run_documented()?);
    /// let references = |run: &nikvoldra::Run| run.steps().last().unwrap().references;
    /// assert_eq!((references(&rust), references(&documented)), (0, 1));
    /// assert_eq!(rust.bytes().len(), documented.bytes().len());
    /// assert!(read(rust.bytes())?.tree() == read(documented.bytes())?.tree());
    /// # Ok::<(), Box<dyn std::error::Error>>(())
    /// ```
    pub fn run_documented(&self) -> Result<Run, SessionError> {
        Writer::new().run_documented(self)
    }
}
