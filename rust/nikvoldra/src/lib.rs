//! Nikvoldra for Rust: trees are added one after the other at the open place of a block's tree, written with repeated
//! subtrees replaced by short references, and read back.
//!
//! The work is done by calls whose contracts are proved, `nikvoldra_session` and `nikvoldra_read`, and
//! `nikvoldra_session_documented` beside the first. This crate owns the slices that they are lent, makes the session file, and
//! turns their numbers into errors. It is itself tested and not proved.
//!
//! ```
//! use nikvoldra::{read, Node, Session};
//!
//! let mut session = Session::new();
//! let open = session.sentinel()?;
//! let foobar = session.atom(b"foobar")?;
//! let tree = session.pair(foobar, open)?;
//! session.add(tree)?; // (foobar . open)
//! session.add(foobar)?; // (foobar . foobar), and no place is open
//!
//! let run = session.run()?;
//! assert!(run.is_finished());
//! assert_eq!(run.bytes(), b"\xff\x86foobar\xfe\x02");
//!
//! let store = read(run.bytes())?;
//! let Node::Pair(left, right) = store.tree().node() else {
//!     panic!("a pair was written");
//! };
//! assert_eq!(left.atom().unwrap().as_ref(), b"foobar");
//! assert!(left == right);
//! # Ok::<(), Box<dyn std::error::Error>>(())
//! ```
//!
//! # Many sessions
//!
//! [`Session::run`] and [`read`] make fresh slices each time. A [`Writer`] and a [`Reader`] keep theirs, of about 2 MiB and
//! 3.6 MiB, from call to call. Who has slices of their own uses the functions of [`call`].
//!
//! # Two measures of a reference
//!
//! Before a reference is written, its path is measured. [`Session::run`] does that as the Rust does, whose prefix lengths count a byte
//! too many for paths of 512 bytes and more; [`Session::run_documented`] has those of the CLVM serialization documentation, and writes a
//! reference wherever it is no longer than what it stands for in full. The two differ only where a path has 512 bytes or more.
//!
//! # What is promised
//!
//! Each question of the scope that can get no is a [`Refusal`]. That finished bytes read back as the tree handed in is proved
//! for sessions with no [`restore`](Session::restore), in which each tree that no [`forget`](Session::forget) took back has the
//! open place at one place at most and no pair above it occurs in a later one. A [`quote`](Session::quote) that is taken counts
//! as an add, one that is dropped as none. The repository's `docs/AUDIT.md` has the whole claim.

#![deny(missing_docs)]
#![deny(unsafe_code)]

#[allow(unsafe_code)]
pub mod call;
mod node;
mod refusal;
mod session;
mod store;
mod writer;

/// The README's lines of Rust.
#[cfg(doctest)]
#[doc = include_str!("../../../README.md")]
struct Readme;

pub use node::{Kind, NodePtr};
pub use refusal::Refusal;
pub use session::{BuildError, Session};
pub use store::{read, Atom, Node, Reader, SmallAtom, Store, Tree};
pub use writer::{Run, SessionError, Step, Writer};
