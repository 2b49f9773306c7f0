//! Sessions that keep to the premises of read-back, made by chance, with adds that are forgotten, quotes that are taken and quotes
//! that are dropped: what is read is the tree that was handed in, also when the same writer and reader are used for all of them,
//! refused ones between.

use nikvoldra::{Node, NodePtr, Reader, Refusal, Session, Tree, Writer};
use std::rc::Rc;

/// A tree as it is handed in.
enum Plain {
    Open,
    Atom(Vec<u8>),
    Pair(Rc<Plain>, Rc<Plain>),
}

impl Plain {
    fn has_open(&self) -> bool {
        match self {
            Plain::Open => true,
            Plain::Atom(_) => false,
            Plain::Pair(left, right) => left.has_open() || right.has_open(),
        }
    }

    /// The bytes with every subtree in full.
    fn full(&self) -> Vec<u8> {
        match self {
            Plain::Open => panic!("an open place has no bytes"),
            Plain::Atom(atom) => match atom[..] {
                [] => vec![0x80],
                [byte] if byte < 0x80 => vec![byte],
                _ => [&[0x80 + atom.len() as u8], &atom[..]].concat(),
            },
            Plain::Pair(left, right) => [vec![0xff], left.full(), right.full()].concat(),
        }
    }

    fn is(&self, tree: Tree) -> bool {
        match (self, tree.node()) {
            (Plain::Atom(bytes), Node::Atom(atom)) => bytes[..] == *atom,
            (Plain::Pair(left, right), Node::Pair(l, r)) => left.is(l) && right.is(r),
            _ => false,
        }
    }
}

/// The tree with another at its first open place from the left.
fn filled(state: &Rc<Plain>, with: &Rc<Plain>) -> Rc<Plain> {
    match &**state {
        Plain::Open => with.clone(),
        Plain::Pair(left, right) if left.has_open() => {
            Rc::new(Plain::Pair(filled(left, with), right.clone()))
        }
        Plain::Pair(left, right) => Rc::new(Plain::Pair(left.clone(), filled(right, with))),
        Plain::Atom(_) => panic!("no place is open"),
    }
}

/// The references, and the bytes of all prefixes, of whole items whose atoms have fewer than 64 bytes.
fn counted(bytes: &[u8]) -> (usize, usize) {
    let (mut references, mut prefix_bytes, mut at) = (0, 0, 0);
    while at < bytes.len() {
        at += match bytes[at] {
            0..=0x7f | 0xff => 1,
            0xfe => {
                references += 1;
                1
            }
            prefix => {
                assert!(prefix < 0xc0);
                prefix_bytes += 1;
                1 + usize::from(prefix - 0x80)
            }
        };
    }
    (references, prefix_bytes)
}

struct Chance(u64);

impl Chance {
    fn below(&mut self, n: usize) -> usize {
        self.0 ^= self.0 << 13;
        self.0 ^= self.0 >> 7;
        self.0 ^= self.0 << 17;
        (self.0 >> 33) as usize % n
    }
}

type Both = (NodePtr, Rc<Plain>);

struct Made {
    session: Session,
    chance: Chance,
    /// Subtrees without the open place, which later ones share.
    pool: Vec<Both>,
    /// The adds that remain, and the bytes of all steps.
    adds: Vec<NodePtr>,
    steps: usize,
}

impl Made {
    fn pair(&mut self, left: Both, right: Both) -> Both {
        let node = self.session.pair(left.0, right.0).unwrap();
        (node, Rc::new(Plain::Pair(left.1, right.1)))
    }

    fn leaf(&mut self) -> Both {
        const ATOMS: [&[u8]; 7] = [b"", &[1], &[0x80], b"ab", b"abc", b"foobar", &[0xff; 40]];
        let atom = ATOMS[self.chance.below(ATOMS.len())];
        let node = self.session.atom(atom).unwrap();
        (node, Rc::new(Plain::Atom(atom.to_vec())))
    }

    fn shared(&mut self) -> Both {
        if self.pool.is_empty() || self.chance.below(4) == 0 {
            return self.leaf();
        }
        let i = self.chance.below(self.pool.len());
        self.pool[i].clone()
    }

    /// Fresh pairs around one open place: none of them occurs in a later tree.
    fn around_open(&mut self) -> Both {
        let open = self.session.sentinel().unwrap();
        let mut tree = (open, Rc::new(Plain::Open));
        for _ in 0..self.chance.below(8) {
            let side = self.shared();
            tree = if self.chance.below(2) == 0 {
                self.pair(tree, side)
            } else {
                self.pair(side, tree)
            };
        }
        tree
    }

    /// By an add, or by a quote and its taking.
    fn add(&mut self, node: NodePtr) {
        if self.chance.below(2) == 0 {
            self.session.add(node).unwrap();
            self.steps += 5;
        } else {
            self.session.quote(node).unwrap();
            self.session.take().unwrap();
            self.steps += 6;
        }
        self.adds.push(node);
    }

    /// Quotes that are dropped, also such that leave no open place.
    fn quoted(&mut self) {
        for _ in 0..self.chance.below(3) {
            let tree = if self.chance.below(2) == 0 {
                self.around_open()
            } else {
                self.shared()
            };
            self.session.quote(tree.0).unwrap();
            self.steps += 5;
        }
    }

    /// Adds that are taken back, also such that leave no open place.
    fn tried(&mut self) {
        let remain = self.adds.len();
        self.quoted();
        for _ in 0..self.chance.below(3) {
            let tree = self.around_open();
            self.add(tree.0);
            self.quoted();
            if self.chance.below(2) == 0 {
                let tree = self.shared();
                self.add(tree.0);
            }
            self.session.forget(remain as u16).unwrap();
            self.adds.truncate(remain);
            self.steps += 3;
        }
    }

    /// The file with the adds that remain alone.
    fn without_tries(&self) -> Vec<u8> {
        let mut file = self.session.to_file();
        file.truncate(file.len() - self.steps);
        for add in &self.adds {
            file.push(1);
            file.extend(add.handle().to_be_bytes());
        }
        file
    }

    fn grow_pool(&mut self) {
        for _ in 0..self.chance.below(10) {
            let (left, right) = (self.shared(), self.shared());
            let both = self.pair(left, right);
            self.pool.push(both);
        }
    }
}

/// A session of some adds, the last of which finishes it, with what is taken back between them; and the whole tree.
fn make(seed: u64) -> (Made, Rc<Plain>) {
    let mut made = Made {
        session: Session::new(),
        chance: Chance(seed.wrapping_mul(0x9e37_79b9_7f4a_7c15) | 1),
        pool: vec![],
        adds: vec![],
        steps: 0,
    };
    let mut state = Rc::new(Plain::Open);
    for _ in 0..made.chance.below(6) {
        made.grow_pool();
        made.tried();
        let (node, plain) = made.around_open();
        made.add(node);
        state = filled(&state, &plain);
    }
    made.tried();
    let (node, plain) = made.shared();
    made.add(node);
    (made, filled(&state, &plain))
}

#[test]
fn reads_back_as_the_tree_handed_in() {
    let (mut writer, mut reader) = (Writer::new(), Reader::new());
    let mut shorter = 0;
    for seed in 1..=500 {
        let (made, whole) = make(seed);
        let full = whole.full();
        if full.len() > 60_000 {
            continue;
        }
        let session = &made.session;
        let run = writer.run(session).unwrap();
        // no path has 512 bytes
        assert_eq!(writer.run_documented(session).unwrap(), run);
        let alone = writer.run_file(&made.without_tries()).unwrap();
        assert_eq!(alone.bytes(), run.bytes(), "seed {seed}");
        assert_eq!(alone.steps().len(), made.adds.len(), "seed {seed}");
        assert!(run.is_finished(), "seed {seed}");
        let last = run.steps().last().unwrap();
        let counts = (last.references, last.prefix_bytes);
        assert_eq!(counts, counted(run.bytes()), "seed {seed}");
        assert_eq!(alone.steps().last(), Some(last), "seed {seed}");
        assert!(run.bytes().len() <= full.len(), "seed {seed}");
        shorter += usize::from(run.bytes().len() < full.len());
        let store = reader.read(run.bytes()).unwrap();
        assert!(whole.is(store.tree()), "seed {seed}");
        assert!(store.tree() == reader.read(&full).unwrap().tree());
        if seed % 50 == 0 {
            // fresh slices give the same
            assert_eq!(session.run().unwrap(), run);
            assert_eq!(nikvoldra::read(run.bytes()).unwrap(), store);
        }
        // a refused session and a refused reading between
        let cut = &run.bytes()[..run.bytes().len() - 1];
        assert_eq!(reader.read(cut).unwrap_err(), Refusal::BrokenBytes);
        let mut late = session.clone();
        late.add(NodePtr::NIL).unwrap();
        let error = writer.run(&late).unwrap_err();
        assert_eq!(error.refusal(), Refusal::AlreadyFinished);
        assert_eq!(error.into_run(), run);
    }
    assert!(shorter > 100, "only {shorter} sessions have references");
}

/// 1,024 pairs deep, and each of them shared: 2^1024 leaves. Neither the calls nor the comparison unfold it.
#[test]
fn a_tree_too_large_to_unfold() {
    let mut session = Session::new();
    let mut node = session.atom(b"foobar").unwrap();
    for _ in 0..1_024 {
        node = session.pair(node, node).unwrap();
    }
    session.add(node).unwrap();
    let run = session.run().unwrap();
    let (one, other) = (
        nikvoldra::read(run.bytes()).unwrap(),
        nikvoldra::read(run.bytes()).unwrap(),
    );
    assert_eq!(one.pair_count(), 1_024);
    assert!(one.tree() == other.tree());
    let (left, right) = one.tree().pair().unwrap();
    assert!(left == right && left != other.tree());
}

/// The session call goes down a tree by recursion, and no session has more than 1,024 pairs.
#[test]
fn the_deepest_tree_on_a_small_stack() {
    let mut session = Session::new();
    let mut node = session.sentinel().unwrap();
    for _ in 0..1_024 {
        node = session.pair(node, NodePtr::NIL).unwrap();
    }
    session.add(node).unwrap();
    session.add(NodePtr::NIL).unwrap();
    let run = move || {
        let run = session.run().unwrap();
        nikvoldra::read(run.bytes()).unwrap().pair_count()
    };
    let thread = std::thread::Builder::new().stack_size(256 * 1_024);
    assert_eq!(thread.spawn(run).unwrap().join().unwrap(), 1_024);
}
