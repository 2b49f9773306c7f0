//! Plain ways, written from 01 and not from the Rust: the plain filling and
//! the premises of demand 3, and a reader over trees with the stack as a list.
//! Nothing here comes from the cache, the words or the output.

use crate::node::{ATOM, PAIR, index, kind};
use crate::reading::ReadAnswer;
use crate::session::{MAX_ADDS, SessionFile, Step};
use std::collections::HashMap;

#[derive(Debug, Clone, PartialEq, Eq)]
pub enum Node {
    Atom(Vec<u8>),
    Open,
    Pair(usize, usize),
}

/// Trees that share parts: a pair names earlier nodes only.
#[derive(Debug, Default, Clone)]
pub struct Forest {
    pub nodes: Vec<Node>,
    /// whether an open place lies in it
    open: Vec<bool>,
    /// bytes in full: one for each pair and each atom with its prefix, up to
    /// 2^64 - 1
    length: Vec<u64>,
}

/// A small atom's bytes: the value big-endian, shortest with a clear top bit.
pub fn small_bytes(value: u32) -> Vec<u8> {
    let mut bytes: Vec<u8> = value.to_be_bytes().to_vec();
    while bytes.first() == Some(&0) {
        bytes.remove(0);
    }
    if bytes.first().is_some_and(|b| *b >= 0x80) {
        bytes.insert(0, 0);
    }
    bytes
}

/// An atom with its prefix.
pub fn atom_in_full(atom: &[u8]) -> Vec<u8> {
    let n = atom.len();
    let mut out = match (n, atom.first()) {
        (0, _) => vec![0x80],
        (1, Some(b)) if *b < 0x80 => vec![],
        _ if n < 64 => vec![0x80 + n as u8],
        _ if n < 8192 => vec![0xc0 + (n / 256) as u8, (n % 256) as u8],
        _ => vec![
            0xe0 + (n / 65_536) as u8,
            (n / 256 % 256) as u8,
            (n % 256) as u8,
        ],
    };
    assert!(n < 1_048_576);
    out.extend_from_slice(atom);
    out
}

impl Forest {
    pub fn node(&mut self, n: Node) -> usize {
        let (open, length) = match &n {
            Node::Atom(bytes) => (false, atom_in_full(bytes).len() as u64),
            Node::Open => (true, 0),
            Node::Pair(l, r) => (
                self.open[*l] || self.open[*r],
                self.length[*l]
                    .saturating_add(self.length[*r])
                    .saturating_add(1),
            ),
        };
        self.nodes.push(n);
        self.open.push(open);
        self.length.push(length);
        self.nodes.len() - 1
    }

    /// `tree` put at the first open place from the left of `root`.
    fn put(&mut self, root: usize, tree: usize) -> usize {
        let mut above = vec![];
        let mut at = root;
        while let Node::Pair(l, r) = self.nodes[at] {
            let go_right = !self.open[l];
            above.push((go_right, if go_right { l } else { r }));
            at = if go_right { r } else { l };
        }
        assert_eq!(self.nodes[at], Node::Open);
        let mut t = tree;
        for (go_right, other) in above.into_iter().rev() {
            t = self.node(if go_right {
                Node::Pair(other, t)
            } else {
                Node::Pair(t, other)
            });
        }
        t
    }

    /// The tree in full, or none when it takes more than `limit` bytes.
    pub fn in_full(&self, root: usize, limit: u64) -> Option<Vec<u8>> {
        if self.length[root] > limit || self.open[root] {
            return None;
        }
        let mut out = vec![];
        let mut todo = vec![root];
        while let Some(t) = todo.pop() {
            match &self.nodes[t] {
                Node::Atom(bytes) => out.extend(atom_in_full(bytes)),
                Node::Pair(l, r) => {
                    out.push(0xff);
                    todo.push(*r);
                    todo.push(*l);
                }
                Node::Open => unreachable!(),
            }
        }
        Some(out)
    }
}

/// The state of the plain filling.
#[derive(Debug)]
pub struct Filling {
    pub forest: Forest,
    pub root: usize,
    /// the handles of the adds that survive, also by a `05`: no `03` took them back
    pub adds: Vec<u32>,
    pub whole: bool,
}

/// Each of the file's handles unfolded: a node for each listed atom and pair.
struct Unfolded<'a> {
    s: &'a SessionFile,
    atoms: Vec<usize>,
    pairs: Vec<usize>,
    open: usize,
}

impl<'a> Unfolded<'a> {
    fn new(s: &'a SessionFile, f: &mut Forest) -> Self {
        let mut u = Self {
            s,
            atoms: vec![],
            pairs: vec![],
            open: f.node(Node::Open),
        };
        u.atoms = s
            .atoms
            .iter()
            .map(|a| f.node(Node::Atom(a.clone())))
            .collect();
        for (l, r) in &s.pairs {
            let (l, r) = (u.tree(f, *l), u.tree(f, *r));
            u.pairs.push(f.node(Node::Pair(l, r)));
        }
        u
    }

    fn tree(&self, f: &mut Forest, h: u32) -> usize {
        if Some(h) == self.s.sentinel {
            return self.open;
        }
        match kind(h) {
            PAIR => self.pairs[index(h)],
            ATOM => self.atoms[index(h)],
            _ => f.node(Node::Atom(small_bytes(index(h) as u32))),
        }
    }
}

/// The plain filling: none with a `02` that is taken. It ends at a step that 9 to
/// 11 or 17 refuse; 12 and 13 aren't asked here, since they depend on the output.
pub fn fill(s: &SessionFile) -> Option<Filling> {
    let mut f = Forest::default();
    let u = Unfolded::new(s, &mut f);
    let mut root = u.open;
    // the handle of each add on the present history, and the tree before it
    let mut past: Vec<(u32, usize)> = vec![];
    let mut quoted = None;
    for step in &s.steps {
        let open = quoted.take();
        let added = match *step {
            Step::Add(h) => Some(h),
            Step::Take if open.is_none() => break,
            Step::Take => open,
            _ => None,
        };
        match *step {
            Step::Add(_) | Step::Quote(_) if !f.open[root] || past.len() == MAX_ADDS => break,
            Step::Add(_) | Step::Take => (),
            Step::Quote(h) => quoted = Some(h),
            Step::Restore(k) | Step::Forget(k) if usize::from(k) >= past.len() => break,
            Step::Restore(_) => return None,
            Step::Forget(k) => {
                root = past[usize::from(k)].1;
                past.truncate(k.into());
            }
        }
        if let Some(h) = added {
            past.push((h, root));
            let t = u.tree(&mut f, h);
            root = f.put(root, t);
        }
    }
    Some(Filling {
        whole: !f.open[root],
        forest: f,
        root,
        adds: past.into_iter().map(|(h, _)| h).collect(),
    })
}

/// The adds that survive these steps, none of them refused, by their places and
/// handles; none with a `02`. A `05` is the add that was quoted right before it.
pub fn survivors(steps: &[Step]) -> Option<Vec<(usize, u32)>> {
    let mut adds = vec![];
    for (i, step) in steps.iter().enumerate() {
        match (*step, i.checked_sub(1).map(|before| steps[before])) {
            (Step::Add(h), _) | (Step::Take, Some(Step::Quote(h))) => adds.push((i, h)),
            (Step::Take, _) => panic!("a 05 with no quote open"),
            (Step::Restore(_), _) => return None,
            (Step::Forget(k), _) => adds.truncate(k.into()),
            (Step::Quote(_), _) => (),
        }
    }
    Some(adds)
}

/// The premises of demand 3 on the trees of the adds that survive the plain
/// filling; the reason when one fails.
pub fn premises(s: &SessionFile) -> Result<(), &'static str> {
    let Some(filling) = fill(s) else {
        return Err("a restore");
    };
    // open places below each pair, counted wherever they are seen
    let mut places: Vec<u64> = vec![];
    let count = |places: &[u64], h: u32| {
        if Some(h) == s.sentinel {
            1
        } else if kind(h) == PAIR {
            places[index(h)]
        } else {
            0
        }
    };
    for (l, r) in &s.pairs {
        let n = count(&places, *l).saturating_add(count(&places, *r));
        places.push(n);
    }

    let mut above_earlier = vec![false; s.pairs.len()];
    for root in filling.adds {
        if count(&places, root) > 1 {
            return Err("a tree with the sentinel at several places");
        }
        // the pairs that unfolding enters
        let mut entered = vec![false; s.pairs.len()];
        let mut todo = vec![root];
        while let Some(h) = todo.pop() {
            if Some(h) == s.sentinel || kind(h) != PAIR || entered[index(h)] {
                continue;
            }
            entered[index(h)] = true;
            let (l, r) = s.pairs[index(h)];
            todo.extend([l, r]);
        }
        for i in 0..s.pairs.len() {
            if entered[i] && above_earlier[i] {
                return Err("a pair above the sentinel occurs in a later tree");
            }
        }
        for i in 0..s.pairs.len() {
            above_earlier[i] |= entered[i] && places[i] > 0;
        }
    }
    Ok(())
}

/// A reference in the bytes read.
#[derive(Debug, Clone, Copy)]
pub struct Reference {
    pub at: usize,
    /// bytes of the whole item
    pub bytes: u64,
    /// bytes of its subtree in full
    pub in_full: u64,
}

#[derive(Debug)]
pub struct PlainRead {
    pub forest: Forest,
    pub root: usize,
    pub references: Vec<Reference>,
    /// pairs made, those of the stack's list included
    pub pairs: usize,
}

/// An atom at `at`, whose first byte has been read: its place, or 14 or 15.
fn atom_place(input: &[u8], at: usize) -> Result<(usize, usize), u32> {
    const LEAST: [u64; 6] = [0, 64, 8192, 1_048_576, 134_217_728, 1 << 34];
    let first = input[at];
    if first < 0x80 {
        return Ok((at, at + 1));
    }
    let width = first.leading_ones() as usize;
    if width == 8 {
        return Err(14);
    }
    let rest = input.get(at + 1..at + width).ok_or(14_u32)?;
    if width > 6 {
        return Err(14);
    }
    let mut size = u64::from(first) % (1 << (7 - width));
    for b in rest {
        size = size * 256 + u64::from(*b);
    }
    if size >= 1 << 34 {
        return Err(14);
    }
    if size < LEAST[width - 1] {
        return Err(15);
    }
    let start = at + width;
    if size == 1 && *input.get(start).ok_or(14_u32)? < 0x80 {
        return Err(15);
    }
    let end = start + size as usize;
    if end > input.len() {
        return Err(14);
    }
    Ok((start, end))
}

/// The format over trees: 14, 15 and 16 item by item from the left.
pub fn read(input: &[u8]) -> Result<PlainRead, u32> {
    let mut f = Forest::default();
    let nil = f.node(Node::Atom(vec![]));
    let mut stack = nil;
    let mut pairs = 0;
    let mut references = vec![];
    let mut at = 0;
    // true: read a tree; false: cons
    let mut todo = vec![true];
    let pair = |f: &Forest, t: usize| match f.nodes[t] {
        Node::Pair(l, r) => Some((l, r)),
        _ => None,
    };
    while let Some(op) = todo.pop() {
        let value = if !op {
            let (right, rest) = pair(&f, stack).expect("right");
            let (left, rest) = pair(&f, rest).expect("left");
            stack = rest;
            pairs += 1;
            f.node(Node::Pair(left, right))
        } else {
            let first = *input.get(at).ok_or(14_u32)?;
            if first == 0xff {
                at += 1;
                todo.extend([false, true, true]);
                continue;
            }
            if first == 0xfe {
                input.get(at + 1).ok_or(14_u32)?;
                let (start, end) = atom_place(input, at + 1)?;
                let path = &input[start..end];
                // bits from the lowest up; the highest set one ends the path
                let bits: Vec<bool> = path
                    .iter()
                    .rev()
                    .flat_map(|b| (0..8).map(move |i| b >> i & 1 == 1))
                    .collect();
                let mut t = nil;
                if let Some(last) = bits.iter().rposition(|b| *b) {
                    t = stack;
                    for right in &bits[..last] {
                        let (l, r) = pair(&f, t).ok_or(16_u32)?;
                        t = if *right { r } else { l };
                    }
                }
                references.push(Reference {
                    at,
                    bytes: (end - at) as u64,
                    in_full: f.length[t],
                });
                at = end;
                t
            } else {
                let (start, end) = atom_place(input, at)?;
                at = end;
                f.node(Node::Atom(input[start..end].to_vec()))
            }
        };
        pairs += 1;
        stack = f.node(Node::Pair(value, stack));
    }
    if at != input.len() {
        return Err(14);
    }
    let (root, _) = pair(&f, stack).expect("a root");
    Ok(PlainRead {
        forest: f,
        root,
        references,
        pairs,
    })
}

/// Gives equal trees equal numbers.
#[derive(Default)]
pub struct Interner {
    atoms: HashMap<Vec<u8>, usize>,
    pairs: HashMap<(usize, usize), usize>,
}

impl Interner {
    fn next(&self) -> usize {
        self.atoms.len() + self.pairs.len()
    }

    fn atom(&mut self, bytes: &[u8]) -> usize {
        let n = self.next();
        *self.atoms.entry(bytes.to_vec()).or_insert(n)
    }

    fn pair(&mut self, left: usize, right: usize) -> usize {
        let n = self.next();
        *self.pairs.entry((left, right)).or_insert(n)
    }

    /// A tree of the forest, without open places.
    pub fn tree(&mut self, f: &Forest, root: usize) -> usize {
        let mut number: Vec<usize> = vec![];
        for n in &f.nodes[..=root] {
            number.push(match n {
                Node::Atom(bytes) => self.atom(bytes),
                Node::Pair(l, r) => self.pair(number[*l], number[*r]),
                // no other tree has this number
                Node::Open => usize::MAX,
            });
        }
        number[root]
    }

    /// The root of a reading.
    pub fn reading(&mut self, r: &ReadAnswer) -> usize {
        let atoms: Vec<usize> = r
            .atoms
            .iter()
            .map(|(start, end)| self.atom(&r.bytes[*start as usize..*end as usize]))
            .collect();
        let mut pairs: Vec<usize> = vec![];
        let of = |this: &mut Self, pairs: &[usize], h: u32| match kind(h) {
            PAIR => pairs[index(h)],
            ATOM => atoms[index(h)],
            _ => this.atom(&small_bytes(index(h) as u32)),
        };
        for (l, r) in &r.pairs {
            let (l, r) = (of(self, &pairs, *l), of(self, &pairs, *r));
            pairs.push(self.pair(l, r));
        }
        of(self, &pairs, r.root)
    }
}
