//! Encoded trees.

use super::exhaustive::LETTERS;
use super::{Kind, damage};
use crate::reading::MAX_INPUT;
use crate::rng::Rng;
use crate::session;
use clvm_rs::serde::write_atom::write_atom;

pub const KINDS: &[Kind] = &[
    ("plain", 100, plain),
    ("walks", 200, walks),
    ("walks-into-atoms", 60, walks_into_atoms),
    ("stack-paths", 100, stack_paths),
    ("zero-paths", 60, zero_paths),
    ("leading-zeros", 60, leading_zeros),
    ("random-paths", 100, random_paths),
    ("written", 100, written),
    ("prefixes", 60, prefixes),
    ("path-prefixes", 60, path_prefixes),
    ("nested-left", 8, nested_left),
    ("nested-right", 8, nested_right),
    ("big-atoms", 4, big_atoms),
    ("short", 100, short),
    ("alphabet", 100, alphabet),
    ("random", 60, random_bytes),
    ("damaged", 150, damaged),
    ("truncated", 100, truncated),
    ("left-over", 30, left_over),
    ("long", 1, long),
    ("too-long", 1, too_long),
];

pub fn encode_atom(out: &mut Vec<u8>, atom: &[u8]) {
    write_atom(out, atom).expect("write_atom");
}

fn random_atom(rng: &mut Rng) -> Vec<u8> {
    match rng.below(6) {
        0 => vec![],
        1 => vec![rng.byte()],
        2 => vec![*rng.pick(&[0x00, 0x01, 0x7f, 0x80, 0xff])],
        3 => b"foobar".to_vec(),
        _ => {
            let n = *rng.pick(&[1, 2, 3, 4, 5, 8, 33, 63, 64, 70]);
            rng.bytes(n)
        }
    }
}

/// A path's bytes from its steps, the first step in the lowest bit, and
/// `zeros` zero bytes before it.
pub fn path_bytes(steps: &[bool], zeros: usize) -> Vec<u8> {
    let mut low_first: Vec<bool> = steps.to_vec();
    low_first.push(true);
    let mut bytes: Vec<u8> = low_first
        .chunks(8)
        .map(|c| {
            c.iter()
                .enumerate()
                .fold(0, |b, (i, bit)| b | u8::from(*bit) << i)
        })
        .collect();
    bytes.extend(vec![0; zeros]);
    bytes.reverse();
    bytes
}

#[derive(Clone, Copy)]
enum Tree {
    Atom,
    Pair(usize, usize),
}

/// How references are made.
#[derive(Clone, Copy)]
struct Style {
    /// of 100 items, how many are pairs, how many references
    pairs: usize,
    references: usize,
    /// of 100 references, how many have leading zero bytes, an all-zero path,
    /// end on the stack itself, take a step into an atom
    zeros: usize,
    all_zero: usize,
    on_stack: usize,
    into_atom: usize,
}

const WALKS: Style = Style {
    pairs: 45,
    references: 25,
    zeros: 0,
    all_zero: 1,
    on_stack: 10,
    into_atom: 0,
};

/// Writes a tree item by item and keeps the reader's stack beside it, so that
/// paths can be chosen to be good.
struct Writer {
    out: Vec<u8>,
    trees: Vec<Tree>,
    /// the values, the top last
    stack: Vec<usize>,
    /// true: read a tree; false: cons
    ops: Vec<bool>,
}

impl Writer {
    fn new() -> Self {
        Self {
            out: vec![],
            trees: vec![Tree::Atom],
            stack: vec![],
            ops: vec![true],
        }
    }

    fn tree(&mut self, t: Tree) -> usize {
        self.trees.push(t);
        self.trees.len() - 1
    }

    /// The rest of the stack from `from` values below the top, as a list.
    fn rest(&mut self, from: usize) -> usize {
        let mut t = 0;
        for i in 0..self.stack.len() - from {
            t = self.tree(Tree::Pair(self.stack[i], t));
        }
        t
    }

    fn reference(&mut self, rng: &mut Rng, style: Style) {
        let mut steps = vec![];
        let zeros = if rng.percent(style.zeros) {
            rng.range(1, 4)
        } else {
            0
        };
        if rng.percent(style.all_zero) {
            let n = rng.range(0, 3);
            self.emit_path(&vec![0; n], 0);
            return;
        }
        let depth = self.stack.len();
        let down = match rng.below(3) {
            0 => rng.below(depth + 1),
            _ => rng.below(depth.min(4) + 1),
        };
        steps.extend(vec![true; down]);
        let target = if down == depth {
            0
        } else if rng.percent(style.on_stack) {
            self.rest(down)
        } else {
            steps.push(false);
            let mut t = self.stack[depth - 1 - down];
            while let Tree::Pair(left, right) = self.trees[t] {
                if rng.percent(30) {
                    break;
                }
                let go_right = rng.percent(50);
                steps.push(go_right);
                t = if go_right { right } else { left };
            }
            t
        };
        if rng.percent(style.into_atom) && matches!(self.trees[target], Tree::Atom) {
            for _ in 0..rng.range(1, 10) {
                steps.push(rng.percent(50));
            }
        }
        self.emit_path(&path_bytes(&steps, zeros), target);
    }

    fn emit_path(&mut self, path: &[u8], target: usize) {
        self.out.push(0xfe);
        encode_atom(&mut self.out, path);
        self.stack.push(target);
    }

    /// About `items` items; leaves are taken when they are used up.
    fn write(&mut self, rng: &mut Rng, items: usize, style: Style) {
        let mut items = items;
        while let Some(op) = self.ops.pop() {
            if !op {
                let right = self.stack.pop().expect("right");
                let left = self.stack.pop().expect("left");
                let t = self.tree(Tree::Pair(left, right));
                self.stack.push(t);
                continue;
            }
            let roll = rng.below(100);
            if items > 0 && roll < style.pairs {
                self.out.push(0xff);
                self.ops.extend([false, true, true]);
            } else if roll < style.pairs + style.references {
                self.reference(rng, style);
            } else {
                let atom = random_atom(rng);
                encode_atom(&mut self.out, &atom);
                let t = self.tree(Tree::Atom);
                self.stack.push(t);
            }
            items = items.saturating_sub(1);
        }
    }
}

fn styled(rng: &mut Rng, style: Style) -> Vec<u8> {
    let mut w = Writer::new();
    // a start of pairs, so that the tree isn't over at once
    for _ in 0..rng.range(0, 12) {
        w.out.push(0xff);
        w.ops.pop();
        w.ops.extend([false, true, true]);
    }
    let items = *rng.pick(&[3, 10, 40, 150]);
    w.write(rng, items, style);
    w.out
}

fn plain(rng: &mut Rng) -> Vec<u8> {
    styled(
        rng,
        Style {
            references: 0,
            pairs: 50,
            ..WALKS
        },
    )
}

fn walks(rng: &mut Rng) -> Vec<u8> {
    styled(rng, WALKS)
}

fn walks_into_atoms(rng: &mut Rng) -> Vec<u8> {
    styled(
        rng,
        Style {
            into_atom: 20,
            ..WALKS
        },
    )
}

fn stack_paths(rng: &mut Rng) -> Vec<u8> {
    styled(
        rng,
        Style {
            references: 35,
            on_stack: 80,
            ..WALKS
        },
    )
}

fn zero_paths(rng: &mut Rng) -> Vec<u8> {
    styled(
        rng,
        Style {
            all_zero: 40,
            ..WALKS
        },
    )
}

fn leading_zeros(rng: &mut Rng) -> Vec<u8> {
    styled(
        rng,
        Style {
            zeros: 70,
            on_stack: 30,
            ..WALKS
        },
    )
}

/// A well-formed run of items with paths of any bits.
fn random_paths(rng: &mut Rng) -> Vec<u8> {
    let mut out = vec![];
    let mut open = 1;
    let mut items = rng.range(1, 30);
    while open > 0 {
        let roll = rng.below(10);
        if items > 0 && roll < 5 {
            out.push(0xff);
            open += 1;
            items -= 1;
            continue;
        }
        if roll < 7 {
            out.push(0xfe);
            let n = *rng.pick(&[1, 1, 1, 1, 2, 3]);
            let mut path = rng.bytes(n);
            if rng.percent(60) {
                path[0] &= 0x0f;
            }
            encode_atom(&mut out, &path);
        } else {
            encode_atom(&mut out, &random_atom(rng));
        }
        open -= 1;
    }
    out
}

/// The output of a session: finished, or what a refused one left.
fn written(rng: &mut Rng) -> Vec<u8> {
    let kind = *rng.pick(&[
        "tiny",
        "shared",
        "lists",
        "doubling",
        "twins",
        "restores",
        "premise-broken",
    ]);
    let file = super::session(rng.next(), kind).expect("a session kind");
    session::run(&file, session::MAX_OUTPUT, false).output
}

/// A prefix of some width with some size and some bytes after it, or fewer.
fn prefix_case(rng: &mut Rng) -> Vec<u8> {
    let width = rng.range(1, 7);
    // bits of size in the first byte
    let bits = 7 - width;
    let least = [0, 64, 8192, 1 << 20, 1 << 27, 1 << 34, 1 << 41][width - 1];
    let top: u64 = 1 << (bits + 8 * (width - 1));
    let size: u64 = match rng.below(6) {
        0 => least,
        1 => least + 1,
        2 => u64::saturating_sub(least, 1),
        3 => top - 1,
        4 => rng.next() % top,
        _ => rng.next() % 70,
    } % top;
    let mut out = vec![];
    let word = size.to_be_bytes();
    out.extend(&word[8 - width..]);
    let ones = (0xff00_u32 >> width) as u8;
    out[0] |= ones;
    let mut have = if size > 9000 {
        rng.below(10)
    } else {
        size as usize
    };
    match rng.below(8) {
        0 => have = have.saturating_sub(1),
        1 => have = 0,
        2 => {
            out.truncate(rng.range(1, width));
            have = 0;
        }
        _ => {}
    }
    let mut bytes = rng.bytes(have);
    if let Some(first) = bytes.first_mut()
        && rng.percent(40)
    {
        *first = *rng.pick(&[0x00, 0x7f, 0x80, 0xff]);
    }
    out.extend(bytes);
    out
}

fn prefixes(rng: &mut Rng) -> Vec<u8> {
    let mut out = vec![];
    let n = rng.range(0, 2);
    out.extend(vec![0xff; n]);
    for _ in 0..=n {
        if rng.percent(50) {
            encode_atom(&mut out, &random_atom(rng));
        } else {
            out.extend(prefix_case(rng));
        }
    }
    out
}

fn path_prefixes(rng: &mut Rng) -> Vec<u8> {
    let mut out = vec![];
    let n = rng.range(0, 3);
    out.extend(vec![0xff; n]);
    for _ in 0..n {
        encode_atom(&mut out, &random_atom(rng));
    }
    out.push(0xfe);
    if rng.percent(30) {
        // a long all-zero or mostly zero path
        let size = *rng.pick(&[1, 62, 63, 64, 65, 200]);
        let mut path = vec![0; size];
        if rng.percent(60) {
            path[size - 1] = *rng.pick(&[1, 2, 3, 4, 6]);
        }
        encode_atom(&mut out, &path);
    } else {
        out.extend(prefix_case(rng));
    }
    out
}

fn nested(rng: &mut Rng, left: bool) -> Vec<u8> {
    let depth = *rng.pick(&[5, 50, 700, 4000]);
    let mut out = vec![];
    if left {
        out.extend(vec![0xff; depth]);
        out.push(0x80);
    }
    for i in 0..depth {
        if !left {
            out.push(0xff);
        }
        match rng.below(12) {
            0 => encode_atom(&mut out, b"foobar"),
            1 => {
                // far down the stack, or deep into the top
                let n = rng.below(if left { 1 } else { i }.min(300) + 1);
                out.push(0xfe);
                encode_atom(&mut out, &path_bytes(&vec![true; n], 0));
            }
            2 if left && i > 0 => {
                let n = rng.below(i.min(300)) + 1;
                out.push(0xfe);
                encode_atom(&mut out, &path_bytes(&vec![false; n], 0));
            }
            _ => encode_atom(&mut out, &[rng.byte()]),
        }
    }
    if !left {
        out.push(0x80);
    }
    out
}

fn nested_left(rng: &mut Rng) -> Vec<u8> {
    nested(rng, true)
}

fn nested_right(rng: &mut Rng) -> Vec<u8> {
    nested(rng, false)
}

fn big_atoms(rng: &mut Rng) -> Vec<u8> {
    let mut out = vec![];
    let n = rng.range(1, 4);
    out.extend(vec![0xff; n - 1]);
    for _ in 0..n {
        let size = *rng.pick(&[62, 63, 64, 65, 8190, 8191, 8192, 8193]);
        encode_atom(&mut out, &rng.bytes(size));
    }
    out
}

fn short(rng: &mut Rng) -> Vec<u8> {
    let n = rng.below(4);
    rng.bytes(n)
}

fn alphabet(rng: &mut Rng) -> Vec<u8> {
    let n = rng.range(4, 10);
    if rng.percent(50) {
        return (0..n).map(|_| *rng.pick(&LETTERS)).collect();
    }
    // as many leaves as pairs ask for
    let mut out = vec![0xff];
    let mut open = 2;
    while open > 0 && out.len() < 12 {
        match *rng.pick(&LETTERS) {
            0xff => {
                out.push(0xff);
                open += 1;
                continue;
            }
            0xfe => out.extend([0xfe, *rng.pick(&[0x00, 0x01, 0x02, 0x03, 0x04, 0x80])]),
            0x81 => out.extend([0x81, *rng.pick(&[0x7f, 0x80])]),
            b => out.push(b),
        }
        open -= 1;
    }
    out
}

fn random_bytes(rng: &mut Rng) -> Vec<u8> {
    let n = rng.range(4, 40);
    (0..n)
        .map(|_| match rng.below(4) {
            0 => 0xff,
            1 => 0xfe,
            2 => rng.byte() & 0x7f,
            _ => rng.byte(),
        })
        .collect()
}

fn some_tree(rng: &mut Rng) -> Vec<u8> {
    match rng.below(5) {
        0 => plain(rng),
        1 => stack_paths(rng),
        2 => leading_zeros(rng),
        3 => written(rng),
        _ => walks(rng),
    }
}

fn damaged(rng: &mut Rng) -> Vec<u8> {
    let mut tree = some_tree(rng);
    damage(rng, &mut tree);
    tree
}

fn truncated(rng: &mut Rng) -> Vec<u8> {
    let mut tree = some_tree(rng);
    let keep = rng.below(tree.len().max(1));
    tree.truncate(keep);
    tree
}

fn left_over(rng: &mut Rng) -> Vec<u8> {
    let mut tree = some_tree(rng);
    let n = rng.range(1, 3);
    tree.extend(rng.bytes(n));
    tree
}

/// 65,535 bytes, the most that question 2 lets through.
fn long(rng: &mut Rng) -> Vec<u8> {
    let n = MAX_INPUT;
    match rng.below(6) {
        // pairs of one-byte atoms, left or right
        0 => {
            let pairs = (n - 1) / 2;
            [vec![0xff; pairs], vec![*rng.pick(&[1, 0x80, 5]); pairs + 1]].concat()
        }
        1 => {
            let pairs = (n - 1) / 2;
            let mut out = vec![];
            for _ in 0..pairs {
                out.extend([0xff, 5]);
            }
            out.push(0x80);
            out
        }
        // only opening
        2 => vec![0xff; n],
        // one atom: e0 prefix of three bytes
        3 => {
            let size = n - 3;
            let mut out = vec![0xe0 | (size >> 16) as u8, (size >> 8) as u8, size as u8];
            out.extend(rng.bytes(size));
            out
        }
        // listed atoms of one byte: two bytes each, and a pair's byte
        4 => {
            let pairs = (n - 2) / 3;
            let mut out = vec![];
            for _ in 0..pairs {
                out.extend([0xff, 0x81, 0x80 | rng.byte()]);
            }
            // the last atom takes what is left
            let rest = n - out.len() - 1;
            encode_atom(&mut out, &vec![0x85; rest]);
            out
        }
        // references to the whole stack
        _ => {
            let pairs = (n - 2) / 3;
            let mut out = vec![];
            for _ in 0..pairs {
                out.extend([0xff, 0xfe, 0x01]);
            }
            let rest = n - out.len() - 1;
            encode_atom(&mut out, &vec![0x85; rest]);
            out
        }
    }
}

fn too_long(rng: &mut Rng) -> Vec<u8> {
    let mut out = long(rng);
    let n = *rng.pick(&[1, 1, 2]);
    out.extend(rng.bytes(n));
    out
}
