//! The inputs that are compared, in sets.

use crate::sets::Set;
use oracle::generate::exhaustive::LETTERS;
use oracle::generate::trees::{encode_atom, path_bytes};
use oracle::generate::{any_tree, damage, tree};
use oracle::reading::MAX_INPUT;
use oracle::rng::Rng;

pub struct Input {
    pub bytes: Vec<u8>,
    /// In how many calls of its set one has the slices filled with rubbish and compared whole.
    pub whole_each: usize,
}

fn set(
    name: &'static str,
    size: usize,
    whole_each: usize,
    get: impl Fn(usize) -> Vec<u8> + Sync + 'static,
) -> Set<Input> {
    Set::new(name, size, move |i| Input {
        bytes: get(i),
        whole_each,
    })
}

/// The sets, the small ones first.
pub fn sets(generated: usize, seed: u64) -> Vec<Set<Input>> {
    let boundaries = boundaries();
    vec![
        set("at the boundaries of prefixes", boundaries.len(), 1, {
            move |i| boundaries[i].clone()
        }),
        set("of 65,534 to 65,537 bytes", 240, 1, move |i| {
            at_the_limit(&mut of(seed, 1, i), i)
        }),
        set("large", 2_000, 1, move |i| large(&mut of(seed, 2, i))),
        set("of up to 2 bytes", 1 + 256 + 65_536, 1, |i| match i {
            0 => vec![],
            1..=256 => bytes_of(i - 1, 1),
            _ => bytes_of(i - 257, 2),
        }),
        set("of 4 bytes over the alphabet", 20_736, 1, |i| letters(i, 4)),
        set("of 5 bytes over the alphabet", 248_832, 1, |i| {
            letters(i, 5)
        }),
        set("generated", generated, 1, move |i| {
            any_tree(&mut of(seed, 3, i)).1
        }),
        set("of 3 bytes", 1 << 24, 16, |i| bytes_of(i, 3)),
    ]
}

/// The inputs of 3 bytes whose first byte is one of these.
pub fn three(first: u8, last: u8) -> Set<Input> {
    let (first, last) = (first as usize, last as usize);
    let size = (last + 1).saturating_sub(first) << 16;
    set("of 3 bytes", size, 16, move |i| {
        bytes_of((first << 16) + i, 3)
    })
}

/// Each input has its own numbers.
fn of(seed: u64, set: u64, i: usize) -> Rng {
    Rng::new(
        seed.wrapping_mul(0x9e37_79b9_7f4a_7c15)
            .wrapping_add(set << 56)
            .wrapping_add(i as u64),
    )
}

fn bytes_of(i: usize, n: usize) -> Vec<u8> {
    i.to_be_bytes()[8 - n..].to_vec()
}

fn letters(i: usize, n: u32) -> Vec<u8> {
    (0..n).map(|k| LETTERS[i / 12_usize.pow(k) % 12]).collect()
}

/// The least size that each prefix width may carry; the last two widths are
/// never accepted.
const LEAST: [u64; 7] = [0, 64, 8_192, 1 << 20, 1 << 27, 1 << 34, 1 << 41];

/// A prefix of the width with the size, which is below the width's `top`.
fn prefix(width: usize, size: u64) -> Vec<u8> {
    let mut out = size.to_be_bytes()[8 - width..].to_vec();
    out[0] |= (0xff00_u32 >> width) as u8;
    out
}

/// Each width at its least size, one below and above it, and at its greatest;
/// with all bytes, one fewer, one more, none; and cut inside the prefix. As an
/// atom and as a path, alone and inside a tree.
fn boundaries() -> Vec<Vec<u8>> {
    let mut blobs = vec![];
    for width in 1..=7_usize {
        let top = 1 << (7 - width + 8 * (width - 1));
        let least = LEAST[width - 1];
        let near = [least.wrapping_sub(1), least, least + 1, least + 2, top - 1];
        let below = [0, 1, 2, 63, 64, 65, 511, 512, 8_191, 8_192, 8_193];
        for size in near.into_iter().chain(below).filter(|s| *s < top) {
            let start = prefix(width, size);
            for cut in 1..=width {
                blobs.push(start[..cut].to_vec());
            }
            let haves = if size > 60_000 {
                vec![0, 1, 5]
            } else {
                let n = size as usize;
                vec![n.saturating_sub(1), n, n + 1]
            };
            for have in haves {
                for first in [0x00, 0x01, 0x7f, 0x80, 0xff] {
                    let mut body = vec![0x80; have];
                    if let Some(b) = body.first_mut() {
                        *b = first;
                    }
                    blobs.push([start.clone(), body].concat());
                }
            }
        }
    }
    blobs.sort();
    blobs.dedup();
    let around: [(&[u8], &[u8]); 6] = [
        (&[], &[]),
        (&[0xff], &[0x80]),
        (&[0xff, 0x01], &[]),
        (&[0xfe], &[]),
        (&[0xff, 0x01, 0xfe], &[]),
        (&[0xff, 0xff, 0x05, 0xfe], &[0x06]),
    ];
    around
        .iter()
        .flat_map(|(before, after)| {
            blobs
                .iter()
                .map(move |b| [before, b.as_slice(), after].concat())
        })
        .collect()
}

/// A tree of 65,535 bytes, or one byte fewer, or one or two more.
fn at_the_limit(rng: &mut Rng, i: usize) -> Vec<u8> {
    let mut out = tree(rng.next(), "long").expect("a kind");
    if rng.percent(20) {
        damage(rng, &mut out);
    }
    let length = MAX_INPUT - 1 + i % 4;
    let fill = rng.byte();
    out.resize(length, fill);
    out
}

/// Deep trees, long paths, many references.
fn large(rng: &mut Rng) -> Vec<u8> {
    let mut out = vec![];
    match rng.below(4) {
        // a path of many zero bytes
        0 => {
            let mut path = vec![0; rng.range(1, 60_000)];
            *path.last_mut().expect("a byte") = *rng.pick(&[0, 1, 2, 3, 4, 6]);
            out.extend([0xff, 0x01, 0xfe]);
            encode_atom(&mut out, &path);
        }
        // deep to the left, and a walk down it
        1 => {
            let depth = rng.range(2, 20_000);
            out.extend(vec![0xff; depth]);
            out.push(0x05);
            out.extend(vec![0x06; depth - 1]);
            let mut steps = vec![false; near(rng, depth)];
            if rng.percent(30) {
                steps.push(true);
            }
            out.push(0xfe);
            encode_atom(&mut out, &path_bytes(&steps, rng.below(3)));
        }
        // deep to the right, and a walk down the stack
        2 => {
            let depth = rng.range(2, 20_000);
            for _ in 0..depth {
                out.extend([0xff, *rng.pick(&[0x05, 0x80, 0x00])]);
            }
            let mut steps = vec![true; near(rng, depth)];
            if rng.percent(60) {
                steps.push(false);
            }
            out.push(0xfe);
            encode_atom(&mut out, &path_bytes(&steps, rng.below(3)));
        }
        // references one after the other
        _ => {
            for _ in 0..rng.range(2, 2_000) {
                out.extend([0xff, 0xfe, *rng.pick(&[1, 1, 3, 2, 5, 7, 0x0b, 0x0d])]);
            }
            out.push(0x80);
        }
    }
    if rng.percent(20) {
        damage(rng, &mut out);
    }
    out
}

/// A number up to a few above `n`.
fn near(rng: &mut Rng, n: usize) -> usize {
    if rng.percent(50) {
        (n + 2).saturating_sub(rng.below(5))
    } else {
        rng.below(n + 1)
    }
}
