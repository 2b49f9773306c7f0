//! Kinds for the counts of a step: prefixes and paths at the bounds of their widths.

use super::{Builder, mark};
use crate::node::NIL;
use crate::rng::Rng;

/// Bytes of an atom next to a bound of its prefix's width.
const SIZES: &[usize] = &[1, 2, 63, 64, 65, 8_191, 8_192];
/// Values between the two places of an atom, next to a bound of its path's width: a path
/// over n values has n + 2 bits, the terminator included.
const BETWEEN: &[usize] = &[0, 4, 5, 6, 7, 13, 14, 500, 501, 502, 503, 504];

/// An atom: nil, a single byte, or listed with some size.
fn sized(b: &mut Builder, rng: &mut Rng, left: &mut usize) -> u32 {
    let size = *rng.pick(SIZES);
    match rng.below(8) {
        0 => NIL,
        1 => b.small(rng.below(128) as u32),
        2 => b.small(128),
        _ if size > *left => b.small(127),
        _ => {
            *left -= size;
            b.list_atom(&[vec![0x80 | rng.byte()], rng.bytes(size - 1)].concat())
        }
    }
}

/// Bundles with atoms of all sizes, twice with some values between; they are added, quoted,
/// taken, dropped, and taken back by `02` and by `03`, at times all of them at last.
pub fn widths(rng: &mut Rng) -> Vec<u8> {
    let mut b = Builder::default();
    let s = mark(&mut b);
    b.sentinel(s);
    let mut left = 20_000;
    let mut bundles = vec![];
    for _ in 0..rng.range(2, 6) {
        if b.room() < 16 {
            break;
        }
        let between = *rng.pick(BETWEEN);
        let between = if between + 8 > b.room() { 5 } else { between };
        let x = match rng.below(4) {
            0 => b.list_atom(&[vec![0x81], rng.bytes(99)].concat()),
            1 if between >= 500 => b.list_atom(&[vec![0x81], rng.bytes(79)].concat()),
            _ => sized(&mut b, rng, &mut left),
        };
        let value = b.small(rng.below(64) as u32);
        let end = b.pair(x, s);
        let list = b.right(&vec![value; between], end);
        bundles.push(b.pair(x, list));
    }
    let mut adds = 0;
    for _ in 0..rng.range(3, 16) {
        let h = *rng.pick(&bundles);
        match rng.below(7) {
            0 | 1 if adds < 16 => {
                b.add(h);
                adds += 1;
            }
            2 if adds < 16 => {
                b.quote(h);
                b.take();
                adds += 1;
            }
            3 | 4 if adds > 0 => {
                let k = adds - 1 - rng.below(adds.min(3));
                b.undo(rng, 50, k);
                adds = k;
            }
            _ if adds < 16 => b.quote(h),
            _ => (),
        }
    }
    if adds > 0 && rng.percent(30) {
        b.undo(rng, 50, 0);
    }
    b.done()
}

/// x in a pair that x's parents have no room for, so that x comes a second time in full: 13,
/// for a byte or for the whole of x, in an add or in a quote, or not.
pub fn twice(rng: &mut Rng) -> Vec<u8> {
    let mut b = Builder::default();
    let s = b.small(7);
    b.sentinel(s);
    let foobar = b.list_atom(b"foobar");
    let twin = b.pair(foobar, foobar);
    let bundle = b.pair(twin, s);
    let size = match rng.below(3) {
        0 => rng.range(32_740, 32_760),
        // x twice and what is around it are about 65,535 bytes
        _ => rng.range(32_376, 32_392),
    };
    let x = b.list_atom(&vec![0x80 | rng.byte(); size]);
    let lost = b.pair(x, b.small(5));
    let list = b.right(&[x; 250], s);
    let tree = b.pair(lost, list);
    for _ in 0..rng.range(0, 2) {
        b.add(bundle);
    }
    if rng.percent(50) {
        b.quote(bundle);
    }
    if rng.percent(50) {
        b.quote(tree);
        b.take();
    } else {
        b.add(tree);
    }
    b.done()
}
