//! Kinds for the measures of a found path, which differ for paths of 512 bytes and more: x lies
//! below about 4,090 values of the stack, since one spine of pairs above the sentinel is added
//! again and again, and comes again on top of them. Its entry's length is the path's bytes and
//! 2, 3 or 4 more; with 3 more the reference is as long as what it stands for.

use super::Builder;
use crate::node::NIL;
use crate::rng::Rng;

/// The most values above the bottom one: 4,096 pairs are open then.
const MOST_ABOVE: usize = 4_095;

/// A tree whose length in full is `length`, over pairs that are shared.
fn doubled(b: &mut Builder, length: usize) -> u32 {
    match length {
        1 => b.small(5),
        2 => b.atom(&[0x85]),
        _ if length.is_multiple_of(2) => {
            let rest = doubled(b, length - 3);
            let two = b.atom(&[0x85]);
            b.pair(two, rest)
        }
        _ => {
            let half = doubled(b, length / 2);
            b.pair(half, half)
        }
    }
}

/// An atom whose length in full is `length`, 66 or more.
fn atom(b: &mut Builder, rng: &mut Rng, length: usize) -> u32 {
    b.list_atom(&[vec![0x81], rng.bytes(length - 3)].concat())
}

fn pair(b: &mut Builder, rng: &mut Rng, length: usize) -> u32 {
    let one = b.small(3);
    match rng.below(4) {
        0 => {
            let rest = atom(b, rng, length - 2);
            b.pair(one, rest)
        }
        1 => {
            let rest = atom(b, rng, length - 4);
            let two = b.pair(one, one);
            b.pair(rest, two)
        }
        _ => doubled(b, length),
    }
}

/// Pairs on either side of t.
fn deeper(b: &mut Builder, rng: &mut Rng, t: u32, depth: usize) -> u32 {
    (0..depth).fold(t, |t, i| {
        let other = b.small(100 + i as u32);
        match rng.percent(50) {
            true => b.pair(t, other),
            false => b.pair(other, t),
        }
    })
}

/// The spine's pairs, the first over the sentinel: pair i puts i + 1 values on the stack.
fn spine(b: &mut Builder, rng: &mut Rng, s: u32, length: usize) -> Vec<u32> {
    let value = *rng.pick(&[b.small(1), b.small(2), NIL]);
    let mut t = s;
    let mut pair = |_| {
        t = b.pair(value, t);
        t
    };
    (0..length).map(&mut pair).collect()
}

/// The trees of the spine that put `above` values on the stack.
fn adds(spine: &[u32], above: usize) -> Vec<u32> {
    let (whole, rest) = (above / spine.len(), above % spine.len());
    let mut all = vec![spine[spine.len() - 1]; whole];
    all.extend(rest.checked_sub(1).map(|i| spine[i]));
    all
}

/// A path of so many bytes, mostly next to 512: its bits.
fn bits(rng: &mut Rng) -> usize {
    let bytes = match rng.below(6) {
        0 => 511,
        1 | 2 => 512,
        3 => 513,
        _ => rng.range(514, 590),
    };
    8 * bytes - rng.below(8)
}

fn length(rng: &mut Rng, bits: usize) -> usize {
    bits.div_ceil(8) + *rng.pick(&[2, 3, 3, 3, 4])
}

/// As few bytes of file as there can be: fifteen adds put 4,087 values of the smallest spine above
/// x, whose path has 512 bytes then. A pair as x takes fewer bytes than an atom.
pub fn least(rng: &mut Rng) -> Vec<u8> {
    let mut b = Builder::default();
    let s = b.small(7);
    b.sentinel(s);
    let more = *rng.pick(&[2, 3, 4]);
    let x = if rng.percent(50) {
        atom(&mut b, rng, 512 + more)
    } else {
        // 511 bytes, and 2, 3 or 4
        let three = b.small(128);
        let rest = (0..7).fold(three, |t, _| b.pair(t, t));
        let last = [b.small(0x8000), three][more % 2];
        let last = if more == 2 { b.atom(&[0x85]) } else { last };
        b.pair(rest, last)
    };
    let spine = spine(&mut b, rng, s, 273);
    let first = b.pair(x, spine[4_087 - 14 * 273 - 1]);
    b.add(first);
    (0..14).for_each(|_| b.add(spine[272]));
    b.add(x);
    b.done()
}

/// x at the bottom of the stack, or deep in a tree there, and x again at last.
pub fn again(rng: &mut Rng, is_pair: bool) -> Vec<u8> {
    let mut b = Builder::default();
    let s = b.small(7);
    b.sentinel(s);
    let bits = bits(rng);
    let length = length(rng, bits);
    let x = match is_pair {
        false => atom(&mut b, rng, length),
        true => pair(&mut b, rng, length),
    };
    // a path has a bit for its end, one for each pair above x, one for the stack's place and
    // one for each value above that; a pair that is no reference may open no pair too many
    let most = MOST_ABOVE - rng.below(40);
    let depth = (bits - 2).saturating_sub(most).max(rng.below(60));
    let t = deeper(&mut b, rng, x, depth);
    let above = bits - 2 - depth;
    let long = *rng.pick(&[300, 400, 600, 1_000]).min(&(b.room() - 1));
    let spine = spine(&mut b, rng, s, long);
    let first = b.pair(t, s);
    b.add(first);
    adds(&spine, above).into_iter().for_each(|t| b.add(t));
    b.add(x);
    b.done()
}

/// 4,096 pairs are open, or nearly, and x is a pair: as no reference it gets 12.
pub fn open(rng: &mut Rng) -> Vec<u8> {
    let mut b = Builder::default();
    let s = b.small(7);
    b.sentinel(s);
    let above = MOST_ABOVE - rng.below(3);
    let depth = rng.below(100);
    let length = length(rng, above + depth + 2);
    let x = pair(&mut b, rng, length);
    let t = deeper(&mut b, rng, x, depth);
    let long = *rng.pick(&[300, 500, 800]);
    let spine = spine(&mut b, rng, s, long);
    let first = b.pair(t, s);
    b.add(first);
    adds(&spine, above).into_iter().for_each(|t| b.add(t));
    if rng.percent(50) {
        b.quote(x);
        b.take();
    } else {
        b.add(x);
    }
    b.done()
}

/// Several of them at the bottom, each of which comes again, in an add, a quote, a quote that is
/// taken, after a `02` and after a `03`; at times before an open place.
pub fn steps(rng: &mut Rng) -> Vec<u8> {
    let mut b = Builder::default();
    let s = b.small(7);
    b.sentinel(s);
    let count = rng.range(2, 4);
    // in the middle of a byte: some values more or less make no other
    let bits = 8 * *rng.pick(&[511, 512, 512, 512]) - 3;
    let xs: Vec<u32> = (0..count)
        .map(|_| {
            let length = length(rng, bits);
            match rng.percent(60) {
                true => atom(&mut b, rng, length),
                false => pair(&mut b, rng, length),
            }
        })
        .collect();
    let first = b.right(&xs, s);
    let bundles: Vec<u32> = xs.iter().map(|x| b.pair(*x, s)).collect();
    let long = *rng.pick(&[500, 700, 900]);
    let spine = spine(&mut b, rng, s, long);
    b.add(first);
    let mut added = 1;
    for t in adds(&spine, bits - 3 - count / 2) {
        match rng.below(6) {
            // taken back, and added after all
            0 => {
                b.add(t);
                b.undo(rng, 50, added);
                b.add(t);
            }
            1 => {
                b.quote(t);
                b.take();
            }
            2 => {
                b.quote(*rng.pick(&xs));
                b.add(t);
            }
            _ => b.add(t),
        }
        added += 1;
    }
    let start = added;
    for _ in 0..rng.range(2, 8) {
        let last = rng.percent(30);
        let h = *rng.pick(if last { &xs } else { &bundles });
        match rng.below(4) {
            0 => b.quote(h),
            1 => {
                b.add(h);
                added += 1;
            }
            _ => {
                b.quote(h);
                b.take();
                added += 1;
            }
        }
        // before all of them, or before the last one
        if added > start && (last || added > 14 || rng.percent(50)) {
            added = *rng.pick(&[start, added - 1]);
            b.undo(rng, 50, added);
        }
    }
    b.add(*rng.pick(&xs));
    b.done()
}
