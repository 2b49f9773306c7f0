//! Kinds for the step `03`, which forgets.

use super::{Builder, mark, recent};
use crate::node::{NIL, SMALL, handle};
use crate::rng::Rng;
use crate::session::MAX_STEPS;

/// With a sentinel that nothing else is.
fn begin() -> (Builder, u32) {
    let mut b = Builder::default();
    let s = mark(&mut b);
    b.sentinel(s);
    (b, s)
}

/// What a reference is made to.
fn referred(b: &mut Builder, rng: &mut Rng) -> u32 {
    let f = b.list_atom(b"foobar");
    if rng.percent(50) { f } else { b.pair(f, f) }
}

/// Hundreds of bundles are added and taken back, as to see whether they fit; then
/// one stays.
pub fn fit_tests(rng: &mut Rng) -> Vec<u8> {
    let (mut b, s) = begin();
    let atoms = rng.range(2, 10);
    let n = *rng.pick(&[0, 5, 20, 100]);
    let pool = b.pool(rng, atoms, n);
    let stay = rng.below(4);
    for _ in 0..stay {
        let depth = rng.range(1, 20);
        let t = b.spine(rng, &pool, s, depth);
        b.add(t);
    }
    // each with whether it leaves an open place
    let bundles: Vec<(u32, bool)> = (0..*rng.pick(&[1, 8, 60, 200]))
        .map(|_| {
            let open = rng.percent(80);
            let end = if open { s } else { recent(rng, &pool) };
            let depth = rng.range(1, 4);
            (b.spine(rng, &pool, end, depth), open)
        })
        .collect();
    let most = *rng.pick(&[40, 300, 600, MAX_STEPS - 3]);
    while b.0.steps.len() < most {
        let (bundle, open) = *rng.pick(&bundles);
        b.add(bundle);
        if open && rng.percent(15) {
            b.add(rng.pick(&bundles).0);
        }
        b.forget(stay);
    }
    b.add(rng.pick(&bundles).0);
    b.done()
}

/// Sessions that are finished, and go on before that.
pub fn finished(rng: &mut Rng) -> Vec<u8> {
    let (mut b, s) = begin();
    let atoms = rng.range(1, 8);
    let n = rng.range(0, 20);
    let pool = b.pool(rng, atoms, n);
    let mut adds = rng.range(1, 8);
    b.spine_adds(rng, &pool, s, adds);
    for _ in 0..rng.range(1, 5) {
        let k = rng.below(adds);
        b.forget(k);
        let more = rng.range(1, 5);
        b.spine_adds(rng, &pool, s, more);
        adds = k + more;
    }
    b.done()
}

/// x below p0, which is on the stack, and below a second pair. About 100 more handles
/// of that pair come in a tree that is taken back, and then again, and x after them.
pub fn twins(rng: &mut Rng) -> Vec<u8> {
    let (mut b, s) = begin();
    let x = referred(&mut b, rng);
    let p0 = b.pair(x, NIL);
    let twin = |b: &mut Builder| b.pair(x, handle(SMALL, 1));
    let second = twin(&mut b);
    let more = *rng.pick(&[60, 96, 97, 98, 99, 120]);
    let more: Vec<u32> = (0..more).map(|_| twin(&mut b)).collect();
    let list = b.right(&more, NIL);
    let t = b.pair(s, second);
    let first = b.pair(p0, t);
    b.add(first);
    b.add(list);
    b.undo(rng, 80, 1);
    let t = b.pair(s, list);
    b.add(t);
    b.add(x);
    b.done()
}

/// x below p0, which is on the stack and the first of its about 100 parents. x is put
/// at an open place, loses parents in front, and is taken back; x comes again.
pub fn front(rng: &mut Rng) -> Vec<u8> {
    let (mut b, s) = begin();
    let x = referred(&mut b, rng);
    let p0 = b.pair(x, NIL);
    let chain = *rng.pick(&[97, 98, 99, 100, 130]);
    let chain = (0..chain).fold(b.small(1), |t, _| b.pair(x, t));
    let t = b.pair(s, chain);
    let first = b.pair(p0, t);
    b.add(first);
    b.add(x);
    b.undo(rng, 80, 1);
    let other = b.small(5);
    let t = match rng.below(3) {
        0 => x,
        1 => b.pair(x, other),
        _ => b.pair(other, x),
    };
    b.add(t);
    b.done()
}

/// x is put at an open place, takes its parents, and is taken back; x comes again.
pub fn moved(rng: &mut Rng) -> Vec<u8> {
    let mut b = Builder::default();
    let s = *rng.pick(&[b.small(7), NIL]);
    b.sentinel(s);
    let x = referred(&mut b, rng);
    let mut pool = vec![x, x, b.small(1), b.small(2)];
    pool.push(b.pair(x, b.small(3)));
    for adds in 1..rng.range(2, 5) {
        // x after the open place, or before it; at times a second open place
        let depth = rng.range(1, 3);
        let t = b.spine(rng, &pool, s, depth);
        let t = match rng.below(4) {
            0 => b.pair(x, t),
            1 => b.pair(t, s),
            _ => b.pair(t, x),
        };
        b.add(t);
        for _ in 0..rng.range(1, 2) {
            b.add(if rng.percent(70) {
                x
            } else {
                recent(rng, &pool)
            });
            b.undo(rng, 80, adds);
        }
    }
    for _ in 0..rng.range(1, 3) {
        b.add(recent(rng, &pool));
    }
    b.done()
}

/// x has about 100 parents; a tree that is taken back has more, which overwrite some.
pub fn parents(rng: &mut Rng) -> Vec<u8> {
    let (mut b, s) = begin();
    let n = *rng.pick(&[6, 12, 40]);
    let x = b.list_atom(&[vec![0x81], rng.bytes(n)].concat());
    let side = rng.below(3);
    let mut number = 0;
    let mut above_x = |b: &mut Builder, n: usize| -> Vec<u32> {
        let pair = |_| {
            number += 1;
            let other = handle(SMALL, number);
            if side == 0 || side == 1 && number % 2 == 0 {
                b.pair(x, other)
            } else {
                b.pair(other, x)
            }
        };
        (0..n).map(pair).collect()
    };
    let made = above_x(&mut b, *rng.pick(&[90, 99, 100, 101, 130]));
    let first = b.right(&made, s);
    let more = above_x(&mut b, *rng.pick(&[1, 12, 40, 120]));
    let end = *rng.pick(&[s, x, NIL]);
    let again = b.right(&more, end);
    b.add(first);
    for _ in 0..rng.range(1, 2) {
        b.add(again);
        b.undo(rng, 80, 1);
    }
    let mut items: Vec<u32> = (0..rng.range(1, 20)).map(|_| *rng.pick(&made)).collect();
    items.insert(0, x);
    let t = b.right(&items, x);
    b.add(t);
    b.done()
}

/// Hundreds of handles of (S . S) and (S . foobar), each added once; then steps back
/// and adds among so many entries.
pub fn many_entries(rng: &mut Rng) -> Vec<u8> {
    let mut b = Builder::default();
    let s = *rng.pick(&[b.small(7), NIL]);
    b.sentinel(s);
    let foobar = b.list_atom(b"foobar");
    let mut adds = 0;
    for _ in 0..*rng.pick(&[50, 500, 950]) {
        if adds == 16 {
            adds = rng.below(2);
            b.restore(adds);
        } else {
            let other = *rng.pick(&[s, s, foobar]);
            let p = b.pair(s, other);
            b.add(p);
            adds += 1;
        }
    }
    for _ in 0..rng.range(10, 60) {
        if adds == 16 || adds > 1 && rng.percent(30) {
            adds = rng.below(adds);
            b.undo(rng, 70, adds);
        } else {
            let p = if rng.percent(50) {
                b.pair(s, foobar)
            } else {
                b.pair(foobar, s)
            };
            b.add(p);
            adds += 1;
        }
    }
    if adds > 14 || adds > 0 && rng.percent(50) {
        let k = rng.below(adds.min(14));
        b.forget(k);
    }
    let t = b.pair(foobar, s);
    b.add(t);
    b.add(foobar);
    b.done()
}

/// The last number is the count of adds, one more, or far more. Those before it are
/// below the count, at times by one.
pub fn refused_11(rng: &mut Rng) -> Vec<u8> {
    let (mut b, s) = begin();
    let pool = b.pool(rng, 4, 4);
    let adds = rng.range(0, 4);
    if adds > 0 {
        b.spine_adds(rng, &pool, s, adds);
    }
    let mut count = adds;
    while count > 0 && rng.percent(60) {
        count = if rng.percent(50) {
            count - 1
        } else {
            rng.below(count)
        };
        b.undo(rng, 70, count);
    }
    b.forget(*rng.pick(&[count, count + 1, count + 256, 1000, 65_535]));
    b.done()
}

/// A number that the file's end cuts off.
pub fn refused_4(rng: &mut Rng) -> Vec<u8> {
    let mut file = super::undo(rng, 70);
    file.push(3);
    if rng.percent(50) {
        file.push(0);
    }
    file
}
