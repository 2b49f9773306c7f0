//! Kinds for the steps `04` and `05`, which quote an add and take it.

use super::{Builder, forgets, mark, recent};
use crate::node::{ATOM, NIL, NONE, PAIR, handle};
use crate::rng::Rng;
use crate::session::{self, MAX_ATOM_BYTES, MAX_STEPS, Step};

/// With a sentinel that nothing else is, or that is nil or a small atom.
fn begin(rng: &mut Rng) -> (Builder, u32) {
    let mut b = Builder::default();
    let s = match rng.below(3) {
        0 => mark(&mut b),
        1 => b.small(7),
        _ => NIL,
    };
    b.sentinel(s);
    (b, s)
}

/// The same trees with other steps: an add that is taken back right after it is mostly
/// a quote that is dropped, another add at times a quote and its taking, and quotes of
/// the trees that are added come before adds.
pub fn quoting(rng: &mut Rng, file: &[u8]) -> Vec<u8> {
    let Ok(mut s) = session::parse(file) else {
        return file.to_vec();
    };
    let steps = std::mem::take(&mut s.steps);
    let added = |step: &Step| match *step {
        Step::Add(h) => Some(h),
        _ => None,
    };
    let trees: Vec<u32> = steps.iter().filter_map(added).collect();
    let more = *rng.pick(&[0, 0, 10, 40]);
    let mut adds = 0_usize;
    let mut i = 0;
    while i < steps.len() && s.steps.len() + 3 < MAX_STEPS {
        let step = steps[i];
        i += 1;
        if added(&step).is_some() && rng.percent(more) {
            s.steps.push(Step::Quote(*rng.pick(&trees)));
        }
        match (step, steps.get(i)) {
            (Step::Add(h), Some(Step::Restore(k) | Step::Forget(k)))
                if usize::from(*k) == adds && rng.percent(80) =>
            {
                i += 1;
                s.steps.push(Step::Quote(h));
            }
            (Step::Add(h), _) if rng.percent(40) => {
                s.steps.extend([Step::Quote(h), Step::Take]);
                adds += 1;
            }
            _ => {
                s.steps.push(step);
                match step {
                    Step::Restore(k) | Step::Forget(k) => adds = k.into(),
                    _ => adds += 1,
                }
            }
        }
    }
    s.to_bytes()
}

/// Adds by `01` and by `04` and `05`, quotes that are dropped, and steps back in so many
/// of 100, of `02` and `03`. At times the last step is one that is refused.
pub fn quotes(rng: &mut Rng, undos: usize) -> Vec<u8> {
    let (mut b, s) = begin(rng);
    let n = rng.range(0, 8);
    let mut pool = b.pool(rng, 3, n);
    pool.push(b.list_atom(b"foobar"));
    let mut trees: Vec<u32> = (0..rng.range(1, 6))
        .map(|_| {
            let depth = rng.range(1, 5);
            b.spine(rng, &pool, s, depth)
        })
        .collect();
    trees.push(s);
    let forgets = *rng.pick(&[0, 50, 100]);
    let mut adds = 0;
    let mut finished = false;
    for _ in 0..rng.range(2, 24) {
        if adds > 0 && rng.percent(if finished { 95 } else { undos }) {
            if undos == 0 {
                break;
            }
            adds = rng.below(adds);
            b.undo(rng, forgets, adds);
            finished = false;
            continue;
        }
        let last = rng.percent(20);
        let tree = if last {
            recent(rng, &pool)
        } else {
            *rng.pick(&trees)
        };
        match rng.below(4) {
            0 => b.quote(tree),
            1 => {
                b.add(tree);
                (adds, finished) = (adds + 1, last);
            }
            _ => {
                b.quote(tree);
                b.take();
                (adds, finished) = (adds + 1, last);
            }
        }
    }
    if !finished {
        b.quote(*rng.pick(&trees));
        b.take();
        let last = recent(rng, &pool);
        b.quote(last);
        if rng.percent(70) {
            b.take();
        }
    }
    b.done()
}

/// Several bundles are quoted, and the last one quoted, or one that is quoted again, is
/// taken; up to 1,024 steps.
pub fn tests(rng: &mut Rng) -> Vec<u8> {
    let mut b = Builder::default();
    let s = mark(&mut b);
    b.sentinel(s);
    let atoms = rng.range(2, 10);
    let n = *rng.pick(&[0, 5, 20, 100]);
    let pool = b.pool(rng, atoms, n);
    let bundles: Vec<u32> = (0..*rng.pick(&[1, 8, 60, 200]))
        .map(|_| {
            let end = if rng.percent(80) {
                s
            } else {
                recent(rng, &pool)
            };
            let depth = rng.range(1, 4);
            b.spine(rng, &pool, end, depth)
        })
        .collect();
    let most = *rng.pick(&[40, 300, MAX_STEPS - 40, MAX_STEPS]);
    let rounds = rng.range(1, 12);
    for _ in 0..rounds {
        let until = (b.0.steps.len() + most / rounds).min(MAX_STEPS - 3);
        while b.0.steps.len() < until {
            b.quote(*rng.pick(&bundles));
        }
        let depth = rng.range(1, 4);
        let t = b.spine(rng, &pool, s, depth);
        match rng.below(4) {
            0 => b.add(t),
            1 => {
                b.quote(t);
                b.take();
            }
            // the same tree is quoted and then added
            2 => {
                b.quote(t);
                b.add(t);
            }
            _ => {
                b.quote(t);
                b.quote(t);
                b.take();
            }
        }
    }
    while b.0.steps.len() < most {
        b.quote(*rng.pick(&bundles));
    }
    b.done()
}

/// Quotes of trees that leave no open place: the session goes on unless one is taken.
pub fn finished(rng: &mut Rng) -> Vec<u8> {
    let (mut b, s) = begin(rng);
    let atoms = rng.range(1, 8);
    let n = rng.range(0, 20);
    let pool = b.pool(rng, atoms, n);
    for _ in 0..rng.range(1, 6) {
        for _ in 0..rng.below(3) {
            b.quote(recent(rng, &pool));
        }
        let depth = rng.range(1, 5);
        let t = b.spine(rng, &pool, s, depth);
        if rng.percent(50) {
            b.add(t);
        } else {
            b.quote(t);
            b.take();
        }
    }
    b.quote(recent(rng, &pool));
    match rng.below(4) {
        0 => (),
        1 => {
            b.take();
            b.undo(rng, 50, 0);
            b.quote(recent(rng, &pool));
        }
        2 => {
            b.take();
            match rng.below(4) {
                0 => b.add(s),
                1 => b.quote(s),
                2 => b.take(),
                _ => b.restore(16),
            }
        }
        _ => b.take(),
    }
    b.done()
}

pub fn twins(rng: &mut Rng) -> Vec<u8> {
    let file = forgets::twins(rng);
    quoting(rng, &file)
}

pub fn moved(rng: &mut Rng) -> Vec<u8> {
    let file = forgets::moved(rng);
    quoting(rng, &file)
}

pub fn front(rng: &mut Rng) -> Vec<u8> {
    let file = forgets::front(rng);
    quoting(rng, &file)
}

pub fn parents(rng: &mut Rng) -> Vec<u8> {
    let file = forgets::parents(rng);
    quoting(rng, &file)
}

pub fn deep(rng: &mut Rng) -> Vec<u8> {
    let file = super::deep_undo(rng, 70);
    quoting(rng, &file)
}

pub fn many_steps(rng: &mut Rng) -> Vec<u8> {
    let file = super::many_steps(rng, 70);
    quoting(rng, &file)
}

pub fn many_entries(rng: &mut Rng) -> Vec<u8> {
    let file = forgets::many_entries(rng);
    quoting(rng, &file)
}

pub fn sixteen(rng: &mut Rng) -> Vec<u8> {
    let file = super::sixteen_adds(rng);
    quoting(rng, &file)
}

/// A small session with quotes, for faults.
pub fn small(rng: &mut Rng) -> Vec<u8> {
    let undos = *rng.pick(&[0, 30]);
    quotes(rng, undos)
}

/// A handle that the file's end cuts off.
pub fn refused_4(rng: &mut Rng) -> Vec<u8> {
    let mut file = small(rng);
    file.push(4);
    file.extend(&[8, 0, 0][..rng.below(4)]);
    file
}

/// A `04` with a handle that names nothing.
pub fn refused_7(rng: &mut Rng) -> Vec<u8> {
    let mut file = small(rng);
    file.push(4);
    let bad = *rng.pick(&[handle(PAIR, 900), handle(ATOM, 900), handle(3, 0), NONE]);
    file.extend(bad.to_be_bytes());
    if rng.percent(50) {
        file.push(5);
    }
    file
}

/// A quote, or several, when the session is finished.
pub fn refused_9(rng: &mut Rng) -> Vec<u8> {
    let (mut b, s) = begin(rng);
    let pool = b.pool(rng, 4, 4);
    for _ in 0..rng.below(3) {
        let depth = rng.range(1, 4);
        let t = b.spine(rng, &pool, s, depth);
        b.add(t);
    }
    let depth = rng.range(1, 3);
    let one = b.small(1);
    let last = b.spine(rng, &[one], one, depth);
    b.quote(last);
    if rng.percent(50) {
        b.take();
    } else {
        b.add(last);
    }
    b.quote(*rng.pick(&[pool[0], s, last]));
    b.take();
    b.done()
}

/// More than 16 adds, of both forms, and quotes before and after the 16th.
pub fn refused_10(rng: &mut Rng) -> Vec<u8> {
    let (mut b, s) = begin(rng);
    let foobar = b.list_atom(b"foobar");
    let trees = [s, b.pair(foobar, s), b.pair(s, foobar)];
    let mut adds = 0;
    while adds < 16 {
        let tree = *rng.pick(&trees);
        match rng.below(8) {
            0 if adds > 0 => {
                adds -= rng.range(1, adds.min(2));
                b.undo(rng, 50, adds);
            }
            0 | 1 => b.quote(tree),
            2..5 => {
                b.add(tree);
                adds += 1;
            }
            _ => {
                b.quote(tree);
                b.take();
                adds += 1;
            }
        }
    }
    if rng.percent(30) {
        let k = rng.below(16);
        b.undo(rng, 50, k);
        for _ in k..16 {
            b.quote(s);
            b.take();
        }
    }
    b.quote(*rng.pick(&trees));
    b.take();
    b.done()
}

/// 4,096 pairs are open before the quote's `ff`, its first or a later one.
pub fn refused_12(rng: &mut Rng) -> Vec<u8> {
    let mut b = Builder::default();
    let left = rng.percent(50);
    let inside = rng.below(4);
    super::open_chain(&mut b, rng, 4096 - inside, left);
    // chain pair i opens i + 1 pairs
    let t = handle(PAIR, rng.range(inside, inside + 3) as u32);
    if rng.percent(50) {
        b.quote(b.small(5));
    }
    b.quote(t);
    b.take();
    b.done()
}

/// As `refused-13`, with a quote of what doesn't fit after items that do.
pub fn refused_13(rng: &mut Rng) -> Vec<u8> {
    let mut b = Builder::default();
    let s = b.small(7);
    b.sentinel(s);
    let big = b.list_atom(&vec![0x80 | rng.byte(); MAX_ATOM_BYTES]);
    let items: Vec<u32> = (0..1000).map(|i| b.small(0x100_0000 + i)).collect();
    let list = b.right(&items, s);
    let x = b.pair(list, s);
    for _ in 0..6 {
        b.add(x);
        b.add(b.small(1));
    }
    let (one, two) = (b.small(1), b.small(2));
    let t = match rng.below(3) {
        0 => big,
        1 => b.pair(one, big),
        _ => b.right(&[one, two, big], s),
    };
    b.quote(two);
    b.quote(t);
    b.take();
    b.done()
}

/// A `05` with no quote open: at first, after another step, after a quote that such a
/// step dropped, and twice.
pub fn refused_17(rng: &mut Rng) -> Vec<u8> {
    let (mut b, s) = begin(rng);
    let foobar = b.list_atom(b"foobar");
    let trees = [s, b.pair(foobar, s), b.pair(s, foobar)];
    let adds = rng.below(4);
    for _ in 0..adds {
        let tree = *rng.pick(&trees);
        if rng.percent(50) {
            b.add(tree);
        } else {
            b.quote(tree);
            b.take();
        }
    }
    if rng.percent(80) {
        b.quote(*rng.pick(&[s, trees[1], foobar]));
    }
    match rng.below(6) {
        0 | 5 => b.add(*rng.pick(&[trees[1], trees[2], foobar])),
        1 if adds > 0 => b.restore(rng.below(adds)),
        2 if adds > 0 => b.forget(rng.below(adds)),
        3 => {
            b.quote(trees[1]);
            b.take();
        }
        4 => b.take(),
        _ => (),
    }
    b.take();
    if rng.percent(70) {
        b.take();
    }
    b.done()
}
