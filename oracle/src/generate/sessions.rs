//! Session files.

mod counts;
mod forgets;
mod measures;
mod quotes;

use super::{Kind, damage};
use crate::node::{ATOM, NIL, NONE, PAIR, SMALL, handle};
use crate::rng::Rng;
use crate::session::{
    self, MAX_ATOM_BYTES, MAX_ATOMS, MAX_FILE, MAX_OUTPUT, MAX_PAIRS, MAX_STEPS, SessionFile, Step,
};
use clvm_rs::allocator::fits_in_small_atom;

/// The kinds made for the measures of a found path.
pub const MEASURES: [&str; 5] = [
    "measure-least",
    "measure-atoms",
    "measure-pairs",
    "measure-steps",
    "measure-open",
];

pub const KINDS: &[Kind] = &[
    ("tiny", 300, tiny),
    ("shared", 300, shared),
    ("right-list", 40, right_list),
    ("left-list", 40, left_list),
    ("lists", 60, lists),
    ("doubling", 40, doubling),
    ("sentinel-pair", 60, sentinel_pair),
    ("sentinel-atom", 60, sentinel_atom),
    ("sentinel-small", 60, sentinel_small),
    ("sentinel-nil", 60, sentinel_nil),
    ("sentinel-none", 30, sentinel_none),
    ("sentinel-many", 80, sentinel_many),
    ("sentinel-twin", 40, sentinel_twin),
    ("sentinel-added", 40, sentinel_added),
    ("premise-broken", 80, premise_broken),
    ("restores", 200, |rng| undo(rng, 0)),
    ("forgets", 200, |rng| undo(rng, 100)),
    ("undo-mixed", 200, |rng| undo(rng, 50)),
    ("fit-tests", 4, forgets::fit_tests),
    ("forgets-finished", 80, forgets::finished),
    ("forgets-twins", 60, forgets::twins),
    ("forgets-moved", 80, forgets::moved),
    ("forgets-front", 20, forgets::front),
    ("forgets-parents", 20, forgets::parents),
    ("quotes", 200, |rng| quotes::quotes(rng, 0)),
    ("quotes-undo", 200, |rng| quotes::quotes(rng, 30)),
    ("quote-tests", 4, quotes::tests),
    ("quotes-finished", 80, quotes::finished),
    ("quotes-twins", 60, quotes::twins),
    ("quotes-moved", 80, quotes::moved),
    ("quotes-front", 20, quotes::front),
    ("quotes-parents", 20, quotes::parents),
    ("deep-restores", 6, |rng| deep_undo(rng, 0)),
    ("deep-forgets", 6, |rng| deep_undo(rng, 70)),
    ("deep-quotes", 6, quotes::deep),
    ("many-steps", 4, |rng| many_steps(rng, 0)),
    ("many-forgets", 4, |rng| many_steps(rng, 70)),
    ("many-quotes", 4, quotes::many_steps),
    ("many-entries", 1, many_entries),
    ("many-entries-undo", 1, forgets::many_entries),
    ("many-entries-quotes", 1, quotes::many_entries),
    ("twins", 80, twins),
    ("parents", 20, parents),
    ("parents-moved", 10, parents_moved),
    ("visits", 2, visits),
    ("visits-wide", 2, visits_wide),
    ("long-paths", 6, long_paths),
    ("far-stack", 2, far_stack),
    ("far-deep", 2, far_deep),
    ("measure-least", 2, measures::least),
    ("measure-atoms", 4, |rng| measures::again(rng, false)),
    ("measure-pairs", 4, |rng| measures::again(rng, true)),
    ("measure-steps", 6, measures::steps),
    ("measure-open", 2, measures::open),
    ("atom-sizes", 8, atom_sizes),
    ("counts-widths", 20, counts::widths),
    ("counts-twice", 1, counts::twice),
    ("open-pairs", 2, |rng| open_pairs(rng, 0)),
    ("forgets-open", 2, |rng| open_pairs(rng, 100)),
    ("sixteen-adds", 30, sixteen_adds),
    ("sixteen-quotes", 30, quotes::sixteen),
    ("full-output", 1, full_output),
    ("over-output", 1, over_output),
    ("keys", 20, keys),
    ("limits", 6, limits),
    ("random", 20, random_bytes),
    ("mutated", 200, |rng| mutated(rng, Small::Any)),
    ("damaged", 100, |rng| damaged(rng, Small::Any)),
    ("truncated", 100, |rng| truncated(rng, Small::Any)),
    ("faults", 60, |rng| faults(rng, Small::Any)),
    ("forgets-mutated", 200, |rng| mutated(rng, Small::Forgets)),
    ("forgets-damaged", 60, |rng| damaged(rng, Small::Forgets)),
    ("forgets-truncated", 60, |rng| {
        truncated(rng, Small::Forgets)
    }),
    ("forgets-faults", 40, |rng| faults(rng, Small::Forgets)),
    ("quotes-mutated", 200, |rng| mutated(rng, Small::Quotes)),
    ("quotes-damaged", 60, |rng| damaged(rng, Small::Quotes)),
    ("quotes-truncated", 60, |rng| truncated(rng, Small::Quotes)),
    ("quotes-faults", 40, |rng| faults(rng, Small::Quotes)),
    ("refused-2", 1, refused_2),
    ("refused-3", 10, refused_3),
    ("refused-4", 20, refused_4),
    ("refused-5", 4, refused_5),
    ("refused-6", 20, refused_6),
    ("refused-7", 40, refused_7),
    ("refused-8", 20, refused_8),
    ("refused-9", 20, refused_9),
    ("refused-10", 10, refused_10),
    ("refused-11", 20, refused_11),
    ("forgets-11", 40, forgets::refused_11),
    ("forgets-4", 10, forgets::refused_4),
    ("quotes-4", 10, quotes::refused_4),
    ("quotes-7", 10, quotes::refused_7),
    ("quotes-9", 20, quotes::refused_9),
    ("quotes-10", 20, quotes::refused_10),
    ("quotes-12", 1, quotes::refused_12),
    ("quotes-13", 1, quotes::refused_13),
    ("quotes-17", 60, quotes::refused_17),
    ("refused-12", 1, refused_12),
    ("refused-13", 1, refused_13),
    ("short-10", 10, |rng| short_10(rng, 0)),
    ("forgets-10", 10, |rng| short_10(rng, 70)),
    ("short-12", 4, short_12),
];

/// A session file under construction.
#[derive(Default, Clone)]
pub struct Builder(SessionFile);

impl Builder {
    pub fn small(&self, v: u32) -> u32 {
        handle(SMALL, v)
    }

    /// A new listed atom. The bytes must not fit a small one.
    pub fn list_atom(&mut self, bytes: &[u8]) -> u32 {
        assert!(fits_in_small_atom(bytes).is_none());
        self.0.atoms.push(bytes.to_vec());
        handle(ATOM, self.0.atoms.len() as u32 - 1)
    }

    /// A small atom, the listed atom with these bytes, or a new one.
    fn atom(&mut self, bytes: &[u8]) -> u32 {
        if let Some(v) = fits_in_small_atom(bytes) {
            return self.small(v);
        }
        match self.0.atoms.iter().position(|a| a == bytes) {
            Some(i) => handle(ATOM, i as u32),
            None => self.list_atom(bytes),
        }
    }

    fn room(&self) -> usize {
        MAX_PAIRS - self.0.pairs.len()
    }

    pub fn pair(&mut self, left: u32, right: u32) -> u32 {
        self.0.pairs.push((left, right));
        handle(PAIR, self.0.pairs.len() as u32 - 1)
    }

    /// (i0 . (i1 . .. (in . end)))
    pub fn right(&mut self, items: &[u32], end: u32) -> u32 {
        items.iter().rev().fold(end, |t, i| self.pair(*i, t))
    }

    /// (((end . in) .. ) . i0)
    pub fn left(&mut self, items: &[u32], end: u32) -> u32 {
        items.iter().rev().fold(end, |t, i| self.pair(t, *i))
    }

    pub fn sentinel(&mut self, h: u32) {
        self.0.sentinel = Some(h);
    }

    pub fn add(&mut self, h: u32) {
        self.0.steps.push(Step::Add(h));
    }

    pub fn restore(&mut self, k: usize) {
        self.0.steps.push(Step::Restore(k as u16));
    }

    pub fn forget(&mut self, k: usize) {
        self.0.steps.push(Step::Forget(k as u16));
    }

    pub fn quote(&mut self, h: u32) {
        self.0.steps.push(Step::Quote(h));
    }

    pub fn take(&mut self) {
        self.0.steps.push(Step::Take);
    }

    /// An undo step: a `03` in `forgets` of 100, else a `02`. With 0 nothing is drawn.
    fn undo(&mut self, rng: &mut Rng, forgets: usize, k: usize) {
        if forgets > 0 && rng.percent(forgets) {
            self.forget(k);
        } else {
            self.restore(k);
        }
    }

    pub fn done(self) -> Vec<u8> {
        self.0.to_bytes()
    }

    /// A few distinct atoms of mixed sizes.
    fn atoms(&mut self, rng: &mut Rng, n: usize) -> Vec<u32> {
        (0..n)
            .map(|_| match rng.below(8) {
                0 => NIL,
                1 => self.small(rng.below(256) as u32),
                2 => self.small((rng.next() as u32 & 0x3ff_ffff) >> rng.below(20)),
                3 => self.atom(b"foobar"),
                4 => self.atom(&[0x80 | rng.byte()]),
                _ => {
                    let n = *rng.pick(&[1, 2, 3, 4, 5, 6, 8, 20, 32, 48]);
                    let bytes = rng.bytes(n);
                    self.atom(&bytes)
                }
            })
            .collect()
    }

    /// A pool of handles without the sentinel: atoms, and `n` pairs over
    /// them that share subtrees.
    pub fn pool(&mut self, rng: &mut Rng, atoms: usize, n: usize) -> Vec<u32> {
        let mut pool = self.atoms(rng, atoms);
        for _ in 0..n.min(self.room()) {
            let left = recent(rng, &pool);
            let right = if rng.percent(15) {
                left
            } else {
                recent(rng, &pool)
            };
            pool.push(self.pair(left, right));
        }
        pool
    }

    /// A tree with `end` once, under `n` pairs of its own.
    fn spine(&mut self, rng: &mut Rng, pool: &[u32], end: u32, n: usize) -> u32 {
        let mut t = end;
        for _ in 0..n.min(self.room()) {
            let side = recent(rng, pool);
            t = if rng.percent(50) {
                self.pair(side, t)
            } else {
                self.pair(t, side)
            };
        }
        t
    }

    /// `n` adds: all but the last hold `end` once.
    fn spine_adds(&mut self, rng: &mut Rng, pool: &[u32], end: u32, n: usize) {
        for _ in 1..n {
            let depth = rng.range(1, 6);
            let t = self.spine(rng, pool, end, depth);
            self.add(t);
        }
        if rng.percent(50) {
            let depth = rng.range(1, 6);
            let last = *rng.pick(pool);
            let t = self.spine(rng, pool, last, depth);
            self.add(t);
        } else {
            self.add(recent(rng, pool));
        }
    }
}

/// Mostly one of the last made.
fn recent(rng: &mut Rng, pool: &[u32]) -> u32 {
    if rng.percent(60) {
        pool[pool.len() - 1 - rng.below(pool.len().min(6))]
    } else {
        *rng.pick(pool)
    }
}

/// A listed atom that nothing else uses.
fn mark(b: &mut Builder) -> u32 {
    b.list_atom(b"\xff sentinel")
}

/// Up to three pairs over nil, foobar and the sentinel, up to three adds.
fn tiny(rng: &mut Rng) -> Vec<u8> {
    let mut b = Builder::default();
    let foobar = b.list_atom(b"foobar");
    let s = *rng.pick(&[NIL, foobar, b.small(7), handle(PAIR, 0), NONE]);
    let mut pool = vec![NIL, foobar, foobar];
    if s != NONE && s != handle(PAIR, 0) {
        pool.extend([s, s]);
    }
    for _ in 0..rng.range(1, 4) {
        let (l, r) = (*rng.pick(&pool), *rng.pick(&pool));
        pool.push(b.pair(l, r));
    }
    b.0.sentinel = (s != NONE).then_some(s);
    let mut adds = 0;
    for _ in 0..rng.range(1, 5) {
        if adds > 0 && rng.percent(15) {
            let k = rng.below(adds);
            b.restore(k);
            adds = k;
        } else {
            b.add(*rng.pick(&pool));
            adds += 1;
        }
    }
    b.done()
}

fn shared(rng: &mut Rng) -> Vec<u8> {
    let mut b = Builder::default();
    let s = mark(&mut b);
    b.sentinel(s);
    let atoms = rng.range(1, 12);
    let n = *rng.pick(&[3, 8, 20, 60, 200]);
    let n = rng.range(1, n);
    let pool = b.pool(rng, atoms, n);
    let adds = rng.range(1, 10);
    b.spine_adds(rng, &pool, s, adds);
    b.done()
}

fn list_items(b: &mut Builder, rng: &mut Rng) -> Vec<u32> {
    let atoms = rng.range(1, 40);
    let n = rng.range(0, 20);
    let pool = b.pool(rng, atoms, n);
    let n = *rng.pick(&[5, 30, 120, 400]);
    let n = rng.range(1, n);
    (0..n).map(|_| *rng.pick(&pool)).collect()
}

fn long_list(rng: &mut Rng, left: bool) -> Vec<u8> {
    let mut b = Builder::default();
    let s = mark(&mut b);
    b.sentinel(s);
    for last in [false, true] {
        let items = list_items(&mut b, rng);
        let end = if last { NIL } else { s };
        let t = if left {
            b.left(&items, end)
        } else {
            b.right(&items, end)
        };
        b.add(t);
    }
    b.done()
}

fn right_list(rng: &mut Rng) -> Vec<u8> {
    long_list(rng, false)
}

fn left_list(rng: &mut Rng) -> Vec<u8> {
    long_list(rng, true)
}

/// Lists of lists, with shared tails.
fn lists(rng: &mut Rng) -> Vec<u8> {
    let mut b = Builder::default();
    let s = mark(&mut b);
    b.sentinel(s);
    let mut pool = b.atoms(rng, 8);
    for _ in 0..rng.range(1, 12) {
        let n = rng.range(1, 6);
        let items: Vec<u32> = (0..n).map(|_| recent(rng, &pool)).collect();
        let end = if rng.percent(30) {
            *rng.pick(&pool)
        } else {
            NIL
        };
        let t = if rng.percent(70) {
            b.right(&items, end)
        } else {
            b.left(&items, end)
        };
        pool.push(t);
    }
    let adds = rng.range(1, 6);
    b.spine_adds(rng, &pool, s, adds);
    b.done()
}

/// (d . d) over and over: sums of lengths reach 2^64 - 1.
fn doubling(rng: &mut Rng) -> Vec<u8> {
    let mut b = Builder::default();
    let s = mark(&mut b);
    b.sentinel(s);
    let mut d = b.atom(b"foobar");
    let mut pool = vec![d];
    for _ in 0..*rng.pick(&[3, 10, 61, 62, 63, 80, 150]) {
        d = if rng.percent(90) {
            b.pair(d, d)
        } else {
            b.pair(d, *rng.pick(&pool))
        };
        pool.push(d);
    }
    let t = b.pair(d, s);
    if rng.percent(50) {
        b.add(t);
    }
    let top = recent(rng, &pool);
    let t = b.pair(top, d);
    b.add(t);
    b.done()
}

fn with_sentinel(rng: &mut Rng, sentinel: impl Fn(&mut Builder, &mut Rng) -> u32) -> Vec<u8> {
    let mut b = Builder::default();
    let s = sentinel(&mut b, rng);
    b.sentinel(s);
    let atoms = rng.range(1, 8);
    let n = rng.range(0, 15);
    let mut pool = b.pool(rng, atoms, n);
    if rng.percent(30) {
        // the sentinel's handle inside the shared part
        pool.push(s);
        let t = b.spine(rng, &pool.clone(), s, 3);
        pool.push(t);
    }
    let adds = rng.range(1, 6);
    b.spine_adds(rng, &pool, s, adds);
    b.done()
}

fn sentinel_pair(rng: &mut Rng) -> Vec<u8> {
    with_sentinel(rng, |b, rng| {
        let foobar = b.atom(b"foobar");
        if rng.percent(50) {
            b.pair(foobar, NIL)
        } else {
            let p = b.pair(NIL, foobar);
            b.pair(p, p)
        }
    })
}

fn sentinel_atom(rng: &mut Rng) -> Vec<u8> {
    with_sentinel(rng, |b, _| b.atom(b"foobar"))
}

fn sentinel_small(rng: &mut Rng) -> Vec<u8> {
    with_sentinel(rng, |b, rng| b.small(*rng.pick(&[1, 7, 128, 0x3ff_ffff])))
}

fn sentinel_nil(rng: &mut Rng) -> Vec<u8> {
    with_sentinel(rng, |_, _| NIL)
}

fn sentinel_none(rng: &mut Rng) -> Vec<u8> {
    let mut b = Builder::default();
    let n = rng.range(0, 30);
    let pool = b.pool(rng, 6, n);
    b.add(recent(rng, &pool));
    if rng.percent(30) {
        b.restore(0);
        b.add(recent(rng, &pool));
    }
    if rng.percent(20) {
        b.add(*rng.pick(&pool));
    }
    b.done()
}

/// The sentinel at several places of a tree, also below a shared pair.
fn sentinel_many(rng: &mut Rng) -> Vec<u8> {
    let mut b = Builder::default();
    let s = match rng.below(3) {
        0 => mark(&mut b),
        1 => b.small(7),
        _ => {
            let f = b.atom(b"foobar");
            b.pair(f, f)
        }
    };
    b.sentinel(s);
    let n = rng.range(0, 8);
    let mut pool = b.pool(rng, 5, n);
    pool.push(s);
    let mut holding = vec![s];
    for _ in 0..rng.range(1, 10) {
        let (l, r) = (recent(rng, &pool), recent(rng, &pool));
        let p = b.pair(l, r);
        pool.push(p);
        if holding.contains(&l) || holding.contains(&r) {
            holding.push(p);
        }
    }
    for _ in 0..rng.range(1, 16) {
        b.add(if rng.percent(70) {
            recent(rng, &holding)
        } else {
            recent(rng, &pool)
        });
    }
    b.done()
}

/// The sentinel's bytes under a second handle.
fn sentinel_twin(rng: &mut Rng) -> Vec<u8> {
    let mut b = Builder::default();
    let (s, twin) = if rng.percent(50) {
        (b.list_atom(b"foobar"), b.list_atom(b"foobar"))
    } else {
        let f = b.list_atom(b"foobar");
        (b.pair(f, NIL), b.pair(f, NIL))
    };
    b.sentinel(s);
    let mut pool = b.pool(rng, 3, 0);
    pool.extend([twin, twin]);
    for _ in 0..rng.range(1, 8) {
        let (l, r) = (recent(rng, &pool), recent(rng, &pool));
        pool.push(b.pair(l, r));
    }
    let adds = rng.range(1, 6);
    b.spine_adds(rng, &pool, s, adds);
    b.done()
}

/// Adds of the sentinel itself between others.
fn sentinel_added(rng: &mut Rng) -> Vec<u8> {
    let mut b = Builder::default();
    let s = *rng.pick(&[NIL, b.small(7)]);
    b.sentinel(s);
    let f = b.list_atom(b"foobar");
    let mut pool = vec![f, b.small(1)];
    for _ in 0..rng.range(1, 5) {
        let (l, r) = (recent(rng, &pool), recent(rng, &pool));
        pool.push(b.pair(l, r));
    }
    let mut adds = 0;
    for _ in 0..rng.range(2, 14) {
        match rng.below(5) {
            0 | 1 => b.add(s),
            2 if adds > 0 => {
                adds = rng.below(adds);
                b.restore(adds);
                continue;
            }
            _ => {
                let depth = rng.range(0, 3);
                let t = b.spine(rng, &pool, s, depth);
                b.add(t);
            }
        }
        adds += 1;
    }
    b.add(recent(rng, &pool));
    b.done()
}

/// Pairs above the sentinel occur again in later trees.
fn premise_broken(rng: &mut Rng) -> Vec<u8> {
    let mut b = Builder::default();
    let s = b.small(7);
    b.sentinel(s);
    let n = rng.range(0, 6);
    let mut pool = b.pool(rng, 4, n);
    for _ in 0..rng.range(2, 8) {
        let depth = rng.range(1, 4);
        let t = b.spine(rng, &pool, s, depth);
        b.add(t);
        pool.push(t);
        if let Step::Add(h) = b.0.steps[0] {
            pool.push(h);
        }
    }
    for _ in 0..rng.range(1, 6) {
        b.add(recent(rng, &pool));
    }
    b.done()
}

/// Adds, and steps back to any of them, of which so many of 100 are `03`.
fn undo(rng: &mut Rng, forgets: usize) -> Vec<u8> {
    let mut b = Builder::default();
    let s = *rng.pick(&[b.small(7), NIL]);
    b.sentinel(s);
    let f = b.list_atom(b"foobar");
    let n = rng.range(0, 8);
    let mut pool = b.pool(rng, 3, n);
    pool.push(f);
    let trees: Vec<u32> = (0..rng.range(1, 6))
        .map(|_| {
            let depth = rng.range(1, 5);
            b.spine(rng, &pool, s, depth)
        })
        .collect();
    let mut adds = 0;
    let mut finished = false;
    for _ in 0..rng.range(2, 24) {
        if adds > 0 && rng.percent(if finished { 90 } else { 30 }) {
            adds = rng.below(adds);
            b.undo(rng, forgets, adds);
            finished = false;
        } else {
            finished = rng.percent(30);
            b.add(if finished {
                recent(rng, &pool)
            } else {
                *rng.pick(&trees)
            });
            adds += 1;
        }
    }
    if forgets > 0 && !finished {
        b.add(*rng.pick(&trees));
        b.add(*rng.pick(&trees));
        b.add(recent(rng, &pool));
    }
    b.done()
}

/// Steps back between states with many open pairs and values.
fn deep_undo(rng: &mut Rng, forgets: usize) -> Vec<u8> {
    let mut b = Builder::default();
    let s = b.small(7);
    b.sentinel(s);
    let n = rng.range(0, 8);
    let mut pool = b.pool(rng, 5, n);
    pool.push(b.list_atom(b"foobar"));
    let long = *rng.pick(&[40, 150, 1000]);
    let mut spine = vec![];
    let mut t = s;
    while spine.len() < long && b.room() > 10 {
        let side = recent(rng, &pool);
        t = if rng.percent(70) {
            b.pair(side, t)
        } else {
            b.pair(t, side)
        };
        spine.push(t);
    }
    let mut adds = 0;
    let mut finished = false;
    for _ in 0..rng.range(5, 40) {
        if adds == 16 || finished || (adds > 0 && rng.percent(30)) {
            adds = rng.below(adds);
            b.undo(rng, forgets, adds);
            finished = false;
        } else {
            let roll = rng.below(12);
            finished = roll == 0;
            b.add(match roll {
                0 => recent(rng, &pool),
                1 => s,
                _ => *rng.pick(&spine),
            });
            adds += 1;
        }
    }
    b.done()
}

/// Near 1,024 steps, most of them adds that are taken back.
fn many_steps(rng: &mut Rng, forgets: usize) -> Vec<u8> {
    let mut b = Builder::default();
    let s = b.small(7);
    b.sentinel(s);
    let pool = b.pool(rng, 4, 6);
    let trees: Vec<u32> = (0..4).map(|_| b.spine(rng, &pool, s, 3)).collect();
    let total = *rng.pick(&[300, MAX_STEPS - 1, MAX_STEPS, MAX_STEPS + 1]);
    let mut adds = 0;
    while b.0.steps.len() < total {
        if adds == 16 || (adds > 0 && rng.percent(45)) {
            adds = rng.below(adds);
            b.undo(rng, forgets, adds);
        } else {
            b.add(*rng.pick(&trees));
            adds += 1;
        }
    }
    b.done()
}

/// Hundreds of handles of (S . S), each added once: three entries each.
fn many_entries(rng: &mut Rng) -> Vec<u8> {
    let mut b = Builder::default();
    let s = *rng.pick(&[b.small(7), NIL]);
    b.sentinel(s);
    let foobar = b.list_atom(b"foobar");
    let total = *rng.pick(&[100, 1000]);
    let mut adds = 0;
    while b.0.steps.len() < total && b.room() > 2 {
        if adds == 16 {
            adds = rng.below(2);
            b.restore(adds);
        } else {
            let p = b.pair(s, s);
            b.add(p);
            adds += 1;
        }
    }
    b.restore(0);
    let t = b.pair(foobar, s);
    b.add(t);
    b.add(foobar);
    b.done()
}

/// Second handles for the same pair, and atoms listed twice.
fn twins(rng: &mut Rng) -> Vec<u8> {
    let mut b = Builder::default();
    let s = mark(&mut b);
    b.sentinel(s);
    let f = b.list_atom(b"foobar");
    let f2 = b.list_atom(b"foobar");
    let one = b.small(1);
    let mut pool = vec![f, f2, one, NIL];
    for _ in 0..rng.range(1, 12) {
        let (l, r) = (recent(rng, &pool), recent(rng, &pool));
        for _ in 0..rng.range(1, 4) {
            pool.push(b.pair(l, r));
        }
    }
    let adds = rng.range(1, 6);
    b.spine_adds(rng, &pool, s, adds);
    b.done()
}

/// An atom or pair with about 100 and more parents.
fn parents(rng: &mut Rng) -> Vec<u8> {
    let mut b = Builder::default();
    let s = mark(&mut b);
    b.sentinel(s);
    let n = *rng.pick(&[6, 12, 40]);
    let mut x = b.list_atom(&[vec![0x81], rng.bytes(n)].concat());
    if rng.percent(40) {
        x = b.pair(x, b.small(1));
    }
    let n = *rng.pick(&[95, 99, 100, 101, 102, 150, 199, 205, 300]);
    let mut made = vec![];
    let mut chain = NIL;
    let shape = rng.below(4);
    for i in 0..n {
        let number = b.small(i as u32);
        let p = match shape {
            0 => b.pair(x, number),
            1 => b.pair(number, x),
            2 if i % 2 == 0 => b.pair(number, x),
            2 => b.pair(x, number),
            _ => {
                chain = b.pair(x, chain);
                chain
            }
        };
        made.push(p);
    }
    // some of the pairs, with x between them
    let mut items = vec![];
    for p in &made {
        if rng.percent(60) {
            items.push(*p);
        }
        if rng.percent(8) {
            items.push(x);
        }
    }
    if shape == 3 {
        items = vec![x, *rng.pick(&made), x, chain, x];
    }
    if rng.percent(30) {
        items.reverse();
    }
    let cut = rng.below(items.len());
    let t = b.right(&items[..cut], s);
    b.add(t);
    let t = if rng.percent(50) {
        b.right(&items[cut..], x)
    } else {
        b.left(&items[cut..], x)
    };
    b.add(t);
    b.done()
}

/// A root with a full parent list takes the sentinel's parents.
fn parents_moved(rng: &mut Rng) -> Vec<u8> {
    let mut b = Builder::default();
    let s = mark(&mut b);
    b.sentinel(s);
    let f = b.list_atom(b"foobar");
    let x = if rng.percent(50) { f } else { b.pair(f, f) };
    let n = *rng.pick(&[98, 99, 100, 101, 130]);
    let mut chain = NIL;
    for _ in 0..n {
        chain = b.pair(x, chain);
    }
    let t = match rng.below(3) {
        0 => b.right(&[chain, x], s),
        1 => b.left(&[chain, x], s),
        _ => b.pair(s, chain),
    };
    let twice = rng.percent(50);
    let one = b.small(1);
    let top = b.pair(one, s);
    b.add(t);
    if twice {
        // taken back: the moved parents stay moved
        b.add(x);
        b.restore(1);
    }
    b.add(top);
    b.add(x);
    b.done()
}

/// A right list that begins and ends with x: the search for the last x comes to
/// visit 1,024 or 1,025.
fn visits(rng: &mut Rng) -> Vec<u8> {
    let mut b = Builder::default();
    let size = rng.range(126, 140);
    let x = b.list_atom(&[vec![0x81], rng.bytes(size - 1)].concat());
    let n = *rng.pick(&[MAX_PAIRS - 3, MAX_PAIRS - 2, MAX_PAIRS - 1]);
    let mut items = vec![x];
    items.extend((0..n).map(|i| handle(SMALL, i as u32 % 100)));
    let t = b.right(&items, x);
    b.add(t);
    b.done()
}

/// Many parents at each of a few levels.
fn visits_wide(rng: &mut Rng) -> Vec<u8> {
    let mut b = Builder::default();
    let s = mark(&mut b);
    b.sentinel(s);
    let size = rng.range(20, 160);
    let x = b.list_atom(&[vec![0x81], rng.bytes(size - 1)].concat());
    let first = b.pair(b.small(1), x);
    let mut level = vec![first];
    let mut items = vec![];
    let mut number = 2;
    while b.room() > 220 {
        let from = *rng.pick(&level);
        let p = b.pair(from, b.small(number));
        number += 1;
        level.push(p);
        if rng.percent(20) {
            items.push(p);
        }
    }
    items.truncate(180);
    let mut head = vec![x];
    head.extend((0..rng.range(0, 20)).map(|i| handle(SMALL, i as u32)));
    let t = b.right(&head, s);
    b.add(t);
    let t = b.right(&items, x);
    b.add(t);
    b.done()
}

/// References whose path is about as long as what it stands for.
fn long_paths(rng: &mut Rng) -> Vec<u8> {
    let mut b = Builder::default();
    let s = mark(&mut b);
    b.sentinel(s);
    let sizes = [3, 4, 5, 8, 9, 31, 33, 63, 64, 65, 66, 67, 70];
    let size = *rng.pick(&sizes);
    let x = b.list_atom(&[vec![0x81], rng.bytes(size - 1)].concat());
    let far = (size * 8).saturating_sub(rng.below(30)).clamp(1, 700);
    let mut items = vec![x];
    items.extend((0..far).map(|i| handle(SMALL, i as u32 % 100)));
    let cut = rng.range(1, items.len());
    let t = b.right(&items[..cut], s);
    b.add(t);
    let rest: Vec<u32> = items[cut..].to_vec();
    let t = if rng.percent(70) {
        b.right(&rest, x)
    } else {
        let inner = b.left(&rest, x);
        b.pair(inner, x)
    };
    b.add(t);
    b.done()
}

/// x at the bottom of a stack of about 4,090 values: paths of about 512 bytes,
/// where `serialized_length` counts one more than is written.
fn far_stack(rng: &mut Rng) -> Vec<u8> {
    let mut b = Builder::default();
    let s = b.small(7);
    let size = rng.range(509, 517);
    let x = b.list_atom(&[vec![0x81], rng.bytes(size - 1)].concat());
    let first = b.pair(x, s);
    b.add(first);
    let far = rng.range(4080, 4095);
    open_chain(&mut b, rng, far, false);
    b.add(x);
    b.done()
}

/// x deep in a tree at the bottom of the stack: paths of up to 5,000 bits.
fn far_deep(rng: &mut Rng) -> Vec<u8> {
    let mut b = Builder::default();
    let s = b.small(7);
    let size = rng.range(560, 660);
    let x = b.list_atom(&[vec![0x81], rng.bytes(size - 1)].concat());
    let mut t = x;
    for i in 0..rng.range(100, 600) {
        let other = b.small(100 + i as u32);
        t = if rng.percent(50) {
            b.pair(t, other)
        } else {
            b.pair(other, t)
        };
    }
    let first = b.pair(t, s);
    b.add(first);
    // at most 13 chains
    let far = rng.range(3500, 4095).min(13 * (b.room() - 1));
    open_chain(&mut b, rng, far, false);
    b.add(if rng.percent(70) { x } else { t });
    b.done()
}

fn atom_sizes(rng: &mut Rng) -> Vec<u8> {
    let mut b = Builder::default();
    let s = mark(&mut b);
    b.sentinel(s);
    let mut items = vec![];
    let mut left = 24_000_usize;
    for _ in 0..rng.range(1, 6) {
        let size = *rng.pick(&[1, 2, 62, 63, 64, 65, 8190, 8191, 8192, 8193]);
        if size > left {
            continue;
        }
        left -= size;
        items.push(b.list_atom(&[vec![0x80 | rng.byte()], rng.bytes(size - 1)].concat()));
    }
    items.push(b.small(0x7f));
    let again: Vec<u32> = (0..4).map(|_| *rng.pick(&items)).collect();
    let t = b.right(&items, s);
    b.add(t);
    let t = b.left(&again, again[0]);
    b.add(t);
    b.done()
}

/// Adds that open `n` pairs: a chain that ends in the sentinel, added again and
/// again. One pair is left to the caller.
fn open_chain(b: &mut Builder, rng: &mut Rng, n: usize, left: bool) {
    let s = b.small(7);
    b.sentinel(s);
    let one = b.small(if rng.percent(80) { 1 } else { 2 });
    let mut chain = vec![s];
    for _ in 0..b.room() - 1 {
        let t = chain[chain.len() - 1];
        let p = if left { b.pair(t, one) } else { b.pair(one, t) };
        chain.push(p);
    }
    // chain[i] opens i pairs
    let mut to_open = n;
    while to_open > 0 {
        let i = to_open.min(chain.len() - 1);
        b.add(chain[i]);
        to_open -= i;
    }
}

/// About 4,096 open pairs, then an atom or one more pair.
fn open_pairs(rng: &mut Rng, forgets: usize) -> Vec<u8> {
    let mut b = Builder::default();
    let n = *rng.pick(&[4095, 4096, 4097]);
    let left = rng.percent(50);
    open_chain(&mut b, rng, n, left);
    match rng.below(3) {
        0 => b.add(b.small(2)),
        1 => {
            let t = b.pair(b.small(3), b.small(3));
            b.add(t);
        }
        _ => {
            b.undo(rng, forgets, 1);
            b.add(b.small(2));
        }
    }
    b.done()
}

fn sixteen_adds(rng: &mut Rng) -> Vec<u8> {
    let mut b = Builder::default();
    let s = mark(&mut b);
    b.sentinel(s);
    let n = rng.range(0, 12);
    let pool = b.pool(rng, 6, n);
    let adds = *rng.pick(&[15, 16, 17, 18]);
    b.spine_adds(rng, &pool, s, adds);
    b.done()
}

/// A right list of atoms that come again too far away for a reference. The
/// output has exactly `size` bytes, 60,000 or more.
fn sized_output(rng: &mut Rng, size: usize) -> Vec<u8> {
    const PERIOD: usize = 512;
    let mut b = Builder::default();
    let atoms: Vec<u32> = (0..PERIOD)
        .map(|i| {
            let mut bytes = rng.bytes(62);
            bytes[0] = 0x80;
            bytes[1] = (i >> 8) as u8;
            bytes[2] = i as u8;
            b.list_atom(&bytes)
        })
        .collect();
    // a pair with its atom takes 64 bytes
    let whole = (size - 200) / 64;
    let rest = size - whole * 64;
    let items: Vec<u32> = (0..whole).map(|i| atoms[i % PERIOD]).collect();
    // the rest: an atom of up to 263 bytes with its prefix of two
    let last = b.list_atom(&[vec![0x81], rng.bytes(rest - 3)].concat());
    let t = b.right(&items, last);
    b.add(t);
    b.done()
}

fn full_output(rng: &mut Rng) -> Vec<u8> {
    sized_output(rng, MAX_OUTPUT)
}

fn over_output(rng: &mut Rng) -> Vec<u8> {
    sized_output(rng, MAX_OUTPUT + 1)
}

/// Keys that a sum or a plain remainder would put into one slot.
fn keys(rng: &mut Rng) -> Vec<u8> {
    let mut b = Builder::default();
    let s = mark(&mut b);
    b.sentinel(s);
    let mut pool = vec![];
    match rng.below(5) {
        0 => {
            // long, and different in the last byte only
            let mut bytes = rng.bytes(150);
            bytes[0] = 0x90;
            for i in 0..60 {
                bytes[149] = i;
                pool.push(b.list_atom(&bytes));
            }
        }
        4 => {
            // same length, sum and ends
            for i in 0..100_u8 {
                pool.push(b.list_atom(&[0x80, i, 200 - i, 0x80]));
            }
        }
        1 => {
            // permutations
            for i in 0..5 {
                for j in 0..5 {
                    let mut bytes = vec![0x90, 1, 2, 3, 4, 5];
                    bytes.swap(1 + i, 1 + j);
                    pool.push(b.atom(&bytes));
                }
            }
        }
        2 => {
            // small values a power of two apart
            let step = 1 << rng.range(8, 16);
            for i in 0..60_u32 {
                pool.push(b.small(0x8000 + i * step));
            }
        }
        _ => {
            // words of four bytes with equal sums, and zeros
            for i in 0..60_u32 {
                let mut bytes = vec![0x80, 0, 0, 0];
                bytes.extend(i.to_be_bytes());
                bytes.extend((1000 - i).to_be_bytes());
                pool.push(b.list_atom(&bytes));
            }
        }
    }
    // pairs of entries i, n - i: all with the same sum
    let n = pool.len();
    let mut made = vec![];
    for i in 0..n {
        made.push(b.pair(pool[i], pool[n - 1 - i]));
    }
    for i in 0..n {
        made.push(b.pair(pool[n - 1 - i], pool[i]));
    }
    let mut items: Vec<u32> = (0..rng.range(10, 150))
        .map(|_| {
            if rng.percent(70) {
                *rng.pick(&made)
            } else {
                *rng.pick(&pool)
            }
        })
        .collect();
    let cut = rng.below(items.len());
    let rest = items.split_off(cut);
    let t = b.right(&items, s);
    b.add(t);
    let t = b.right(&rest, NIL);
    b.add(t);
    b.done()
}

/// Each count at its limit.
fn limits(rng: &mut Rng) -> Vec<u8> {
    let mut b = Builder::default();
    match rng.below(5) {
        0 => {
            for i in 0..MAX_ATOMS {
                b.list_atom(&[0x80, (i >> 8) as u8, i as u8]);
            }
            let items: Vec<u32> = (0..MAX_PAIRS as u32).map(|i| handle(ATOM, i)).collect();
            let t = b.right(&items, NIL);
            b.add(t);
        }
        1 => {
            // one atom of 32,768 bytes
            let f = b.list_atom(&vec![0x80; MAX_ATOM_BYTES]);
            let t = b.pair(f, f);
            b.add(t);
        }
        2 => {
            // many small ones, 32,768 bytes together
            for i in 0..512 {
                let mut bytes = vec![0x80; 64];
                bytes[1] = i as u8;
                bytes[2] = (i >> 8) as u8;
                b.list_atom(&bytes);
            }
            let items: Vec<u32> = (0..100).map(|i| handle(ATOM, i * 5)).collect();
            let t = b.left(&items, NIL);
            b.add(t);
        }
        3 => {
            // 1,024 pairs, one over another
            let mut t = b.atom(b"foobar");
            for _ in 0..MAX_PAIRS {
                t = if rng.percent(50) {
                    b.pair(t, NIL)
                } else {
                    b.pair(NIL, t)
                };
            }
            b.add(t);
        }
        _ => {
            b.add(b.small(0x3ff_ffff));
        }
    }
    b.done()
}

fn random_bytes(rng: &mut Rng) -> Vec<u8> {
    let mut out = session::MARK.to_vec();
    for _ in 0..rng.range(0, 30) {
        match rng.below(4) {
            0 => out.push(rng.byte()),
            1 => out.push(rng.below(4) as u8),
            2 => out.extend([0, rng.below(4) as u8]),
            _ => {
                let h = handle(rng.below(3) as u32, rng.below(3) as u32);
                out.extend(h.to_be_bytes());
            }
        }
    }
    out
}

/// What steps a small session has.
#[derive(Clone, Copy, PartialEq)]
enum Small {
    /// adds, and `02`
    Any,
    /// and `03`
    Forgets,
    /// and `04` and `05`
    Quotes,
}

impl Small {
    /// Of the steps back so many of 100 are `03`.
    fn forgets(self) -> usize {
        if self == Small::Any { 0 } else { 60 }
    }
}

fn small_session(rng: &mut Rng, small: Small) -> Vec<u8> {
    if small == Small::Quotes {
        return quotes::small(rng);
    }
    if small == Small::Forgets && rng.percent(80) {
        return undo(rng, small.forgets());
    }
    match rng.below(5) {
        0 => tiny(rng),
        1 => sentinel_many(rng),
        2 => undo(rng, small.forgets()),
        3 => twins(rng),
        _ => {
            let mut b = Builder::default();
            let s = mark(&mut b);
            b.sentinel(s);
            let pool = b.pool(rng, 4, 5);
            b.spine_adds(rng, &pool, s, 3);
            b.done()
        }
    }
}

/// Handles and steps changed for others that are named too.
fn mutated(rng: &mut Rng, small: Small) -> Vec<u8> {
    let forgets = small.forgets();
    let mut s = session::parse(&small_session(rng, small)).expect("a good file");
    let any_handle = |rng: &mut Rng, s: &SessionFile, pairs: usize| match rng.below(4) {
        0 if !s.atoms.is_empty() => handle(ATOM, rng.below(s.atoms.len()) as u32),
        1 => *rng.pick(&[
            NIL,
            handle(SMALL, 1),
            handle(SMALL, 7),
            handle(SMALL, 0x8000),
        ]),
        _ if pairs > 0 => handle(PAIR, rng.below(pairs) as u32),
        _ => NIL,
    };
    for _ in 0..rng.range(1, 6) {
        let all = s.pairs.len();
        match rng.below(6) {
            0 | 1 if all > 0 => {
                let at = rng.below(all);
                let h = any_handle(rng, &s, at);
                if rng.percent(50) {
                    s.pairs[at].0 = h;
                } else {
                    s.pairs[at].1 = h;
                }
            }
            2 => s.sentinel = Some(any_handle(rng, &s, all)),
            3 if !s.steps.is_empty() => {
                let at = rng.below(s.steps.len());
                s.steps[at] = Step::Add(any_handle(rng, &s, all));
            }
            4 if small == Small::Quotes && rng.percent(70) => {
                let at = rng.below(s.steps.len() + 1);
                let h = any_handle(rng, &s, all);
                match rng.below(4) {
                    0 => s.steps.insert(at, Step::Take),
                    1 => s.steps.insert(at, Step::Quote(h)),
                    _ => drop(s.steps.splice(at..at, [Step::Quote(h), Step::Take])),
                }
            }
            4 => {
                let at = rng.below(s.steps.len() + 1);
                let k = rng.below(4) as u16;
                let forget = forgets > 0 && rng.percent(forgets);
                let step = if forget {
                    Step::Forget(k)
                } else {
                    Step::Restore(k)
                };
                s.steps.insert(at, step);
            }
            _ => {
                let at = rng.below(s.steps.len() + 1);
                let h = any_handle(rng, &s, all);
                s.steps.insert(at, Step::Add(h));
            }
        }
    }
    s.to_bytes()
}

fn damaged(rng: &mut Rng, small: Small) -> Vec<u8> {
    let mut file = small_session(rng, small);
    damage(rng, &mut file);
    file
}

fn truncated(rng: &mut Rng, small: Small) -> Vec<u8> {
    let mut file = small_session(rng, small);
    let keep = rng.below(file.len());
    file.truncate(keep);
    file
}

/// One to three faults in different fields: the first from the left counts.
fn faults(rng: &mut Rng, small: Small) -> Vec<u8> {
    let mut s = session::parse(&small_session(rng, small)).expect("a good file");
    let bad =
        |rng: &mut Rng| *rng.pick(&[handle(PAIR, 900), handle(ATOM, 900), handle(5, 1), NONE]);
    let mut code = None;
    let mut cut = 0;
    for _ in 0..rng.range(1, 3) {
        match rng.below(7) {
            0 => {
                let at = rng.below(s.atoms.len() + 1);
                s.atoms
                    .insert(at, rng.pick(&[vec![], vec![5], vec![0, 0x80]]).clone());
            }
            1 if !s.pairs.is_empty() => {
                let at = rng.below(s.pairs.len());
                s.pairs[at].0 = bad(rng);
            }
            2 if !s.pairs.is_empty() => {
                let at = rng.below(s.pairs.len());
                s.pairs[at].1 = handle(PAIR, at as u32);
            }
            3 => s.sentinel = Some(bad(rng)),
            4 => {
                let at = rng.below(s.steps.len() + 1);
                s.steps.insert(at, Step::Add(bad(rng)));
            }
            5 => code = Some(*rng.pick(&[0, 7, 0xff])),
            _ => cut = rng.range(1, 5),
        }
    }
    let mut file = s.to_bytes();
    file.extend(code);
    file.truncate(file.len() - cut);
    file
}

fn refused_2(rng: &mut Rng) -> Vec<u8> {
    let mut file = small_session(rng, Small::Any);
    let longer = *rng.pick(&[1, 1, 2, 200]);
    file.resize(MAX_FILE + longer, rng.byte());
    file
}

fn refused_3(rng: &mut Rng) -> Vec<u8> {
    let mut file = small_session(rng, Small::Any);
    match rng.below(3) {
        0 => file.truncate(rng.below(5)),
        1 => file[rng.below(5)] ^= 1 << rng.below(8),
        _ => file[4] = 2,
    }
    file
}

/// Cut inside the last field: what is left of a step after its code.
fn refused_4(rng: &mut Rng) -> Vec<u8> {
    let mut file = small_session(rng, Small::Any);
    if rng.percent(50) {
        file.extend([1, 0x08, 0, 0]);
    } else {
        file.extend([2, 0]);
    }
    let cut = rng.below(2);
    file.truncate(file.len() - cut);
    file
}

fn refused_5(rng: &mut Rng) -> Vec<u8> {
    let mut b = Builder::default();
    match rng.below(4) {
        0 => b.0.atoms = vec![vec![0x80]; MAX_ATOMS + 1],
        1 => b.0.pairs = vec![(NIL, NIL); MAX_PAIRS + 1],
        2 => {
            b.0.atoms = vec![vec![0x80; MAX_ATOM_BYTES], vec![0x80]];
            if rng.percent(50) {
                b.0.atoms = vec![vec![0x80; MAX_ATOM_BYTES + 1]];
            }
        }
        _ => {
            b.0.sentinel = Some(NIL);
            for _ in 0..=MAX_STEPS {
                b.add(NIL);
            }
        }
    }
    b.done()
}

fn refused_6(rng: &mut Rng) -> Vec<u8> {
    let mut b = Builder::default();
    b.list_atom(b"foobar");
    let small = *rng.pick(&[&[][..], &[1], &[0x7f], &[0, 0x80], &[3, 0xff, 0xff, 0xff]]);
    let at = rng.below(2);
    b.0.atoms.insert(at, small.to_vec());
    b.done()
}

fn refused_7(rng: &mut Rng) -> Vec<u8> {
    let mut b = Builder::default();
    let f = b.list_atom(b"foobar");
    let p = b.pair(f, NIL);
    let q = b.pair(p, f);
    b.sentinel(f);
    b.add(q);
    let bad = *rng.pick(&[
        handle(PAIR, 2),
        handle(PAIR, 0x3ff_ffff),
        handle(ATOM, 1),
        handle(ATOM, 0x3ff_ffff),
        handle(3, 0),
        handle(63, 0x3ff_fffe),
        handle(31, 0),
        NONE,
    ]);
    match rng.below(5) {
        // a pair may only name earlier ones
        0 => b.0.pairs[0].0 = *rng.pick(&[bad, handle(PAIR, 0), handle(PAIR, 1)]),
        1 => b.0.pairs[1].1 = *rng.pick(&[bad, handle(PAIR, 1)]),
        2 if bad != NONE => b.sentinel(bad),
        _ => b.add(bad),
    }
    b.done()
}

fn refused_8(rng: &mut Rng) -> Vec<u8> {
    let mut file = small_session(rng, Small::Any);
    file.push(*rng.pick(&[0, 7, 8, 0x81, 0xff]));
    if rng.percent(50) {
        file.extend(rng.bytes(4));
    }
    file
}

fn refused_9(rng: &mut Rng) -> Vec<u8> {
    let mut b = Builder::default();
    let s = mark(&mut b);
    b.sentinel(s);
    let pool = b.pool(rng, 4, 4);
    let adds = rng.range(1, 4);
    b.spine_adds(rng, &pool, s, adds);
    let extra = *rng.pick(&[pool[0], s]);
    b.add(extra);
    b.done()
}

fn refused_10(rng: &mut Rng) -> Vec<u8> {
    let mut b = Builder::default();
    let s = b.small(7);
    b.sentinel(s);
    let pool = b.pool(rng, 4, 4);
    for i in 0..17 {
        let t = if rng.percent(10) {
            s
        } else {
            b.spine(rng, &pool, s, 2)
        };
        b.add(t);
        if i == 8 && rng.percent(50) {
            b.restore(8);
            b.add(t);
        }
    }
    b.done()
}

fn refused_11(rng: &mut Rng) -> Vec<u8> {
    let mut b = Builder::default();
    let s = mark(&mut b);
    b.sentinel(s);
    let pool = b.pool(rng, 4, 4);
    let adds = rng.range(0, 4);
    if adds > 0 {
        b.spine_adds(rng, &pool, s, adds);
    }
    let mut count = adds;
    if adds > 0 && rng.percent(50) {
        count = rng.below(adds);
        b.restore(count);
    }
    b.restore(count + *rng.pick(&[0, 1, 1000]));
    b.done()
}

fn refused_12(rng: &mut Rng) -> Vec<u8> {
    let mut b = Builder::default();
    let left = rng.percent(50);
    open_chain(&mut b, rng, 4096, left);
    let t = b.pair(b.small(3), b.small(4));
    b.add(t);
    b.done()
}

/// A list of small atoms is written again and again, and then an atom of 32,768
/// bytes doesn't fit.
fn refused_13(rng: &mut Rng) -> Vec<u8> {
    let mut b = Builder::default();
    let s = b.small(7);
    b.sentinel(s);
    let big = b.list_atom(&vec![0x80 | rng.byte(); MAX_ATOM_BYTES]);
    // the list holds the sentinel, so no reference is made to it
    let items: Vec<u32> = (0..MAX_PAIRS as u32 - 2)
        .map(|i| handle(SMALL, 0x100_0000 + i))
        .collect();
    let list = b.right(&items, s);
    let x = b.pair(list, s);
    for _ in 0..6 {
        b.add(x);
        b.add(b.small(1));
    }
    b.add(big);
    b.done()
}

/// More than 16 adds in a file of few pairs, some taken back on the way.
fn short_10(rng: &mut Rng, forgets: usize) -> Vec<u8> {
    let mut b = Builder::default();
    let s = *rng.pick(&[b.small(7), NIL]);
    b.sentinel(s);
    let foobar = b.list_atom(b"foobar");
    let p = b.pair(foobar, s);
    let q = b.pair(s, foobar);
    let mut adds = 0;
    while adds <= 16 {
        if adds > 0 && rng.percent(5) {
            adds -= 1;
            b.undo(rng, forgets, adds);
        } else {
            b.add(*rng.pick(&[s, p, q]));
            adds += 1;
        }
    }
    b.done()
}

/// A chain of few pairs that ends in the sentinel, added 16 times: pair 4,097 is
/// to be opened in one of the last adds, or 4,096 are open.
fn short_12(rng: &mut Rng) -> Vec<u8> {
    let mut b = Builder::default();
    let s = b.small(7);
    b.sentinel(s);
    let other = *rng.pick(&[b.small(1), NIL, s]);
    let n = *rng.pick(&[255, 256, 257, 273, 274, 300]);
    let left = rng.percent(50);
    let chain = (0..n).fold(s, |t, _| {
        if left || other == s {
            b.pair(t, other)
        } else {
            b.pair(other, t)
        }
    });
    (0..16).for_each(|_| b.add(chain));
    b.done()
}
