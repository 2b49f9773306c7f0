//! Adds that are taken back, by `02` and by `03`: what the port's call takes for each, and the
//! Rust's `Serializer` for `02`, which is all it has.

use crate::session_benchmark::{EMPTY, Port, atom, begin, checked, steps, undo};
use crate::times::measure_beside;
use oracle::rng::Rng;
use oracle::session::{self, MAX_OUTPUT, Step};
use std::hint::black_box;

/// Two files that differ in the code of the steps back: `02` in the first, `03` in the second.
pub struct Case {
    pub name: &'static str,
    pub files: [Vec<u8>; 2],
}

/// How often an add is taken back.
const TRIES: usize = 511;

/// A small add stays; each bundle has a coin and two pairs of its own, and refers to what stays.
fn others(rng: &mut Rng) -> Vec<u8> {
    let (mut b, s) = begin();
    let puzzle = atom(&mut b, rng, 32);
    let puzzle = b.pair(puzzle, b.small(1));
    let first = b.pair(puzzle, s);
    b.add(first);
    for _ in 0..TRIES {
        let coin = atom(&mut b, rng, 32);
        let spend = b.pair(coin, puzzle);
        let bundle = b.pair(spend, s);
        b.add(bundle);
        b.restore(1);
    }
    b.done()
}

/// The same with one bundle of ten such spends.
fn the_same(rng: &mut Rng) -> Vec<u8> {
    let (mut b, s) = begin();
    let puzzle = atom(&mut b, rng, 32);
    let puzzle = b.pair(puzzle, b.small(1));
    let first = b.pair(puzzle, s);
    b.add(first);
    let coins: Vec<u32> = (0..10).map(|_| atom(&mut b, rng, 32)).collect();
    let spends: Vec<u32> = coins.into_iter().map(|c| b.pair(c, puzzle)).collect();
    let bundle = b.right(&spends, s);
    for _ in 0..TRIES {
        b.add(bundle);
        b.restore(1);
    }
    b.done()
}

/// An add of 600 pairs stays; 40 bundles of ten pairs come in turns.
fn on_many(rng: &mut Rng) -> Vec<u8> {
    let (mut b, s) = begin();
    let pool = b.pool(rng, 40, 300);
    let items: Vec<u32> = (0..300).map(|_| *rng.pick(&pool)).collect();
    let first = b.right(&items, s);
    b.add(first);
    let bundles: Vec<u32> = (0..40)
        .map(|_| {
            let items: Vec<u32> = (0..10).map(|_| *rng.pick(&pool)).collect();
            b.right(&items, s)
        })
        .collect();
    for i in 0..TRIES {
        b.add(bundles[i % bundles.len()]);
        b.restore(1);
    }
    b.done()
}

/// The file with each `02` a `03`.
fn forgetting(file: &[u8]) -> Vec<u8> {
    let mut s = session::parse(file).expect("a good file");
    for step in &mut s.steps {
        if let Step::Restore(k) = *step {
            *step = Step::Forget(k);
        }
    }
    s.to_bytes()
}

pub fn cases() -> Vec<Case> {
    let mut rng = Rng::new(3);
    let rng = &mut rng;
    [
        ("each another bundle", others(rng)),
        ("the same bundle", the_same(rng)),
        ("8 bundles in turns, on 140 pairs", undo(rng)),
        ("40 bundles in turns, on 600 pairs", on_many(rng)),
    ]
    .map(|(name, file)| Case {
        name,
        files: [file.clone(), forgetting(&file)],
    })
    .into()
}

pub fn row(c: &Case, port: &mut Port) -> String {
    let [restores, forgets] = &c.files;
    let sizes = [restores, forgets].map(|file| checked(c.name, file, port).size);
    assert_eq!(sizes[0], sizes[1], "{}: what stays", c.name);
    let parsed = session::parse(restores).expect("a good file");
    let store = parsed.allocator();
    let mut once = |file: &[u8]| {
        port(file, MAX_OUTPUT);
    };
    let mut rust = || {
        black_box(steps(black_box(&parsed), &store));
    };
    let [by_02, by_03] = measure_beside(&mut once, [restores, forgets], EMPTY, &mut [&mut rust]);
    let rust = by_02.rust[0];
    format!(
        "| {} | {} | {} | {} | {} | {:.1} | {:.1} | {:.2} | {rust:.1} | {:.2} |",
        c.name,
        restores.len(),
        parsed.pairs.len(),
        parsed.steps.len(),
        sizes[0],
        by_02.difference,
        by_03.difference,
        by_03.difference / by_02.difference,
        by_03.difference / rust
    )
}

pub fn heading() {
    println!(
        "\n511 adds, each taken back right after it, by `02` or by `03`: two files that differ in that code alone. Medians in"
    );
    println!(
        "microseconds, less the zeroing. The Rust has no `03`: *`Serializer`* is its steps on the file with `02`.\n"
    );
    println!(
        "| bundles | bytes | pairs | steps | output | session by `02` | by `03` | `03` : `02` | `Serializer` by `02` | `03` : `Serializer` |"
    );
    println!("|---|--:|--:|--:|--:|--:|--:|--:|--:|--:|");
}
