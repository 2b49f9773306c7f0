//! Adds by `01` and by `04` and `05`, and quotes that are dropped: what the port's call
//! takes for each.

use crate::session_benchmark::{EMPTY, Port, atom, begin, checked, steps};
use crate::times::{measure_beside, measure_in_turns, median};
use crate::undo_benchmark;
use oracle::generate::sessions::Builder;
use oracle::rng::Rng;
use oracle::session::{self, MAX_OUTPUT, Step};
use std::hint::black_box;

/// The same trees with other steps: a block alone; bundles added to it; each bundle
/// quoted and taken; each quoted, and then added; each quoted `MANY` times, and then added.
pub struct Case {
    pub name: &'static str,
    pub files: [Vec<u8>; 5],
    bundles: usize,
}

/// How often a bundle is quoted before it is added.
const MANY: usize = 60;

fn case(name: &'static str, b: &Builder, block: Option<u32>, bundles: &[u32]) -> Case {
    let file = |each: &dyn Fn(&mut Builder, u32)| {
        let mut b = b.clone();
        block.iter().for_each(|h| b.add(*h));
        bundles.iter().for_each(|h| each(&mut b, *h));
        b.done()
    };
    let quoted = |times: usize| {
        file(&|b, h| {
            (0..times).for_each(|_| b.quote(h));
            b.add(h);
        })
    };
    let taken = file(&|b, h| {
        b.quote(h);
        b.take();
    });
    Case {
        name,
        files: [file(&|_, _| ()), quoted(0), taken, quoted(1), quoted(MANY)],
        bundles: bundles.len(),
    }
}

/// A block of one pair; each bundle has so many spends, with a coin of their own.
fn on_little(rng: &mut Rng, name: &'static str, bundles: usize, spends: usize) -> Case {
    let (mut b, s) = begin();
    let puzzle = atom(&mut b, rng, 32);
    let puzzle = b.pair(puzzle, b.small(1));
    let block = b.pair(puzzle, s);
    let bundles: Vec<u32> = (0..bundles)
        .map(|_| {
            let coins: Vec<u32> = (0..spends).map(|_| atom(&mut b, rng, 32)).collect();
            let spends: Vec<u32> = coins.into_iter().map(|c| b.pair(c, puzzle)).collect();
            b.right(&spends, s)
        })
        .collect();
    case(name, &b, Some(block), &bundles)
}

/// A block of 600 pairs; each bundle is a list of so many of its parts.
fn on_much(rng: &mut Rng, name: &'static str, bundles: usize, parts: usize) -> Case {
    let (mut b, s) = begin();
    let pool = b.pool(rng, 40, 300);
    let list = |b: &mut Builder, rng: &mut Rng, n: usize| {
        let items: Vec<u32> = (0..n).map(|_| *rng.pick(&pool)).collect();
        b.right(&items, s)
    };
    let block = list(&mut b, rng, 300);
    let bundles: Vec<u32> = (0..bundles).map(|_| list(&mut b, rng, parts)).collect();
    case(name, &b, Some(block), &bundles)
}

/// No block; one bundle of 1,000 pairs.
fn on_nothing(rng: &mut Rng) -> Case {
    let (mut b, s) = begin();
    let pool = b.pool(rng, 60, 500);
    let items: Vec<u32> = (0..500).map(|_| *rng.pick(&pool)).collect();
    let bundle = b.right(&items, s);
    case("no block, a bundle of 1,000 pairs", &b, None, &[bundle])
}

pub fn cases() -> Vec<Case> {
    let mut rng = Rng::new(4);
    let rng = &mut rng;
    vec![
        on_little(rng, "a block of a pair, bundles of 2 pairs", 15, 1),
        on_little(rng, "a block of a pair, bundles of 20 pairs", 15, 10),
        on_little(rng, "a block of a pair, bundles of 120 pairs", 8, 60),
        on_much(rng, "a block of 600 pairs, bundles of 2 pairs", 15, 2),
        on_much(rng, "a block of 600 pairs, bundles of 20 pairs", 15, 20),
        on_much(rng, "a block of 600 pairs, bundles of 100 pairs", 4, 100),
        on_nothing(rng),
    ]
}

pub fn row(c: &Case, port: &mut Port) -> String {
    let sizes = c
        .files
        .each_ref()
        .map(|file| checked(c.name, file, port).size);
    assert!(sizes[1..].iter().all(|n| *n == sizes[1]), "{}", c.name);
    let parsed = session::parse(&c.files[1]).expect("a good file");
    let mut once = |file: &[u8]| {
        port(file, MAX_OUTPUT);
    };
    let files = c.files.each_ref().map(Vec::as_slice);
    let turns = measure_in_turns(&mut once, files, EMPTY);
    // what a file takes more than another, for each of so many steps
    let more = |file: usize, than: usize, steps: usize| {
        let mut times: Vec<f64> = turns.iter().map(|t| t[file] - t[than]).collect();
        median(&mut times) / steps as f64
    };
    let [block, added, taken, quoted, often] = [0, 1, 2, 3, 4];
    let add = more(added, block, c.bundles);
    let taken = more(taken, block, c.bundles);
    let quoted = more(quoted, added, c.bundles);
    let often = more(often, added, c.bundles * MANY);
    format!(
        "| {} | {} | {} | {} | {} | {add:.2} | {taken:.2} | {:.2} | {quoted:.2} | {:.2} | {often:.2} | {:.2} |",
        c.name,
        files[1].len(),
        parsed.pairs.len(),
        c.bundles,
        sizes[1],
        taken / add,
        quoted / add,
        often / add
    )
}

pub fn heading() {
    println!(
        "\nBundles added to a block by `01`, and by `04` and `05`; and each quoted once, or {MANY} times, right before its `01`, so that"
    );
    println!(
        "all those quotes are dropped. Microseconds for each bundle, or each dropped quote: the median of what a call with the bundles takes"
    );
    println!(
        "more than one with the block alone, and one with the dropped quotes more than one without, all in turns. So all stand on the same"
    );
    println!(
        "block with the same bundle. What a file with a `04` takes more at its adds is in them.\n"
    );
    println!(
        "| block and bundles | bytes | pairs | bundles | output | `01` | `04` `05` | `04` `05` : `01` | dropped, once | : `01` | dropped, {MANY} times | : `01` |"
    );
    println!("|---|--:|--:|--:|--:|--:|--:|--:|--:|--:|--:|--:|");
}

/// The files of `undo_benchmark` with each add that is taken back a quote that is dropped.
fn dropping(file: &[u8]) -> Vec<u8> {
    let mut s = session::parse(file).expect("a good file");
    let steps = std::mem::take(&mut s.steps);
    for (i, step) in steps.iter().enumerate() {
        match (*step, steps.get(i + 1)) {
            (Step::Add(h), Some(Step::Restore(_))) => s.steps.push(Step::Quote(h)),
            (Step::Restore(_), _) => (),
            (step, _) => s.steps.push(step),
        }
    }
    s.to_bytes()
}

/// `02`, `03` and `04`.
pub fn tries() -> Vec<(&'static str, [Vec<u8>; 3])> {
    undo_benchmark::cases()
        .into_iter()
        .map(|c| {
            let [restores, forgets] = c.files;
            let dropped = dropping(&restores);
            (c.name, [restores, forgets, dropped])
        })
        .collect()
}

pub fn tries_row((name, files): &(&'static str, [Vec<u8>; 3]), port: &mut Port) -> String {
    let sizes = files.each_ref().map(|file| checked(name, file, port).size);
    assert!(sizes.iter().all(|n| *n == sizes[0]), "{name}: what stays");
    let parsed = session::parse(&files[0]).expect("a good file");
    let store = parsed.allocator();
    let mut once = |file: &[u8]| {
        port(file, MAX_OUTPUT);
    };
    let mut rust = || {
        black_box(steps(black_box(&parsed), &store));
    };
    let files = files.each_ref().map(Vec::as_slice);
    let rows = measure_beside(&mut once, files, EMPTY, &mut [&mut rust]);
    let rust = rows[0].rust[0];
    let [by_02, by_03, by_04] = rows.map(|row| row.difference);
    format!(
        "| {name} | {} | {} | {by_02:.1} | {by_03:.1} | {by_04:.1} | {:.2} | {:.2} | {rust:.1} | {:.2} |",
        parsed.pairs.len(),
        sizes[0],
        by_04 / by_02,
        by_04 / by_03,
        by_04 / rust
    )
}

pub fn tries_heading() {
    println!(
        "\nThe 511 bundles above, each quoted and dropped by the next quote in the place of an add and a step back. Medians in"
    );
    println!("microseconds, less the zeroing; *`Serializer`* on the file with `02`.\n");
    println!(
        "| bundles | pairs | output | session by `02` | by `03` | by `04` | `04` : `02` | `04` : `03` | `Serializer` by `02` | `04` : `Serializer` |"
    );
    println!("|---|--:|--:|--:|--:|--:|--:|--:|--:|--:|");
}
