//! How long the port's session calls take, and the unchanged `Serializer`, on the
//! same sessions.

use crate::session_compare::SessionCall;
use crate::times::measure;
use crate::{cache_benchmark, count_benchmark, measure_benchmark, quote_benchmark, undo_benchmark};
use clvm_rs::Allocator;
use clvm_rs::serde::{Serializer, UndoState};
use nikvoldra::call::{
    self, CHECKPOINTS_LENGTH, Checkpoint, SessionAnswer, WORDS_LENGTH, WORK_LENGTH,
};
use oracle::generate::sessions::Builder;
use oracle::node::{NIL, from_word};
use oracle::rng::Rng;
use oracle::session::{self, MAX_OUTPUT, SessionFile, Step};
use std::hint::black_box;

pub struct Case {
    pub name: &'static str,
    pub file: Vec<u8>,
}

/// The port's call on a file, with an output of that length.
pub type Port<'a> = dyn FnMut(&[u8], usize) -> SessionAnswer + 'a;

/// A file that only has the slices zeroed: no atoms, pairs, sentinel and steps.
pub const EMPTY: &[u8] = b"BRS\x00\x01\x00\x00\x00\x00\xff\xff\xff\xff";

/// A builder with a listed atom of its own as the sentinel.
pub fn begin() -> (Builder, u32) {
    let mut b = Builder::default();
    let s = b.list_atom(b"\xff sentinel");
    b.sentinel(s);
    (b, s)
}

/// A listed atom of `n` bytes.
pub fn atom(b: &mut Builder, rng: &mut Rng, n: usize) -> u32 {
    b.list_atom(&[vec![0x81], rng.bytes(n - 1)].concat())
}

fn atoms(b: &mut Builder, rng: &mut Rng, count: usize, n: usize) -> Vec<u32> {
    (0..count).map(|_| atom(b, rng, n)).collect()
}

/// Pairs that share subtrees, over `atoms` atoms of mixed sizes: a list of all of
/// them in two adds.
fn mixed(rng: &mut Rng, atoms: usize, pairs: usize) -> Vec<u8> {
    let (mut b, s) = begin();
    let pool = b.pool(rng, atoms, pairs / 2);
    let items: Vec<u32> = (0..pairs - pairs / 2).map(|_| *rng.pick(&pool)).collect();
    let (first, rest) = items.split_at(items.len() / 2);
    let t = b.right(first, s);
    b.add(t);
    let t = b.right(rest, NIL);
    b.add(t);
    b.done()
}

/// The same in one add.
fn mixed_in_one(rng: &mut Rng, atoms: usize, pairs: usize) -> Vec<u8> {
    let (mut b, _) = begin();
    let pool = b.pool(rng, atoms, pairs / 2);
    let items: Vec<u32> = (0..pairs - pairs / 2).map(|_| *rng.pick(&pool)).collect();
    let t = b.right(&items, NIL);
    b.add(t);
    b.done()
}

/// A list of 1,023 items, `kinds` of them different, right or left.
fn list(rng: &mut Rng, kinds: usize, left: bool) -> Vec<u8> {
    let (mut b, _) = begin();
    let pool = atoms(&mut b, rng, kinds, 32);
    let items: Vec<u32> = (0..1_023).map(|_| *rng.pick(&pool)).collect();
    let t = if left {
        b.left(&items, NIL)
    } else {
        b.right(&items, NIL)
    };
    b.add(t);
    b.done()
}

/// Each pair twice the one before it, 1,000 of them.
fn doubling(rng: &mut Rng) -> Vec<u8> {
    let (mut b, _) = begin();
    let first = atom(&mut b, rng, 32);
    let top = (0..1_000).fold(first, |t, _| b.pair(t, t));
    b.add(top);
    b.done()
}

/// Four atoms of 8,000 bytes, each listed once and at eight places.
fn big_atoms(rng: &mut Rng) -> Vec<u8> {
    let (mut b, s) = begin();
    let big = atoms(&mut b, rng, 4, 8_000);
    let items: Vec<u32> = (0..32).map(|i| big[i % 4]).collect();
    let t = b.right(&items[..16], s);
    b.add(t);
    let t = b.right(&items[16..], NIL);
    b.add(t);
    b.done()
}

/// 512 times an add that is taken back right after it.
pub fn undo(rng: &mut Rng) -> Vec<u8> {
    let (mut b, s) = begin();
    let pool = b.pool(rng, 8, 40);
    let items: Vec<u32> = (0..100).map(|_| *rng.pick(&pool)).collect();
    let open = b.right(&items, s);
    b.add(open);
    let trees: Vec<u32> = (0..8)
        .map(|i| b.right(&items[i * 10..i * 10 + 10], s))
        .collect();
    for i in 0..511 {
        b.add(trees[i % 8]);
        b.restore(1);
    }
    b.done()
}

/// 16 adds and 16 restores, the last add first, 31 times.
fn undo_in_a_row(rng: &mut Rng) -> Vec<u8> {
    let (mut b, s) = begin();
    let pool = b.pool(rng, 8, 40);
    let trees: Vec<u32> = (0..16)
        .map(|_| {
            let items: Vec<u32> = (0..20).map(|_| *rng.pick(&pool)).collect();
            b.right(&items, s)
        })
        .collect();
    for i in 0..31 * 32 {
        match i % 32 {
            k @ 0..16 => b.add(trees[k]),
            k => b.restore(31 - k),
        }
    }
    b.done()
}

/// Pairs of the atoms i and n - i, whose entries have numbers i and n - i: all
/// keys have the same sum.
fn one_slot(rng: &mut Rng) -> Vec<u8> {
    let (mut b, s) = begin();
    let all = atoms(&mut b, rng, 340, 8);
    let t = b.right(&all, s);
    b.add(t);
    let pairs: Vec<u32> = (0..340).map(|i| b.pair(all[i], all[339 - i])).collect();
    let t = b.right(&pairs, NIL);
    b.add(t);
    b.done()
}

/// An atom with 500 parents, which comes again between them.
fn parents(rng: &mut Rng) -> Vec<u8> {
    let (mut b, _) = begin();
    let x = atom(&mut b, rng, 60);
    let made: Vec<u32> = (0..500).map(|i| b.pair(b.small(i), x)).collect();
    let t = b.right(&made, x);
    b.add(t);
    b.done()
}

/// A list of 1,024 pairs, of whose first atoms `again` come last again: so many
/// searches make about 1,000 visits.
fn visits(rng: &mut Rng, again: usize) -> Vec<u8> {
    let (mut b, _) = begin();
    let far = atoms(&mut b, rng, again, 140);
    let between = (0..1_024 - 2 * again + 1).map(|i| b.small(i as u32 % 100));
    let mut items = far.clone();
    items.extend(between);
    items.extend(&far[..again - 1]);
    let t = b.right(&items, far[again - 1]);
    b.add(t);
    b.done()
}

fn cases() -> Vec<Case> {
    let case = |name, file| Case { name, file };
    let mut rng = Rng::new(1);
    let rng = &mut rng;
    vec![
        case("10 pairs", mixed(rng, 4, 10)),
        case("200 pairs", mixed(rng, 20, 200)),
        case("1,024 pairs", mixed(rng, 60, 1_024)),
        case("each pair twice the one before, 1,000 pairs", doubling(rng)),
        case("right list of 1,023, 20 atoms", list(rng, 20, false)),
        case("right list of 1,023, 900 atoms", list(rng, 900, false)),
        case("left list of 1,023, 20 atoms", list(rng, 20, true)),
        case("left list of 1,023, 900 atoms", list(rng, 900, true)),
        case("four atoms of 8,000 bytes, at 32 places", big_atoms(rng)),
        case("511 adds, each taken back", undo(rng)),
        case("16 adds, 16 restores, 31 times", undo_in_a_row(rng)),
        case("keys with equal sums, 340 pairs", one_slot(rng)),
        case("an atom with 500 parents", parents(rng)),
        case("one search to the visit limit", visits(rng, 1)),
        case("40 searches of about 1,000 visits", visits(rng, 40)),
    ]
}

/// Sessions of one add: three of mixed pairs, and those of `cases`.
fn one_add_cases() -> Vec<Case> {
    let mut rng = Rng::new(2);
    let mut all: Vec<Case> = [
        ("10 pairs", 4, 10),
        ("200 pairs", 20, 200),
        ("1,024 pairs", 60, 1_024),
    ]
    .map(|(name, atoms, pairs)| Case {
        name,
        file: mixed_in_one(&mut rng, atoms, pairs),
    })
    .into();
    all.extend(cases().into_iter().filter(|c| {
        let s = session::parse(&c.file).expect("a good file");
        s.steps.len() == 1
    }));
    all
}

/// The files of `cases`, then those that take back by `02` and by `03`, then those that quote, then those with long paths, numbered
/// from 1, in a folder.
pub fn write(folder: &str) -> std::io::Result<()> {
    std::fs::create_dir_all(folder)?;
    let mut files: Vec<Vec<u8>> = cases().into_iter().map(|c| c.file).collect();
    files.extend(undo_benchmark::cases().into_iter().flat_map(|c| c.files));
    files.extend(quote_benchmark::cases().into_iter().flat_map(|c| c.files));
    files.extend(measure_benchmark::cases().into_iter().map(|c| c.file));
    for (i, file) in files.iter().enumerate() {
        std::fs::write(format!("{folder}/{}.session", i + 1), file)?;
    }
    Ok(())
}

/// The steps by the unchanged `Serializer`; the size at the end.
pub fn steps(s: &SessionFile, a: &Allocator) -> u64 {
    let mut serializer = Serializer::new(s.sentinel.map(from_word));
    let mut undo: Vec<UndoState> = vec![];
    for step in &s.steps {
        match *step {
            Step::Add(h) => undo.push(serializer.add(a, from_word(h)).expect("an add").1),
            Step::Restore(k) => {
                undo.truncate(usize::from(k) + 1);
                serializer.restore(undo.pop().expect("a state"));
            }
            Step::Forget(_) | Step::Quote(_) | Step::Take => {
                panic!("the Rust has no 03, 04 and 05")
            }
        }
    }
    serializer.size()
}

/// The call's answer, which is the Rust's.
pub fn checked(name: &str, file: &[u8], port: &mut Port) -> SessionAnswer {
    let expected = session::run(file, MAX_OUTPUT, true);
    let now = port(file, MAX_OUTPUT);
    assert_eq!(
        (now.number, now.steps as usize, now.size as usize),
        (0, expected.words.len(), expected.output.len()),
        "{name}"
    );
    assert_eq!(
        (expected.number, port(EMPTY, MAX_OUTPUT).number),
        (0, 0),
        "{name}"
    );
    now
}

/// The call and the Rust on a case: a line of the table.
fn row(c: &Case, port: &mut Port) -> String {
    let now = checked(c.name, &c.file, port);
    let parsed = session::parse(&c.file).expect("a good file");
    let store = parsed.allocator();
    let mut once = |file: &[u8]| {
        port(file, MAX_OUTPUT);
    };
    let mut alone = || {
        black_box(steps(black_box(&parsed), &store));
    };
    let mut whole = || {
        let s = session::parse(black_box(&c.file)).expect("a good file");
        black_box(steps(&s, &s.allocator()));
    };
    let r = measure(&mut once, &c.file, EMPTY, &mut [&mut alone, &mut whole]);
    let counts = format!(
        "{} | {} | {} | {}",
        c.file.len(),
        parsed.pairs.len(),
        parsed.steps.len(),
        now.size
    );
    let [alone, whole] = r.rust[..] else {
        unreachable!()
    };
    format!(
        "| {} | {counts} | {:.1} | {:.1} | {:.1} | {alone:.1} | {whole:.1} | {:.2} |",
        c.name,
        r.whole,
        r.zeroing,
        r.difference,
        r.difference / alone
    )
}

pub fn run() {
    let (mut work, mut words) = (vec![0; WORK_LENGTH], vec![0; WORDS_LENGTH]);
    let mut checkpoints = vec![Checkpoint::default(); CHECKPOINTS_LENGTH];
    let mut output = vec![0; MAX_OUTPUT];
    let mut any_port = |call: SessionCall, file: &[u8], length: usize| {
        black_box(call(
            black_box(file),
            &mut work,
            &mut words,
            &mut checkpoints,
            &mut output[..length],
        ))
    };
    let mut port = |file: &[u8], length: usize| any_port(call::session, file, length);
    heading();
    for c in cases() {
        println!("{}", row(&c, &mut port));
    }
    undo_benchmark::heading();
    for c in undo_benchmark::cases() {
        println!("{}", undo_benchmark::row(&c, &mut port));
    }
    quote_benchmark::tries_heading();
    for c in quote_benchmark::tries() {
        println!("{}", quote_benchmark::tries_row(&c, &mut port));
    }
    quote_benchmark::heading();
    for c in quote_benchmark::cases() {
        println!("{}", quote_benchmark::row(&c, &mut port));
    }
    cache_benchmark::heading();
    for c in one_add_cases() {
        println!("{}", cache_benchmark::row(&c, &mut port));
    }
    count_benchmark::heading();
    for c in cases() {
        println!("{}", count_benchmark::row(&c, &mut port));
    }
    let mut any_port = |call: SessionCall, file: &[u8]| any_port(call, file, MAX_OUTPUT);
    measure_benchmark::heading();
    for c in cases().into_iter().chain(measure_benchmark::cases()) {
        println!("{}", measure_benchmark::row(&c, &mut any_port));
    }
}

fn heading() {
    println!(
        "Medians in microseconds. *Zeroing* is a call on a file without steps; *session* is a call less the zeroing right after it."
    );
    println!(
        "*`Serializer`* is the Rust's steps on a store that is there; *with the file* has the file read into a fresh store too."
    );
    println!("Its SHA-1 and its arena are the rig's plain ones.\n");
    println!(
        "| session | bytes | pairs | steps | output | the call | zeroing | session | `Serializer` | with the file | session : `Serializer` |"
    );
    println!("|---|--:|--:|--:|--:|--:|--:|--:|--:|--:|--:|");
}
