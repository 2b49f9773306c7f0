//! What the bytes of one atom of 65,535 bytes take beside the zeroing:
//! differences of calls that follow each other, so that a change of the machine's
//! speed is in both.

use crate::benchmark::{atom, rust};
use crate::times::{micros, quartile};
use nikvoldra::call::{self, ATOMS_LENGTH, BYTES_LENGTH, PAIRS_LENGTH, WORK_LENGTH};
use oracle::reading::MAX_INPUT;
use oracle::rng::Rng;
use std::hint::black_box;

const ROUNDS: usize = 2_000;
/// Words of all slices of the call.
const CLEARED: usize = WORK_LENGTH + PAIRS_LENGTH + ATOMS_LENGTH + BYTES_LENGTH / 4;

/// The long input, the short one twice, the long one: half of what the long ones take more. `before` is not timed.
fn more(mut before: impl FnMut(), mut call: impl FnMut(&[u8]), long: &[u8], short: &[u8]) -> f64 {
    let [a, b, c, d] = [long, short, short, long].map(|input| {
        before();
        micros(|| call(input))
    });
    (a - b - c + d) / 2.0
}

fn row(name: &str, mut round: impl FnMut() -> f64) {
    let mut all: Vec<f64> = (0..ROUNDS).map(|_| round()).collect();
    let [a, b, c] = [1, 2, 3].map(|quarters| quartile(&mut all, quarters));
    println!("| {name} | {a:.1} | {b:.1} | {c:.1} |");
}

pub fn run() {
    let mut rng = Rng::new(1);
    let long = atom(&rng.bytes(MAX_INPUT - 3));
    let short = atom(&rng.bytes(33));
    let (mut work, mut pairs) = (vec![0; WORK_LENGTH], vec![0; PAIRS_LENGTH]);
    let (mut atoms, mut bytes) = (vec![0; ATOMS_LENGTH], vec![0; BYTES_LENGTH]);
    let mut port = |input: &[u8]| {
        let input = black_box(input);
        black_box(call::read(
            input, &mut work, &mut pairs, &mut atoms, &mut bytes,
        ));
    };
    let mut words = vec![0_u32; CLEARED];
    let mut clear = || {
        words.fill(0);
        black_box(&mut words);
    };
    println!("\n| one atom, 65,535 bytes | lower quartile | median | upper quartile |");
    println!("|---|--:|--:|--:|");
    row("the call", || more(|| (), &mut port, &long, &short));
    row("the Rust", || more(|| rust(&long), rust, &long, &short));
    row("the Rust, after as much zeroing", || {
        more(&mut clear, rust, &long, &short)
    });
    copies(&long, clear);
}

/// The C library's copy of the same bytes, into memory that has just been written.
fn copies(long: &[u8], mut clear: impl FnMut()) {
    let mut to = vec![0; long.len()];
    let mut copy = |cold: bool| {
        if cold {
            clear();
        }
        to.fill(0);
        black_box(&mut to);
        let taken = micros(|| to.copy_from_slice(black_box(long)));
        black_box(&mut to);
        taken
    };
    row("memcpy", || copy(false));
    row("memcpy, after as much zeroing", || copy(true));
}
